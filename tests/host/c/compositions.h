/*
 * Checks of yaslaurel_image_compose, for calls.c: pairs of small images with what the request says of them, each refusal, and the memory
 * that a refused call leaves.
 */
#ifndef COMPOSITIONS_H
#define COMPOSITIONS_H

/* A small policy: one file, one user, a rule for the file's contents, one for what runs it, one for the user. */
struct small {
    uint64_t kind, atom, users;
    uint64_t owner; /* of the permit rule */
    uint64_t permit[8], run, user;
    size_t permits;
};

static const struct small plain_small = {YASLAUREL_FILE, 0, 1, YASLAUREL_NO_OWNER, {1}, 4, 2, 1};

static size_t small_image(const struct small *small, uint8_t *image)
{
    const size_t counts[YASLAUREL_SECTIONS] = {1, small->users, 3, small->permits + 2};
    size_t length = put_header(image, counts, NULL);
    uint8_t *at = put_container(section_at(image, CONTAINER_SECTION), small->kind, small->atom, 0, 1);

    for (size_t i = 0; i < small->users; i++) {
        at = put_user(at, 2);
    }
    at = put_owned_rule(at, 0, small->permits, small->owner);
    at = put_rule(put_rule(at, small->permits, 1), small->permits + 1, 1);
    for (size_t i = 0; i < small->permits; i++) {
        at = put_mixture(at, small->permit[i]);
    }
    put_mixture(put_mixture(at, small->run), small->user);
    return length;
}

static size_t composed_length;

/* Composes two images of which bits say who consents. The length that it leaves is in composed_length. */
static uint32_t composed_by(const uint8_t *first, size_t first_length, const uint8_t *second, size_t second_length, uint32_t bits)
{
    uint8_t consent[YASLAUREL_ATOMS];

    for (size_t i = 0; i < YASLAUREL_ATOMS; i++) {
        consent[i] = bits >> i & 1;
    }
    mark_out();
    composed_length = 77;
    return yaslaurel_image_compose(first, first_length, second, second_length, consent, sizeof consent, out, OUTPUT,
                                   &composed_length);
}

static uint32_t small_composed(const struct small *one, const struct small *other, uint32_t bits)
{
    uint8_t first[200], second[200];
    size_t first_length = small_image(one, first);

    return composed_by(first, first_length, second, small_image(other, second), bits);
}

/* Two small policies give a third, in either order. */
static int small_gives(const struct small *one, const struct small *other, uint32_t bits, const struct small *wanted)
{
    static uint8_t normal[OUTPUT];
    uint8_t image[200];
    size_t length = yaslaurel_image_normalise(image, small_image(wanted, image), normal, OUTPUT);

    for (int turn = 0; turn < 2; turn++) {
        uint32_t number = turn == 0 ? small_composed(one, other, bits) : small_composed(other, one, bits);
        if (number != 0 || composed_length != length || memcmp(out, normal, length) != 0 || !out_stayed_from(length)) {
            return 0;
        }
    }
    return 1;
}

/* The rules of a place: two lists of mixtures, who consents, and the list that they give. */
static void composed_rules(void)
{
    static const struct {
        const char *text;
        size_t counts[3];
        uint64_t lists[3][8];
        uint32_t bits;
    } rules[] = {
        {"a mixture that the other rule covers", {1, 1, 1}, {{1}, {7}, {1}}, 0},
        {"no intersection enters", {1, 1, 0}, {{3}, {6}, {0}}, 0},
        {"a mixture that consents", {1, 1, 1}, {{1}, {2}, {1}}, 1},
        {"all atoms of a mixture are asked", {1, 0, 0}, {{3}, {0}, {0}}, 1},
        {"mixtures of the normal form alone", {2, 0, 0}, {{3, 1}, {0}, {0}}, 1},
        {"a running atom consents with its data atom", {1, 0, 1}, {{(uint64_t)1 << 32}, {0}, {(uint64_t)1 << 32}}, 1},
        {"the empty mixture consents", {1, 0, 1}, {{0}, {0}, {0}}, 0},
        {"9 mixtures of which one is held by another",
         {8, 1, 7},
         {{1, 2, 4, 8, 16, 32, 64, 128}, {3}, {3, 4, 8, 16, 32, 64, 128}},
         UINT32_MAX},
    };

    for (size_t i = 0; i < sizeof rules / sizeof rules[0]; i++) {
        struct small made[3] = {plain_small, plain_small, plain_small};
        for (size_t j = 0; j < 3; j++) {
            made[j].permits = rules[i].counts[j];
            memcpy(made[j].permit, rules[i].lists[j], sizeof made[j].permit);
        }
        check(small_gives(&made[0], &made[1], rules[i].bits, &made[2]), rules[i].text);
    }
}

static void composed_places(void)
{
    struct small one = plain_small, other = plain_small, wanted = plain_small;

    one.owner = other.owner = wanted.owner = 0;
    check(small_gives(&one, &other, 0, &wanted), "compose: an owner stays where both agree");
    other.owner = wanted.owner = YASLAUREL_NO_OWNER;
    check(small_gives(&one, &other, 0, &wanted), "compose: an owner against nobody is nobody");
    one.users = other.users = wanted.users = 2;
    other.owner = 1;
    check(small_gives(&one, &other, 0, &wanted), "compose: two owners are nobody");
    one = other = wanted = plain_small;
    one.user = 7;
    check(small_gives(&one, &other, 0, &wanted), "compose: users' rules are composed");
    one = plain_small;
    one.run = 6;
    check(small_gives(&one, &other, 0, &wanted), "compose: run rules are composed with run rules");
}

/* Two policies of so many rules, at a place for each pair of them. */
static size_t product_image(uint8_t *image, size_t each, int second)
{
    const size_t uses = each * each, places = (uses + 1) / 2;
    const size_t counts[YASLAUREL_SECTIONS] = {places, 1, each, each};
    size_t length = put_header(image, counts, NULL);
    uint8_t *at = section_at(image, CONTAINER_SECTION);

    for (size_t i = 0; i < places; i++) {
        size_t rule[2];
        for (size_t j = 0; j < 2; j++) {
            size_t use = 2 * i + j;
            rule[j] = use >= uses ? YASLAUREL_UNRESTRICTED : second ? use % each : use / each;
        }
        at = put_container(at, YASLAUREL_FILE, YASLAUREL_NO_ATOM, rule[0], rule[1]);
    }
    at = put_user(at, YASLAUREL_UNRESTRICTED);
    for (size_t i = 0; i < each; i++) {
        at = put_rule(at, i, 1);
    }
    for (size_t i = 0; i < each; i++) {
        at = put_mixture(at, (uint64_t)1 << (i + (second ? 32 : 0)));
    }
    return length;
}

static void composed_limits(void)
{
    static uint8_t first[YASLAUREL_IMAGE_LIMIT], second[YASLAUREL_IMAGE_LIMIT];
    static const uint8_t alone[20] = {5, 0, 18, 0, 0, 0, 18, 0, 2, 0, 20, 0, 0, 0, 20, 0, 0, 0, 255, 255};
    struct small one = plain_small, other = plain_small;

    for (size_t i = 0; i < 8; i++) {
        one.permit[i] = (uint64_t)1 << i;
    }
    one.permits = 8;
    other.permit[0] = 256;
    check(small_composed(&one, &other, UINT32_MAX) == 21 && out_stayed_from(0) && composed_length == 77,
          "compose: a place of 9 mixtures is 21, and leaves output and length");
    size_t length = product_image(first, 16, 0);
    check(composed_by(first, length, second, product_image(second, 16, 1), UINT32_MAX) == 0 &&
              get16(out + YASLAUREL_LENGTH_AT(RULE_SECTION)) == 256 * YASLAUREL_RULE_LENGTH,
          "compose: 256 rules are written");
    length = product_image(first, 17, 0);
    check(composed_by(first, length, second, product_image(second, 17, 1), UINT32_MAX) == 21, "compose: 289 rules are 21");
    check(composed_by(alone, sizeof alone, alone, sizeof alone, 0) == 0 && composed_length == 20 &&
              memcmp(out, alone, sizeof alone) == 0 && out_stayed_from(sizeof alone),
          "compose: a length of 20 is no refusal");
}

/* What differs in shape, a consent that is none, and the order of refusals. */
static void composed_refusals(void)
{
    struct small other = plain_small;
    uint8_t image[200], damaged[200], consent[YASLAUREL_ATOMS + 1] = {0};
    size_t length = small_image(&plain_small, image);

    other.kind = YASLAUREL_GUARDED;
    check(small_composed(&plain_small, &other, 0) == 20 && composed_length == 77 && out_stayed_from(0),
          "compose: kinds differ, and output and length stay");
    other = plain_small;
    other.atom = 1;
    check(small_composed(&plain_small, &other, 0) == 20, "compose: atoms differ");
    other = plain_small;
    other.users = 2;
    check(small_composed(&plain_small, &other, 0) == 20 && small_composed(&other, &plain_small, 0) == 20,
          "compose: users differ in number");
    check(composed_by(image, length, empty, HEADER, 0) == 20, "compose: containers differ in number");
    composed_length = 77;
    for (size_t consents = 0; consents <= YASLAUREL_ATOMS + 1; consents++) {
        uint32_t number = yaslaurel_image_compose(image, length, image, length, consent, consents, out, OUTPUT, &composed_length);
        check(number == (consents == YASLAUREL_ATOMS ? 0 : 20), "compose: a consent of another length is 20");
    }
    consent[31] = 2;
    check(yaslaurel_image_compose(image, length, image, length, consent, YASLAUREL_ATOMS, out, OUTPUT, &composed_length) == 20,
          "compose: a consent byte of 2 is 20");
    memcpy(damaged, image, length);
    damaged[section_at(damaged, CONTAINER_SECTION) - damaged] = 9;
    check(composed_by(damaged, length, image, 3, 0) == 5 && composed_by(image, 3, damaged, length, 0) == 1,
          "compose: the first image is judged before the second");
    check(composed_by(image, length, damaged, length, 0) == 5, "compose: then the second");
    composed_length = 77;
    mark_out();
    check(yaslaurel_image_compose(image, length, damaged, length, consent, 31, out, OUTPUT, &composed_length) == 5,
          "compose: the second image is judged before the consent");
    check(yaslaurel_image_compose(damaged, length, image, length, consent, 0, out, OUTPUT - 1, &composed_length) == 9,
          "compose: 9 comes first");
    check(yaslaurel_image_compose(yaslaurel_bytes(NULL), 0, yaslaurel_bytes(NULL), 0, yaslaurel_bytes(NULL), 0,
                                  yaslaurel_output(NULL), 0, &composed_length) == 9,
          "compose: nulls");
    check(composed_length == 77 && out_stayed_from(0), "compose: a refusal leaves length and output");
}

static void compositions(void)
{
    composed_rules();
    composed_places();
    composed_limits();
    composed_refusals();
}

#endif
