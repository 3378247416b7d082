/* Random pairs of images for yaslaurel_image_compose, for fuzz.c. */
#ifndef COMPOSITIONS_H
#define COMPOSITIONS_H

static struct region second_at, consent_at, length_at;
static unsigned long pairs[ANSWERS];

enum { LENGTH_BEFORE = 0x31415926 };

/* An image of the same shape as an accepted one: other mixtures, and now and then another rule at a place. */
static size_t like_image(uint8_t *second, const uint8_t *first, size_t length)
{
    memcpy(second, first, length);
    size_t mixtures = get16(second + YASLAUREL_LENGTH_AT(MIXTURE_SECTION)) / YASLAUREL_MIXTURE_LENGTH;
    size_t places = get16(second + YASLAUREL_LENGTH_AT(CONTAINER_SECTION)) / YASLAUREL_CONTAINER_LENGTH;
    for (size_t i = 0; i < mixtures; i++) {
        if (percent(40)) {
            uint64_t mixture = percent(50) ? draw() & draw() : (uint64_t)1 << below(64);
            put_mixture(section_at(second, MIXTURE_SECTION) + i * YASLAUREL_MIXTURE_LENGTH, mixture);
        }
    }
    if (places > 0 && percent(30)) {
        uint8_t *place = section_at(second, CONTAINER_SECTION) + below(places) * YASLAUREL_CONTAINER_LENGTH;
        if (place[0] == YASLAUREL_FILE || place[0] == YASLAUREL_GUARDED) {
            put16(place + 2, YASLAUREL_UNRESTRICTED);
        }
    }
    if (places > 0 && percent(5)) {
        uint8_t *place = section_at(second, CONTAINER_SECTION) + below(places) * YASLAUREL_CONTAINER_LENGTH;
        place[0] = place[0] == YASLAUREL_FILE ? YASLAUREL_GUARDED : place[0] == YASLAUREL_GUARDED ? YASLAUREL_FILE : place[0];
    }
    return length;
}

/* Composes what is lent in the two regions, one of them first. */
static uint32_t compose(const struct region *first, const struct region *second, size_t out_length)
{
    return yaslaurel_image_compose(first->slice, first->length, second->slice, second->length, consent_at.slice,
                                   consent_at.length, out_at.slice, out_length, (size_t *)(void *)length_at.slice);
}

static size_t length_told(void) { return *(const size_t *)(const void *)length_at.slice; }

/* What is composed is accepted, and its own normal image; the other order gives the same. */
static void check_composed(size_t length)
{
    static uint8_t kept[OUTPUT];
    memcpy(kept, out_at.slice, length);
    require(yaslaurel_image_check(kept, length) == 0, "a composed image is accepted");
    require(yaslaurel_image_normalise(kept, length, out_at.slice, OUTPUT) == length && memcmp(out_at.slice, kept, length) == 0,
            "a composed image is its own normal image");
    memset(out_at.slice, 0, length);
    require(compose(&second_at, &image_at, OUTPUT) == 0 && length_told() == length && memcmp(out_at.slice, kept, length) == 0,
            "composed in the other order, the same bytes");
}

static void try_compose(void)
{
    static uint8_t second[sizeof image];
    static const size_t before = LENGTH_BEFORE;
    uint8_t consent[YASLAUREL_ATOMS + 4];
    size_t length = make_image(), second_length = like_image(second, image, length);
    size_t out_length = percent(92) ? OUTPUT : below(OUTPUT);
    size_t consents = percent(92) ? YASLAUREL_ATOMS : below(sizeof consent);

    int everybody = percent(40);
    for (size_t i = 0; i < sizeof consent; i++) {
        consent[i] = (uint8_t)(percent(98) || i > 3 ? everybody || below(2) : below(256));
    }
    if (percent(12)) {
        length = damage(length);
    }
    if (percent(12)) {
        second_length = below(second_length + 1);
    }
    lend(&image_at, image, length);
    lend(&second_at, second, second_length);
    lend(&consent_at, consent, consents);
    lend(&out_at, blank, out_length);
    lend(&length_at, &before, sizeof before);
    read_only(&image_at, 1), read_only(&second_at, 1), read_only(&consent_at, 1);
    uint32_t answer = compose(&image_at, &second_at, out_length);
    uint32_t first_check = yaslaurel_image_check(image_at.slice, length);
    uint32_t second_check = yaslaurel_image_check(second_at.slice, second_length);
    read_only(&image_at, 0), read_only(&second_at, 0), read_only(&consent_at, 0);

    require(answer <= 6 || answer == 9 || answer == 20 || answer == 21, "a composition gives 0 to 6, 9, 20 or 21");
    pairs[answer]++;
    require((answer == 9) == (out_length < OUTPUT), "a composition gives 9 for a short output alone");
    if (answer != 9 && (first_check != 0 || second_check != 0)) {
        require(answer == (first_check != 0 ? first_check : second_check), "a composition refuses the first image, then the second");
    }
    require(consents == YASLAUREL_ATOMS || answer != 0, "a consent of another length gives a refusal");
    require(stayed(&image_at, 0) && stayed(&second_at, 0) && stayed(&consent_at, 0), "images and consent stay");
    require(stayed(&out_at, answer == 0 ? length_told() : 0), "the output stays, but for the composed image");
    require(answer == 0 ? length_told() >= HEADER && length_told() <= OUTPUT : stayed(&length_at, 0),
            "the length is that of an image, or stays");
    if (answer == 0) {
        check_composed(length_told());
    }
}

#endif
