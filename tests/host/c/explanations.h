/*
 * Checks of yaslaurel_explain and yaslaurel_why, for calls.c: traces of one small policy with what the header says of them, each refusal,
 * lengths at their limits, and the memory that a call leaves.
 */
#ifndef EXPLANATIONS_H
#define EXPLANATIONS_H

/* A trace in words of four numbers: code, process, object and user, where there is one. */
struct told {
    uint8_t code, p, o, u;
};

enum {
    NONE = 255, /* no user of a step */
    MOST_STEPS = 8,
    ROOM = 5, /* more than is needed, of links and of steps */
    TWINS = 2, /* the rule of file 3, which file 4 has too, under the next number and of another owner */
    NOBODY = YASLAUREL_NO_OWNER
};

/*
 * Files 0 to 3 have the atoms 0 to 3, file 4 atom 3 too, files 7 and 8 none; file 2 is guarded; 5 and 6 are processes. Every rule permits
 * all running atoms, but the last, which has no mixture. Rule 0 is written with a repeat, and with a mixture that another holds.
 */
static size_t told_image(uint8_t *image)
{
    static const uint64_t running = 0xf00000000u, data[] = {2, 10, 2, 4, 8, 1};
    const size_t counts[YASLAUREL_SECTIONS] = {9, 3, 6, 6}, open = YASLAUREL_UNRESTRICTED;
    size_t length = put_header(image, counts, NULL);
    uint8_t *at = section_at(image, CONTAINER_SECTION);

    at = put_container(put_container(at, YASLAUREL_FILE, 0, open, open), YASLAUREL_FILE, 1, 0, open);
    at = put_container(put_container(at, YASLAUREL_GUARDED, 2, 1, open), YASLAUREL_FILE, 3, open, TWINS);
    at = put_container(at, YASLAUREL_FILE, 3, open, TWINS + 1);
    at = put_other(put_other(at, YASLAUREL_PROCESS), YASLAUREL_PROCESS);
    at = put_container(at, YASLAUREL_FILE, YASLAUREL_NO_ATOM, open, open);
    put_container(at, YASLAUREL_FILE, YASLAUREL_NO_ATOM, open, 4);
    put_user(put_user(put_user(section_at(image, USER_SECTION), open), 1), 5);
    at = put_rule(put_owned_rule(section_at(image, RULE_SECTION), 0, 3, 1), 3, 1);
    at = put_owned_rule(put_owned_rule(at, 4, 1, 0), 4, 1, 1);
    put_rule(put_rule(at, 5, 1), 6, 0);
    at = section_at(image, MIXTURE_SECTION);
    for (size_t i = 0; i < sizeof data / sizeof data[0]; i++) {
        at = put_mixture(at, data[i] | running);
    }
    return length;
}

static uint8_t told_policy[400];
static size_t told_policy_length;
static uint8_t told_trace[MOST_STEPS * RECORD];
static uint64_t links[YASLAUREL_LINKS_LENGTH(MOST_STEPS) + ROOM], told_steps[MOST_STEPS + ROOM], reason[YASLAUREL_WHY_LENGTH + ROOM];
static uint64_t file_told, first_told;

static size_t put_told(const struct told *steps, size_t count)
{
    for (size_t i = 0; i < count; i++) {
        uint32_t user = steps[i].u == NONE ? YASLAUREL_NO_USER : steps[i].u;
        yaslaurel_record(steps[i].code, steps[i].p, steps[i].o, user, told_trace + RECORD * i);
    }
    return RECORD * count;
}

/* Everything that is lent is filled with numbers as the library's own. */
static void mark_told(void)
{
    for (size_t i = 0; i < sizeof links / sizeof links[0]; i++) {
        links[i] = 1 + i % 300;
    }
    for (size_t i = 0; i < sizeof told_steps / sizeof told_steps[0]; i++) {
        told_steps[i] = 1000 + i;
    }
    for (size_t i = 0; i < sizeof reason / sizeof reason[0]; i++) {
        reason[i] = 2000 + i;
    }
    file_told = 3000, first_told = 4000;
}

static int links_stayed_from(size_t from)
{
    int good = 1;
    for (size_t i = from; i < sizeof links / sizeof links[0]; i++) {
        good = good && links[i] == 1 + i % 300;
    }
    return good;
}

/* The steps are as they were before a place. */
static int steps_stayed_to(size_t place)
{
    int good = 1;
    for (size_t i = 0; i < place; i++) {
        good = good && told_steps[i] == 1000 + i;
    }
    return good;
}

static int reason_stayed_from(size_t from)
{
    int good = 1;
    for (size_t i = from; i < sizeof reason / sizeof reason[0]; i++) {
        good = good && reason[i] == 2000 + i;
    }
    return good;
}

static int told_stayed(void)
{
    return links_stayed_from(0) && steps_stayed_to(sizeof told_steps / sizeof told_steps[0]) && reason_stayed_from(0) &&
           file_told == 3000 && first_told == 4000;
}

static uint32_t explain(size_t image_length, size_t length, size_t container, size_t atom, size_t links_length, size_t steps_length)
{
    mark_told();
    return yaslaurel_explain(told_policy, image_length, told_trace, length, container, atom, links, links_length, told_steps,
                             steps_length, &file_told, &first_told);
}

static uint32_t why(size_t image_length, size_t length, size_t links_length, size_t steps_length, size_t reason_length)
{
    mark_told();
    return yaslaurel_why(told_policy, image_length, told_trace, length, links, links_length, told_steps, steps_length, reason,
                         reason_length);
}

/* Whether the records of a chain stand at the end of the steps, and what is before them and behind the links is as it was. */
static int chain_is(size_t length, size_t steps_length, uint64_t first, const char *records, size_t count)
{
    int good = first == steps_length - count && steps_stayed_to(steps_length - count) &&
               links_stayed_from(YASLAUREL_LINKS_LENGTH(YASLAUREL_TRACE_RECORDS(length)));
    for (size_t i = 0; i < count; i++) {
        good = good && told_steps[first + i] == (uint64_t)records[i];
    }
    return good;
}

/* A trace, a container and an atom, and the chain: its file, and its records as bytes of a text. */
struct chained {
    struct told steps[MOST_STEPS];
    size_t count, container, atom;
    uint64_t file;
    const char *records;
    size_t length;
    const char *text;
};

static const struct chained chained[] = {
    {{{1, 5, 0, NONE}, {3, 5, 1, NONE}}, 2, 1, 0, 0, "\0\1", 2, "explain: by a read and an append"},
    {{{1, 5, 0, NONE}, {3, 5, 1, NONE}}, 2, 1, 1, 1, "", 0, "explain: an atom of the file itself"},
    {{{1, 5, 0, NONE}, {3, 5, 1, NONE}}, 2, 255, 0, YASLAUREL_NO_CHAIN, "", 0, "explain: a number that is free"},
    {{{0, 0, 0, 0}}, 0, 3, 3, 3, "", 0, "explain: without a record"},
    {{{0, 0, 0, 0}}, 0, 3, 35, YASLAUREL_NO_CHAIN, "", 0, "explain: no file starts with a running atom"},
    {{{1, 5, 0, NONE}, {3, 5, 7, NONE}, {2, 6, 7, NONE}}, 3, 7, 0, YASLAUREL_NO_CHAIN, "", 0, "explain: into a file that is overwritten"},
    {{{1, 5, 0, NONE}, {3, 5, 7, NONE}, {2, 5, 7, NONE}}, 3, 7, 0, 0, "\0\2", 2, "explain: by the write that ended the older chain"},
    {{{4, 5, 3, 0}, {3, 5, 7, NONE}, {1, 6, 7, NONE}}, 3, 7, 35, 3, "\0\1", 2, "explain: a running atom by an exec and an append"},
    {{{4, 5, 3, 0}, {3, 5, 7, NONE}, {1, 6, 7, NONE}}, 3, 6, 35, YASLAUREL_NO_CHAIN, "", 0, "explain: no running atom by a read"},
    {{{4, 5, 3, 0}, {5, 5, 9, NONE}}, 2, 9, 35, 3, "\0\1", 2, "explain: a running atom by a fork"},
    {{{1, 5, 0, NONE}, {3, 5, 7, NONE}, {9, 5, 7, NONE}, {7, 5, 7, NONE}}, 4, 7, 0, YASLAUREL_NO_CHAIN, "", 0,
     "explain: into a file that was deleted, and a later holder"},
    {{{3, 0, 1, NONE}, {1, 5, 0, NONE}, {3, 5, 1, NONE}}, 3, 1, 0, 0, "\1\2", 2, "explain: behind a refused record, which counts"},
    {{{3, 0, 1, NONE}}, 1, 1, 0, YASLAUREL_NO_CHAIN, "", 0, "explain: not by a refused record"},
    {{{1, 5, 0, NONE}, {3, 5, 2, NONE}}, 2, 2, 0, 0, "\0\1", 2, "explain: by the last record, which is blocked"},
    {{{1, 5, 0, NONE}, {3, 5, 2, NONE}, {1, 6, 2, NONE}}, 3, 6, 0, YASLAUREL_NO_CHAIN, "", 0, "explain: not by a blocked record before it"},
    {{{1, 5, 0, NONE}, {1, 5, 0, NONE}}, 2, 5, 0, 0, "\0", 1, "explain: the first of two reads"},
    {{{1, 5, 0, NONE}, {4, 5, 3, 0}}, 2, 5, 0, 0, "\0", 1, "explain: data that an exec keeps"},
    {{{4, 5, 3, 0}, {4, 5, 7, 0}}, 2, 5, 35, YASLAUREL_NO_CHAIN, "", 0, "explain: a running atom that an exec ends"},
    {{{1, 5, 2, NONE}}, 1, 5, 2, 2, "\0", 1, "explain: from a guarded file"},
    {{{1, 5, 4, NONE}, {1, 5, 3, NONE}, {2, 5, 7, NONE}, {4, 6, 7, 0}}, 4, 6, 35, 4, "\0\2\3", 3, "explain: of two files of one atom the first"},
};

/* A trace, the first nine numbers of the reason but where the chain stands, the atoms, and the run rule's chain. */
struct reasoned {
    struct told steps[MOST_STEPS];
    size_t count;
    uint64_t numbers[7];
    size_t mixtures;
    uint64_t lacked[3];
    const char *records;
    size_t length;
    const char *text;
};

static const struct reasoned reasoned[] = {
    {{{1, 5, 0, NONE}, {3, 5, 1, NONE}}, 2, {1, 3, 0, 0, 1, 0, 1}, 3, {0, 0, 0}, "", 0, "why: a file's own rule, as the image writes it"},
    {{{1, 5, 2, NONE}, {3, 5, 1, NONE}}, 2, {1, 6, 0, 0, 1, 0, 1}, 3, {2, 2, 2}, "", 0, "why: an atom of the tag that is not lacked"},
    {{{1, 5, 0, NONE}, {1, 5, 3, NONE}, {3, 5, 1, NONE}}, 3, {1, 11, 0, 0, 1, 0, 1}, 3, {0, 0, 0}, "", 0, "why: the least of several"},
    {{{1, 5, 3, NONE}, {1, 5, 2, NONE}, {3, 5, 1, NONE}}, 3, {1, 14, 0, 0, 1, 0, 1}, 3, {2, 2, 2}, "", 0, "why: lacked by all mixtures"},
    {{{6, 5, 9, 1}, {1, 5, 0, NONE}, {3, 5, 9, NONE}}, 3, {9, 1, 1, 0, 1, 1, NOBODY}, 1, {0}, "", 0, "why: a new file's, of its user"},
    {{{9, 5, 1, NONE}, {6, 5, 1, 1}, {1, 5, 0, NONE}, {3, 5, 1, NONE}}, 4, {1, 1, 1, 1, 1, 1, NOBODY}, 1, {0}, "", 0,
     "why: a later holder of a number"},
    {{{4, 5, 7, 1}, {1, 5, 0, NONE}}, 2, {5, 1, 2, 0, 1, 1, NOBODY}, 1, {0}, "", 0, "why: the user's of an exec"},
    {{{4, 5, 3, 1}, {1, 5, 0, NONE}}, 2, {5, 0x800000001, 2, 0, 1, 1, NOBODY}, 1, {0}, "", 0, "why: the user's before a run rule"},
    {{{4, 5, 7, 1}, {5, 5, 9, NONE}, {1, 9, 0, NONE}}, 3, {9, 1, 2, 0, 1, 1, NOBODY}, 1, {0}, "", 0, "why: the exec before the fork"},
    {{{4, 5, 7, 1}, {5, 5, 9, NONE}, {4, 9, 3, 0}, {1, 9, 0, NONE}}, 4, {9, 0x800000001, 3, 2, 3, 2, 0}, 1, {0}, "", 0,
     "why: a fork's own exec"},
    {{{4, 5, 7, 2}}, 1, {5, 0, 2, 0, 2, 5, NOBODY}, 0, {0}, "", 0, "why: a rule without mixtures, at the exec itself"},
    {{{1, 5, 3, NONE}, {2, 5, 7, NONE}, {4, 6, 7, 0}, {1, 6, 0, NONE}}, 4, {6, 0x800000001, 3, 2, 3, 2, 0}, 1, {0}, "\0\1", 2,
     "why: a run rule that travelled"},
    {{{1, 5, 3, NONE}, {3, 5, 7, NONE}, {4, 6, 7, 0}, {1, 6, 0, NONE}}, 4, {6, 0x800000001, 3, 2, 3, 2, 0}, 1, {0}, "\0\1", 2,
     "why: not a run rule that covers the tag"},
    {{{1, 5, 3, NONE}, {2, 5, 7, NONE}, {4, 6, 7, 0}, {2, 5, 7, NONE}, {1, 6, 0, NONE}}, 5, {6, 0x800000001, 3, 2, 3, 2, 0}, 1, {0}, "\0\1", 2,
     "why: the chain of a run rule just before the exec"},
    {{{1, 5, 4, NONE}, {1, 5, 3, NONE}, {2, 5, 7, NONE}, {4, 6, 7, 0}, {1, 6, 0, NONE}}, 5, {6, 0x800000001, 3, 3, 4, 3, 1}, 1, {0}, "\0\2", 2,
     "why: a run rule that two files have, under two numbers"},
    {{{1, 5, 8, NONE}, {1, 5, 3, NONE}, {2, 5, 7, NONE}, {4, 6, 7, 0}, {1, 6, 1, NONE}}, 5, {6, 0x800000002, 3, 3, 3, 2, 0}, 1, {1}, "\1\2", 2,
     "why: of two run rules the first file's"},
    {{{1, 5, 0, NONE}, {3, 5, 2, NONE}}, 2, {2, 5, 0, 0, 2, 1, NOBODY}, 1, {0}, "", 0, "why: a blocked record, with the tag that is answered"},
};

static void chain_examples(void)
{
    for (size_t i = 0; i < sizeof chained / sizeof chained[0]; i++) {
        const struct chained *c = &chained[i];
        size_t length = put_told(c->steps, c->count);
        int good = 1;
        for (size_t more = 0; more <= ROOM; more += ROOM) {
            size_t steps_length = c->count + more;
            uint32_t answer = explain(told_policy_length, length, c->container, c->atom, YASLAUREL_LINKS_LENGTH(c->count) + more, steps_length);
            good = good && answer == 0 && file_told == c->file && reason_stayed_from(0) &&
                   chain_is(length, steps_length, first_told, c->records, c->length);
        }
        check(good, c->text);
    }
}

static void reason_examples(void)
{
    for (size_t i = 0; i < sizeof reasoned / sizeof reasoned[0]; i++) {
        const struct reasoned *c = &reasoned[i];
        size_t length = put_told(c->steps, c->count);
        int good = 1;
        for (size_t more = 0; more <= ROOM; more += ROOM) {
            size_t steps_length = c->count + more;
            uint32_t answer = why(told_policy_length, length, YASLAUREL_LINKS_LENGTH(c->count) + more, steps_length, YASLAUREL_WHY_LENGTH + more);
            good = good && answer == 0 && memcmp(reason, c->numbers, sizeof c->numbers) == 0 &&
                   reason[YASLAUREL_WHY_MIXTURES_AT] == c->mixtures && reason_stayed_from(YASLAUREL_WHY_LENGTH) &&
                   chain_is(length, steps_length, reason[YASLAUREL_WHY_FIRST_AT], c->records, c->length);
            for (size_t k = 0; good && k < YASLAUREL_RULE_MIXTURES; k++) {
                good = reason[YASLAUREL_WHY_LACKED_AT + k] == (k < c->mixtures ? c->lacked[k] : 0);
            }
        }
        check(good, c->text);
    }
}

/* Whether both functions refuse so, and leave everything; 0 is not asked for. */
static int refuses(uint32_t answer, uint32_t wanted) { return answer == wanted && told_stayed(); }

static void explain_refusals(void)
{
    static const struct told steps[] = {{1, 5, 0, NONE}, {3, 5, 1, NONE}};
    const size_t length = put_told(steps, 2), enough = YASLAUREL_LINKS_LENGTH(2), image_length = told_policy_length;

    check(refuses(explain(image_length, length, 1, 0, enough - 1, 2), 9), "explain: links one short");
    check(refuses(explain(image_length, length, 1, 0, enough, 1), 9), "explain: steps one short");
    check(refuses(explain(image_length, length + 1, 1, 0, enough, 3), 9), "explain: a short last record needs links");
    check(refuses(explain(image_length, length + 1, 1, 0, enough + 2, 2), 9), "explain: a short last record needs a step");
    check(explain(image_length, length + 1, 1, 0, enough + 2, 3) == 0 && file_told == 0 && first_told == 1,
          "explain: a short last record is refused, and no part of the history");
    check(refuses(explain(17, length, 256, 64, 0, 0), 9), "explain: 9 comes before 1");
    check(refuses(explain(17, length, 256, 64, enough, 2), 1), "explain: 1 comes before 24");
    check(refuses(explain(image_length - 1, length, 256, 0, enough, 2), 2), "explain: 2 comes before 24");
    check(refuses(explain(image_length, length, 256, 0, enough, 2), 24), "explain: container 256");
    check(refuses(explain(image_length, length, 0, 64, enough, 2), 24), "explain: atom 64");
    check(refuses(explain(image_length, length, SIZE_MAX, SIZE_MAX, enough, 2), 24), "explain: the largest numbers");
    check(explain(image_length, length, 255, 63, enough, 2) == 0 && file_told == YASLAUREL_NO_CHAIN && first_told == 2,
          "explain: container 255 and atom 63");
    check(explain(image_length, 0, 0, 0, YASLAUREL_LINKS_LENGTH(0), 0) == 0 && file_told == 0 && first_told == 0,
          "explain: no record and no step");
}

static void why_refusals(void)
{
    static const struct told steps[] = {{1, 5, 0, NONE}, {3, 5, 1, NONE}, {3, 0, 1, NONE}};
    const size_t length = put_told(steps, 3) - RECORD, enough = YASLAUREL_LINKS_LENGTH(2), numbers = YASLAUREL_WHY_LENGTH;
    const size_t image_length = told_policy_length;

    check(refuses(why(image_length, length, enough - 1, 2, numbers), 9), "why: links one short");
    check(refuses(why(image_length, length, enough, 1, numbers), 9), "why: steps one short");
    check(refuses(why(image_length, length, enough, 2, numbers - 1), 9), "why: a reason one short");
    check(refuses(why(17, 0, enough, 2, 0), 9), "why: 9 comes before 1");
    check(refuses(why(17, 0, enough, 2, numbers), 1), "why: 1 comes before 25");
    check(refuses(why(image_length - 1, RECORD, enough, 2, numbers), 2), "why: 2 comes before 25");
    check(refuses(why(image_length, 0, YASLAUREL_LINKS_LENGTH(0), 0, numbers), 25), "why: no record");
    check(refuses(why(image_length, RECORD, enough, 2, numbers), 25), "why: a quiet last record");
    check(refuses(why(image_length, length - 1, enough, 2, numbers), 25), "why: a short last record");
    check(refuses(why(image_length, length + 1, enough, 3, numbers), 9), "why: a short last record needs links");
    check(refuses(why(image_length, length + RECORD, enough + 2, 3, numbers), 25), "why: a refused last record");
}

static void explanations(void)
{
    told_policy_length = told_image(told_policy);
    check(yaslaurel_image_check(told_policy, told_policy_length) == 0, "explain: the policy is accepted");
    check(yaslaurel_explain(yaslaurel_bytes(NULL), 0, yaslaurel_bytes(NULL), 0, 0, 0, yaslaurel_words(NULL), 0, yaslaurel_words(NULL), 0,
                            &file_told, &first_told) == 9,
          "explain: nulls");
    check(yaslaurel_why(yaslaurel_bytes(NULL), 0, yaslaurel_bytes(NULL), 0, yaslaurel_words(NULL), 0, yaslaurel_words(NULL), 0,
                        yaslaurel_words(NULL), 0) == 9,
          "why: nulls");
    chain_examples();
    reason_examples();
    explain_refusals();
    why_refusals();
}

/* Random bytes as image and as trace: every answer is one that the functions can give. */
static int random_explanations(const uint8_t *image, size_t length, uint32_t checked, uint64_t *seed)
{
    size_t container = draw(seed) % 300, atom = draw(seed) % 70, trace_length = length < sizeof told_trace ? length : sizeof told_trace;
    uint32_t chain = yaslaurel_explain(image, length, image, trace_length, container, atom, links, sizeof links / sizeof links[0], told_steps,
                                       sizeof told_steps / sizeof told_steps[0], &file_told, &first_told);
    uint32_t given = yaslaurel_why(image, length, image, trace_length, links, sizeof links / sizeof links[0], told_steps,
                                   sizeof told_steps / sizeof told_steps[0], reason, sizeof reason / sizeof reason[0]);

    return chain == (checked != 0 ? checked : container > 255 || atom > 63 ? 24u : 0u) &&
           (checked != 0 ? given == checked : given == 0 || given == 25);
}

#endif
