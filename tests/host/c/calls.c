/*
 * Calls every function of the library as a host might get it wrong within what the header says it owes: wrong lengths,
 * length 0, records at odd addresses, random bytes. Every call must give the number that the header promises and leave
 * what it must leave. Prints a line for each check and `N passed, M failed`.
 */
#include <stdio.h>
#include <string.h>

#include "../inputs.h"
#include "yaslaurel.h"

static unsigned passed, failed;

static void check(int good, const char *text)
{
    printf("%s %s\n", good ? "ok" : "FAILED", text);
    if (good) {
        passed++;
    } else {
        failed++;
    }
}

enum {
    SESSION = YASLAUREL_SESSION_LENGTH,
    OUTPUT = YASLAUREL_OUTPUT_LENGTH,
    HEADER = YASLAUREL_HEADER_LENGTH,
    RECORD = YASLAUREL_RECORD_LENGTH,
    MARK = 0x5a
};

static uint64_t session[SESSION + 1];
static uint64_t before[SESSION + 1];
static uint8_t out[OUTPUT + 1];

static void mark_session(void)
{
    for (size_t i = 0; i < SESSION + 1; i++) {
        session[i] = 0x0101010101010101u * (i % 251);
    }
    memcpy(before, session, sizeof session);
}

static int session_stayed(void) { return memcmp(before, session, sizeof session) == 0; }

static void mark_out(void) { memset(out, MARK, sizeof out); }

static int out_stayed_from(size_t from)
{
    for (size_t i = from; i < sizeof out; i++) {
        if (out[i] != MARK) {
            return 0;
        }
    }
    return 1;
}

/* What lies behind the pointers of the calls, and what it is before them. */
struct numbers {
    uint64_t receiver, tag;
    size_t taken, kept;
    uint32_t position, count, source, target, move, subject, object;
};

static const struct numbers unset = {77, 88, 99, 121, 44, 11, 22, 33, 55, 66, 110};
static struct numbers got;

static int answer_stayed(void)
{
    return got.receiver == unset.receiver && got.tag == unset.tag && got.position == unset.position;
}

static int move_is(uint32_t move, uint32_t subject, uint32_t object)
{
    return got.move == move && got.subject == subject && got.object == object;
}

static int move_stayed(void) { return move_is(unset.move, unset.subject, unset.object); }

static int numbers_stayed(void)
{
    return answer_stayed() && got.taken == unset.taken && got.kept == unset.kept && got.count == unset.count &&
           got.source == unset.source && got.target == unset.target && move_stayed();
}

/* Each function that has such pointers is called here alone. */
static uint32_t step(uint64_t *words, size_t words_length, const uint8_t *record, size_t length)
{
    return yaslaurel_step(words, words_length, record, length, &got.receiver, &got.tag, &got.position);
}

static uint32_t run(uint64_t *words, size_t words_length, const uint8_t *records, size_t length)
{
    return yaslaurel_run(words, words_length, records, length, &got.taken, &got.receiver, &got.tag, &got.position);
}

static uint32_t trim(const uint8_t *image, size_t image_length, const uint8_t *trace, size_t length, size_t out_length)
{
    return yaslaurel_trace_trim(image, image_length, trace, length, out, out_length, &got.kept);
}

static uint32_t verdict(const uint32_t *rows, size_t rows_length, const uint32_t *others, size_t others_length,
                        uint32_t objects)
{
    return yaslaurel_matrix_verdict(rows, rows_length, others, others_length, objects, &got.count, &got.source,
                                    &got.target);
}

/* A game from object `source` to object `target`, on a matrix that has as many write rows as read rows. */
struct game {
    uint32_t reads[4], writes[4];
    size_t subjects;
    uint32_t objects, source, target, rounds, withdrawals;
};

static uint32_t game(const struct game *g)
{
    return yaslaurel_matrix_game(g->reads, g->subjects, g->writes, g->subjects, g->objects, g->source, g->target,
                                 g->rounds, g->withdrawals, &got.move, &got.subject, &got.object);
}

/* Whether the position that was told can be that of an answer: a refusal leaves it, and what is not quiet has none. */
static int position_fits(uint32_t answer)
{
    switch (answer) {
    case YASLAUREL_QUIET:
        return got.position < YASLAUREL_RULE_MIXTURES || got.position == YASLAUREL_NO_POSITION;
    case YASLAUREL_ALERT:
    case YASLAUREL_BLOCKED:
        return got.position == YASLAUREL_NO_POSITION;
    default:
        return got.position == unset.position;
    }
}

/* Whether a step on the session by a record of the right length gives these. */
static int step_gives(const uint8_t *record, uint32_t answer, uint64_t receiver, uint64_t tag)
{
    got = unset;
    return step(session, SESSION, record, RECORD) == answer && got.receiver == receiver && got.tag == tag &&
           position_fits(answer);
}

/* The empty policy: four empty sections behind the header. */
static uint8_t empty[HEADER];

/* A text of profiles: two programs, one of which appends to what the other reads. */
static const char profiles[] = "profile /bin/mailer {\n"
                               "/etc/hosts r,\n"
                               "/var/mail ra,\n"
                               "}\n"
                               "profile /bin/admin {\n"
                               "/var/mail r,\n"
                               "/etc/keys r,\n"
                               "/etc/keys w,\n"
                               "/bin/mailer px,\n"
                               "}\n";

/* Document 004's Table 1. */
static const uint32_t table_reads[5] = {3, 3, 28, 28, 32};
static const uint32_t table_writes[5] = {28, 28, 96, 96, 0};

/* The matrix of the paper's example. */
static const uint32_t reads[3] = {5, 3, 2};
static const uint32_t writes[3] = {1, 2, 10};

static void session_lengths(void)
{
    const uint8_t record[RECORD + 1] = {4};

    got = unset;
    mark_session();
    check(yaslaurel_session_start(empty, HEADER, session, SESSION - 1) == 9, "start: session one short");
    check(yaslaurel_session_start(empty, HEADER, session, SESSION + 1) == 9, "start: session one long");
    check(yaslaurel_session_start(empty, HEADER, session, 0) == 9, "start: session of length 0");
    check(yaslaurel_session_start(empty, HEADER - 1, session, SESSION) == 1, "start: image one short");
    check(yaslaurel_session_start(empty, HEADER - 1, session, SESSION - 1) == 9, "start: 9 comes before 1");
    check(step(session, SESSION - 1, record, RECORD) == 9, "step: session one short");
    check(step(session, SESSION, record, RECORD - 1) == 7, "step: record one short");
    check(step(session, SESSION, record, RECORD + 1) == 7, "step: record one long");
    check(step(session, SESSION, record, 0) == 7, "step: record of length 0");
    check(step(session, 0, record, 0) == 9, "step: 9 comes before 7");
    check(step(session, SESSION, record, RECORD) == 10, "step: rows not well formed");
    check(run(session, SESSION - 1, record, RECORD) == 9, "run: session one short");
    check(run(session, SESSION + 1, record, RECORD - 1) == 9,
          "run: 9 comes before 7");
    check(run(session, 0, record, 0) == 9, "run: 9 without records");
    check(got.taken == unset.taken, "run: 9 leaves the count");
    check(run(session, SESSION, record, RECORD - 1) == 7 && got.taken == 1,
          "run: a short record counts and is refused");
    check(run(session, SESSION, record, 0) == 0 && got.taken == 0, "run: no records");
    check(run(session, SESSION, record, RECORD + 1) == 10 && got.taken == 1,
          "run: rows not well formed");
    check(session_stayed(), "refused calls leave the session");
    check(answer_stayed(), "refused calls leave receiver and tag, and so does a run without records");
}

static void output_lengths(void)
{
    mark_out();
    check(yaslaurel_image_normalise(empty, HEADER, out, OUTPUT - 1) == 9, "normalise: output one short");
    check(yaslaurel_image_normalise(empty, HEADER, out, 0) == 9, "normalise: output of length 0");
    check(yaslaurel_image_normalise(empty, 0, out, OUTPUT) == 1, "normalise: image of length 0");
    check(yaslaurel_matrix_policy(reads, 3, writes, 3, 4, out, OUTPUT - 1) == 9, "matrix policy: output one short");
    check(yaslaurel_matrix_policy(reads, 3, writes, 2, 4, out, OUTPUT) == 8, "matrix policy: row counts differ");
    check(yaslaurel_matrix_policy(reads, 3, writes, 2, 4, out, 0) == 9, "matrix policy: 9 comes before 8");
    const uint8_t *text = (const uint8_t *)profiles;
    const size_t text_length = sizeof profiles - 1;
    check(yaslaurel_profiles_policy(text, text_length, out, OUTPUT - 1) == 9, "profiles: output one short");
    check(yaslaurel_profiles_policy(text, text_length - 1, out, OUTPUT) == 16, "profiles: no byte 10 at the end");
    check(yaslaurel_profiles_policy(text, text_length - 2, out, OUTPUT) == 16, "profiles: an open profile at the end");
    check(yaslaurel_profiles_policy(text + 1, text_length - 1, out, OUTPUT) == 16, "profiles: a first line that is none");
    check(yaslaurel_profiles_policy(text, 1, out, 0) == 9, "profiles: 9 comes before 16");
    check(out_stayed_from(0), "refused calls leave the output");
    check(yaslaurel_profiles_policy(text, 0, out, OUTPUT + 1) == 26, "profiles: the empty text's policy has 26 bytes");
    check(out_stayed_from(26), "profiles: the bytes behind the image stay");
    mark_out();
    check(yaslaurel_image_normalise(empty, HEADER, out, OUTPUT + 1) == HEADER, "normalise: the empty policy's length");
    check(memcmp(out, empty, HEADER) == 0, "normalise: the empty policy is its own normal image");
    check(out_stayed_from(HEADER), "normalise: the bytes behind the image stay");
}

/* The header lets a host turn a null with length 0 into an address. */
static void nulls(void)
{
    got = unset;
    check(yaslaurel_image_check(yaslaurel_bytes(NULL), 0) == 1, "check: a null image");
    check(yaslaurel_image_normalise(yaslaurel_bytes(NULL), 0, yaslaurel_output(NULL), 0) == 9, "normalise: nulls");
    check(yaslaurel_session_start(yaslaurel_bytes(NULL), 0, yaslaurel_words(NULL), 0) == 9, "start: nulls");
    check(step(yaslaurel_words(NULL), 0, yaslaurel_bytes(NULL), 0) == 9, "step: nulls");
    check(run(yaslaurel_words(NULL), 0, yaslaurel_bytes(NULL), 0) == 9, "run: nulls");
    check(yaslaurel_trace_trim(yaslaurel_bytes(NULL), 0, yaslaurel_bytes(NULL), 0, yaslaurel_output(NULL), 0, &got.kept) == 9,
          "trim: nulls");
    check(verdict(yaslaurel_rows(NULL), 0, yaslaurel_rows(NULL), 0, 4) == 8,
          "verdict: null rows");
    check(yaslaurel_matrix_silent(yaslaurel_rows(NULL), 0, yaslaurel_rows(NULL), 0, 4) == 8, "silent: null rows");
    check(yaslaurel_matrix_game(yaslaurel_rows(NULL), 0, yaslaurel_rows(NULL), 0, 2, 0, 1, 1, 0, &got.move, &got.subject,
                                &got.object) == 8,
          "game: null rows");
    check(yaslaurel_matrix_policy(yaslaurel_rows(NULL), 0, yaslaurel_rows(NULL), 0, 4, out, OUTPUT) == 8,
          "matrix policy: null rows");
    check(yaslaurel_matrix_judge(yaslaurel_rows(NULL), 0, yaslaurel_rows(NULL), 0, 4, yaslaurel_rows(NULL), 0,
                                 yaslaurel_rows(NULL), 0, 4, yaslaurel_rows(NULL), 0, yaslaurel_rows(NULL), 0, 4) == 8,
          "judge: null rows");
    check(yaslaurel_profiles_policy(yaslaurel_bytes(NULL), 0, yaslaurel_output(NULL), 0) == 9, "profiles: nulls");
    check(numbers_stayed(), "refused calls leave the numbers");
}

/* The paper's example: the verdict on its matrix, and the policy that is derived from it. */
static void matrix_example(void)
{
    got = unset;
    check(verdict(reads, 3, writes, 3, 4) == 1, "verdict: not consistent");
    check(got.count == 3 && got.source == 0 && got.target == 3, "verdict: 3 flows, the first from 0 to 3");
    check(verdict(reads, 1, reads, 1, 4) == 0, "verdict: consistent");
    check(got.count == 0 && got.source == 0 && got.target == 0, "verdict: consistent gives zeros");
    mark_out();
    check(yaslaurel_matrix_policy(reads, 3, writes, 3, 4, out, OUTPUT) == 118, "matrix policy: 118 bytes");
    check(out_stayed_from(118), "matrix policy: the bytes behind the image stay");
    check(yaslaurel_image_check(out, 118) == 0, "the derived policy is accepted");
    mark_session();
    check(yaslaurel_session_start(out, 118, session, SESSION) == 0, "the derived policy starts a session");
    check(session[SESSION] == before[SESSION], "the start leaves the number behind the session");
}

/* Matrices that tell silent from what it might be mistaken for, 1 silent or 0 not; the verdict on each. */
static void silent_examples(void)
{
    static const struct {
        uint32_t reads[3], writes[3];
        size_t subjects;
        uint32_t objects, consistent, silent;
        const char *text;
    } list[] = {
        {{1, 4}, {2, 2}, 2, 3, 0, 0, "silent: two writers mix what each alone may write"},
        {{5, 3, 2}, {1, 2, 10}, 3, 4, 1, 0, "silent: the paper's matrix is not"},
        {{3, 5, 6}, {8, 8, 8}, 3, 4, 0, 0, "silent: each pair of sources has a writer, all three have none"},
        {{1, 2}, {2, 4}, 2, 3, 1, 0, "silent: a flow by way of another object"},
        {{1, 4}, {2, 0}, 2, 3, 0, 1, "silent: one writer that reads every source"},
        {{7}, {0}, 1, 3, 0, 1, "silent: objects that nobody writes"},
        {{4, 1}, {1, 2}, 2, 3, 1, 0, "silent: sources two objects back"},
    };

    for (size_t i = 0; i < sizeof list / sizeof list[0]; i++) {
        size_t n = list[i].subjects;
        check(verdict(list[i].reads, n, list[i].writes, n, list[i].objects) == list[i].consistent &&
                  yaslaurel_matrix_silent(list[i].reads, n, list[i].writes, n, list[i].objects) == list[i].silent,
              list[i].text);
    }
    check(yaslaurel_matrix_silent(reads, 3, writes, 2, 4) == 8, "silent: row counts differ");
    check(yaslaurel_matrix_silent(reads, 3, writes, 3, 2) == 8, "silent: a bit beyond the objects");
    check(yaslaurel_matrix_silent(reads, 3, writes, 3, 33) == 8, "silent: too many objects");
}

/* Games that tell one reading of the request from another: the answer, and the first winning move. */
static void game_examples(void)
{
    static const struct {
        struct game game;
        uint32_t answer, move, subject, object;
        const char *text;
    } list[] = {
        {{{2}, {1}, 1, 2, 1, 0, 1, 0}, 0, 0, 0, 0, "game: one round is too few"},
        {{{2}, {1}, 1, 2, 1, 0, 2, 0}, 1, 1, 0, 1, "game: a read, then an append"},
        {{{2}, {1}, 1, 2, 1, 0, 2, 1}, 0, 0, 0, 0, "game: the right to append is withdrawn after the read"},
        {{{3}, {1}, 1, 2, 1, 0, 3, 0}, 1, 1, 0, 0, "game: with a round to spare an idle read comes first"},
        {{{2, 2}, {1, 1}, 2, 2, 1, 0, 2, 1}, 0, 0, 0, 0, "game: two subjects, held for two rounds by one withdrawal"},
        {{{2, 2}, {1, 1}, 2, 2, 1, 0, 3, 1}, 1, 1, 0, 1, "game: and not for three"},
        {{{2, 2}, {1, 1}, 2, 2, 1, 0, 4, 2}, 0, 0, 0, 0, "game: two withdrawals stop both, in any number of rounds"},
        {{{2, 2, 2}, {1, 1, 1}, 3, 2, 1, 0, 4, 2}, 1, 1, 0, 1, "game: and not three subjects"},
        {{{0, 2}, {0, 1}, 2, 2, 1, 0, 4, 0}, 1, 1, 1, 1, "game: the only subject that reads"},
        {{{1, 4}, {4, 2}, 2, 3, 0, 1, 4, 0}, 1, 1, 0, 0, "game: by way of another object, in four rounds"},
        {{{1, 4}, {4, 2}, 2, 3, 0, 1, 3, 0}, 0, 0, 0, 0, "game: not in three"},
        {{{4, 2}, {1, 5}, 2, 3, 1, 0, 4, 1}, 1, 1, 1, 1, "game: a way round a right that is withdrawn"},
        {{{4, 2}, {1, 5}, 2, 3, 1, 0, 4, 2}, 0, 0, 0, 0, "game: two withdrawals stop both ways"},
    };

    for (size_t i = 0; i < sizeof list / sizeof list[0]; i++) {
        got = unset;
        check(game(&list[i].game) == list[i].answer && move_is(list[i].move, list[i].subject, list[i].object),
              list[i].text);
    }
}

/* Each bound of a game from outside, and 8 before all of them. */
static void game_bounds(void)
{
    static const struct game good = {{2, 2, 2, 2}, {1, 1, 1, 1}, 3, 3, 1, 0, 4, 2};
    struct game bad[9];

    got = unset;
    check(game(&good) == 1, "game: within all bounds");
    for (size_t i = 0; i < 9; i++) {
        bad[i] = good;
    }
    bad[0].target = 1;
    bad[1].source = 3;
    bad[2].target = 3;
    bad[3].subjects = 4;
    bad[4].objects = 4;
    bad[5].rounds = 0;
    bad[6].rounds = 5;
    bad[7].withdrawals = 3;
    bad[8] = (struct game){{2}, {1}, 1, 2, 1, 0, UINT32_MAX, UINT32_MAX};
    for (size_t i = 0; i < 9; i++) {
        got = unset;
        check(game(&bad[i]) == 23 && move_stayed(), "game: a bound");
        bad[i].reads[0] |= 16;
        check(game(&bad[i]) == 8 && move_stayed(), "game: 8 goes before 23");
    }
    check(yaslaurel_matrix_game(good.reads, 3, good.writes, 2, 3, 1, 0, 4, 2, &got.move, &got.subject, &got.object) == 8 &&
              move_stayed(),
          "game: row counts differ");
}

/* The paper's trace, behind one byte: the records lie at odd addresses. */
static const uint8_t trace[1 + 6 * RECORD] = {
    0,                                                      /* no part of it */
    1, 0, 4, 0, 2, 0, 255, 255, 3, 0, 4, 0, 0, 0, 255, 255, /* read, append */
    1, 0, 5, 0, 0, 0, 255, 255, 3, 0, 5, 0, 1, 0, 255, 255, /* read, append */
    2, 0, 6, 0, 1, 0, 255, 255, 1, 0, 6, 0, 9, 0, 255, 255, /* write, read */
};

/* The trace, step by step, on the session of the policy before. */
static void step_example(void)
{
    static const uint32_t answers[6] = {0, 0, 0, YASLAUREL_ALERT, 0, 12};
    static const uint64_t receivers[6] = {4, 0, 5, 1, 1, 77}, tags[6] = {4, 5, 5, 7, 0, 88};
    int good = 1;

    for (int i = 0; i < 6; i++) {
        good = step_gives(trace + 1 + RECORD * i, answers[i], receivers[i], tags[i]) && good;
    }
    check(good, "the paper's trace, from odd addresses");
}

/* A copy as a what-if, before each step of the trace: it answers as the step then does, and leaves the session. */
static void what_if_example(void)
{
    static uint64_t copy[SESSION + 1];
    int good = yaslaurel_session_start(out, 118, session, SESSION) == 0;

    for (int i = 0; i < 6; i++) {
        const uint8_t *record = trace + 1 + RECORD * i;
        memcpy(copy, session, sizeof session);
        memcpy(before, session, sizeof session);
        got = unset;
        uint32_t answer = step(copy, SESSION, record, RECORD);
        uint64_t receiver = got.receiver, tag = got.tag;
        good = good && session_stayed() && step_gives(record, answer, receiver, tag) &&
               memcmp(copy, session, sizeof session) == 0;
    }
    check(good, "a copy of the session answers as the session then does, and leaves it");
}

/* The same as batches, on a new session: the alert stops the first, the refusal the second, and the rest is none. */
static void batch_example(void)
{
    got = unset;
    memcpy(before, session, sizeof session);
    check(yaslaurel_session_start(out, 118, session, SESSION) == 0, "the derived policy starts a session again");
    check(run(session, SESSION, trace + 1, 3 * RECORD) == 0 && got.taken == 3 && answer_stayed(),
          "run: a batch that is quiet to its end");
    check(run(session, SESSION, trace + 1 + 3 * RECORD, 3 * RECORD) == YASLAUREL_ALERT && got.taken == 1 &&
              got.receiver == 1 && got.tag == 7,
          "run: a batch that stops at an alert");
    check(run(session, SESSION, trace + 1 + 4 * RECORD, 2 * RECORD) == 12 && got.taken == 2 && got.receiver == 1 &&
              got.tag == 7,
          "run: a batch that stops at a refusal, and keeps what came before it");
    check(session_stayed(), "run: batches leave the session that single steps leave");
}

/* A trace in words of three numbers: code, process, object. Its length. */
static size_t put_trace(uint8_t *at, const uint8_t (*steps)[3], size_t count)
{
    for (size_t i = 0; i < count; i++) {
        yaslaurel_record(steps[i][0], steps[i][1], steps[i][2], YASLAUREL_NO_USER, at + RECORD * i);
    }
    return RECORD * count;
}

/* Whether a trim gives these positions and leaves the bytes behind them. */
static int trim_gives(const uint8_t *image, size_t image_length, const uint8_t *trace, size_t length, const char *positions, size_t kept)
{
    got = unset;
    mark_out();
    return trim(image, image_length, trace, length, YASLAUREL_TRIM_LIMIT) == 0 && got.kept == kept &&
           memcmp(out, positions, kept) == 0 && out_stayed_from(kept);
}

/* Whether a trim is refused so, and leaves everything. */
static int trim_refuses(const uint8_t *image, size_t image_length, const uint8_t *trace, size_t length, size_t out_length, uint32_t number)
{
    got = unset;
    mark_out();
    return trim(image, image_length, trace, length, out_length) == number && numbers_stayed() && out_stayed_from(0);
}

/* Traces trimmed to their alert, on the paper's matrix: files 0 to 3, processes 4 to 6. File 1 may hold 0 and 1, file 0 0 and 2. */
static void trim_examples(void)
{
    static uint8_t policy[OUTPUT], records[(YASLAUREL_TRIM_LIMIT + 1) * RECORD];
    static const uint8_t paper[][3] = {{1, 4, 2}, {3, 4, 0}, {1, 5, 0}, {3, 5, 1}};
    static const uint8_t unneeded[][3] = {{1, 6, 1}, {1, 5, 2}, {7, 6, 9}, {1, 5, 0}, {1, 4, 3}, {3, 5, 1}};
    /* Either read would do; the first goes, since the second is behind it, and the last process to be forked goes first. */
    static const uint8_t twice[][3] = {{1, 5, 2}, {5, 6, 7}, {1, 5, 2}, {5, 7, 8}, {5, 8, 9}, {3, 5, 1}};
    /* An alert before the last: both appends alert, and the second needs no other. */
    static const uint8_t alerts[][3] = {{1, 5, 2}, {3, 5, 1}, {3, 5, 1}};
    /* File 1 alerts while it holds what file 2 held; the read of file 1 alerts nobody, so the last raises none. */
    static const uint8_t quiet[][3] = {{1, 5, 2}, {3, 5, 1}, {1, 6, 1}};
    uint32_t length = yaslaurel_matrix_policy(reads, 3, writes, 3, 4, policy, OUTPUT);
    size_t bytes = put_trace(records, paper, 4);

    check(trim_gives(policy, length, records, bytes, "\0\1\2\3", 4), "trim: the paper's trace up to its alert stays whole");
    check(trim_refuses(policy, length, records, bytes, YASLAUREL_TRIM_LIMIT - 1, 9), "trim: 9 for an output one short");
    check(trim_refuses(policy, length - 1, records, bytes, YASLAUREL_TRIM_LIMIT, 2), "trim: the image's own refusal");
    check(trim_refuses(policy, 17, records, bytes, 0, 9), "trim: 9 comes before 1");
    check(trim_refuses(policy, 17, records, bytes - 1, YASLAUREL_TRIM_LIMIT, 1), "trim: 1 comes before 22");
    check(trim_refuses(policy, length, records, bytes - 1, YASLAUREL_TRIM_LIMIT, 22), "trim: a short last record");
    check(trim_refuses(policy, length, records, bytes - RECORD, YASLAUREL_TRIM_LIMIT, 22), "trim: no alert at the end");
    check(trim_refuses(policy, length, records, 0, YASLAUREL_TRIM_LIMIT, 22), "trim: no record");
    memcpy(records + bytes, records + bytes - RECORD, RECORD - 1);
    check(trim_refuses(policy, length, records, bytes + RECORD - 1, YASLAUREL_TRIM_LIMIT, 22), "trim: a short record behind the alert");
    bytes = put_trace(records, unneeded, 6);
    check(trim_gives(policy, length, records, bytes, "\1\5", 2), "trim: what the alert does not need goes");
    bytes = put_trace(records, twice, 6);
    check(trim_gives(policy, length, records, bytes, "\2\5", 2), "trim: of two reads the second stays, and a chain of forks goes");
    bytes = put_trace(records, alerts, 3);
    check(trim_gives(policy, length, records, bytes, "\0\2", 2), "trim: an earlier alert goes");
    bytes = put_trace(records, quiet, 3);
    check(trim_refuses(policy, length, records, bytes, YASLAUREL_TRIM_LIMIT, 22), "trim: an alert before the end is not enough");
    records[bytes - 1] = 0;
    check(trim_refuses(policy, length, records, bytes, YASLAUREL_TRIM_LIMIT, 22), "trim: a refused record");
    /* At the limit: 30 forks of the process before, of which each pass drops the last, and reads. */
    for (size_t i = 0; i <= YASLAUREL_TRIM_LIMIT; i++) {
        const uint32_t fork = (uint32_t)(6 + i);
        yaslaurel_record(i < 30 ? YASLAUREL_FORK : YASLAUREL_READ, i < 30 ? fork : 5, i < 30 ? fork + 1 : 2, YASLAUREL_NO_USER, records + RECORD * i);
    }
    put_trace(records + RECORD * (YASLAUREL_TRIM_LIMIT - 2), (const uint8_t[][3]){{1, 5, 2}, {3, 5, 1}, {3, 5, 1}}, 3);
    check(trim_gives(policy, length, records, RECORD * YASLAUREL_TRIM_LIMIT, "\376\377", 2), "trim: 256 records, and 31 passes");
    check(trim_refuses(policy, length, records, RECORD * (YASLAUREL_TRIM_LIMIT + 1), YASLAUREL_TRIM_LIMIT, 22), "trim: 257 records");
}

/* Processes end and files are deleted, on a session of the same policy: files 0 to 3, processes 4 to 6. */
static void leaving_example(void)
{
    static const struct {
        uint8_t code, p, o;
        uint32_t answer;
        uint64_t receiver, tag;
    } steps[] = {
        {1, 4, 2, 0, 4, 4},                                  /* read: object 2 */
        {3, 4, 0, 0, 0, 5},                                  /* append: file 0 may hold 0 and 2 */
        {9, 5, 0, 0, 0, 0},                                  /* file 0 is deleted */
        {1, 6, 0, YASLAUREL_REFUSED_KIND, 77, 88},           /* nobody has its number */
        {7, 6, 0, 0, 0, 0},                                  /* a volatile takes it */
        {1, 5, 1, 0, 5, 2},                                  /* read: object 1 */
        {3, 5, 0, 0, 0, 2},                                  /* which the volatile may hold */
        {8, 5, 4, YASLAUREL_REFUSED_RECORD, 77, 88},         /* an end names its process twice */
        {9, 4, 5, YASLAUREL_REFUSED_KIND, 77, 88},           /* a process is not deleted */
        {8, 5, 5, 0, 5, 0},                                  /* process 5 ends */
        {1, 5, 1, YASLAUREL_REFUSED_NO_PROCESS, 77, 88},     /* and reads no more */
        {8, 5, 5, YASLAUREL_REFUSED_NO_PROCESS, 77, 88},     /* and ends once */
        {5, 4, 5, 0, 5, 4},                                  /* a fork takes its number */
    };

    check(yaslaurel_matrix_policy(reads, 3, writes, 3, 4, out, OUTPUT) == 118 &&
              yaslaurel_session_start(out, 118, session, SESSION) == 0,
          "leaving: the session starts");
    for (size_t i = 0; i < sizeof steps / sizeof steps[0]; i++) {
        const uint8_t record[RECORD] = {steps[i].code, 0, steps[i].p, 0, steps[i].o, 0, 255, 255};
        check(step_gives(record, steps[i].answer, steps[i].receiver, steps[i].tag),
              "leaving: a step of files that are deleted and processes that end");
    }
}

/* On whose behalf processes run, on a session of file 0, process 1 and users 0 and 1, all unrestricted. */
static void behalf_example(void)
{
    static const size_t counts[YASLAUREL_SECTIONS] = {2, 2, 0, 0};
    static const struct {
        uint8_t code, p, o;
        uint16_t u;
        uint32_t answer;
        uint64_t receiver, tag;
    } steps[] = {
        {6, 1, 2, 1, 0, 2, 0},                                 /* on nobody's behalf, a file for any user */
        {4, 1, 0, 1, 0, 1, (uint64_t)1 << 32},                 /* an exec as user 1 */
        {5, 1, 3, YASLAUREL_NO_USER, 0, 3, (uint64_t)1 << 32}, /* a fork runs on the same user's behalf */
        {6, 3, 4, 0, YASLAUREL_REFUSED_OTHER_USER, 77, 88},    /* and makes no file for another */
        {6, 3, 4, 2, YASLAUREL_REFUSED_UNDECLARED, 77, 88},    /* which is judged behind 14 */
        {6, 3, 4, 1, 0, 4, 0},                                 /* but for its own */
        {4, 3, 0, 0, 0, 3, (uint64_t)1 << 32},                 /* an exec may name another user */
        {6, 3, 5, 0, 0, 5, 0},                                 /* for whom the process then makes files */
        {2, 1, 0, YASLAUREL_NO_USER, 0, 0, (uint64_t)1 << 32}, /* a write gives a file no user */
    };
    uint8_t image[34];
    size_t length = put_header(image, counts, NULL);
    uint8_t *at = section_at(image, CONTAINER_SECTION);

    at = put_container(at, YASLAUREL_FILE, 0, YASLAUREL_UNRESTRICTED, YASLAUREL_UNRESTRICTED);
    put_user(put_user(put_other(at, YASLAUREL_PROCESS), YASLAUREL_UNRESTRICTED), YASLAUREL_UNRESTRICTED);
    check(length == sizeof image && yaslaurel_session_start(image, length, session, SESSION) == 0,
          "behalf: the session starts");
    for (size_t i = 0; i < sizeof steps / sizeof steps[0]; i++) {
        const uint8_t record[RECORD] = {
            steps[i].code, 0, steps[i].p, 0, steps[i].o, 0, (uint8_t)steps[i].u, (uint8_t)(steps[i].u >> 8)};
        check(step_gives(record, steps[i].answer, steps[i].receiver, steps[i].tag),
              "behalf: a step of processes that make files for users");
    }
}

/* The users that this leaves in the rows, and rows that have a user whom they may not have. */
static void behalf_rows(void)
{
    static const uint64_t users[] = {YASLAUREL_NO_USER, 1, YASLAUREL_NO_USER, 0, YASLAUREL_NO_USER,
                                     YASLAUREL_NO_USER, 0};
    static const struct {
        uint64_t container, user;
        uint8_t code, o;
        uint32_t answer;
    } damages[] = {
        {1, 15, 1, 0, 0}, {1, 16, 1, 0, 10}, {0, 0, 1, 0, 10}, {2, 1, 1, 2, 10}, {6, YASLAUREL_NO_USER, 7, 6, 10},
    };

    for (size_t i = 0; i < sizeof users / sizeof users[0]; i++) {
        check(session[YASLAUREL_CONTAINER_ROW * i + YASLAUREL_BEHALF_AT] == users[i], "behalf: the user of a container");
    }
    memcpy(before, session, sizeof session);
    for (size_t i = 0; i < sizeof damages / sizeof damages[0]; i++) {
        const uint8_t record[RECORD] = {damages[i].code, 0, 1, 0, damages[i].o, 0, 255, 255};
        memcpy(session, before, sizeof session);
        session[YASLAUREL_CONTAINER_ROW * damages[i].container + YASLAUREL_BEHALF_AT] = damages[i].user;
        check(step(session, SESSION, record, RECORD) == damages[i].answer,
              "behalf: a user that a row may or may not have");
    }
}

/* A session with guarded files: 0 a file; 1 guarded and 2 a file, which may hold atoms 1 and 2; 3 and 5 processes; 4 guarded, whose
   own atom it may not hold; 6 guarded and 7 a file, whose run rules meet in nine mixtures. Its user may hold atom 1. */
static void start_guarded(void)
{
    static const size_t counts[YASLAUREL_SECTIONS] = {8, 1, 4, 8};
    static const uint64_t mixtures[] = {6, 2, 31, 47, 55, 59, 61, 62};
    uint8_t image[156];
    size_t length = put_header(image, counts, NULL);
    uint8_t *at = section_at(image, CONTAINER_SECTION);

    at = put_container(at, YASLAUREL_FILE, 0, YASLAUREL_UNRESTRICTED, YASLAUREL_UNRESTRICTED);
    at = put_container(at, YASLAUREL_GUARDED, 1, 0, YASLAUREL_UNRESTRICTED);
    at = put_container(at, YASLAUREL_FILE, 2, 0, YASLAUREL_UNRESTRICTED);
    at = put_other(at, YASLAUREL_PROCESS);
    at = put_container(at, YASLAUREL_GUARDED, 3, 1, YASLAUREL_UNRESTRICTED);
    at = put_other(at, YASLAUREL_PROCESS);
    at = put_container(at, YASLAUREL_GUARDED, YASLAUREL_NO_ATOM, 1, 2);
    at = put_container(at, YASLAUREL_FILE, 4, YASLAUREL_UNRESTRICTED, 3);
    at = put_rule(put_rule(put_rule(put_rule(put_user(at, 1), 0, 1), 1, 1), 2, 3), 5, 3);
    for (size_t i = 0; i < 8; i++) {
        at = put_mixture(at, mixtures[i]);
    }
    check(length == sizeof image && yaslaurel_image_check(image, length) == 0 &&
              yaslaurel_session_start(image, length, session, SESSION) == 0,
          "guarded: the session starts");
}

static void guarded_example(void)
{
    static const struct {
        uint8_t code, p, o;
        uint16_t u;
        uint32_t answer;
        uint64_t receiver, tag;
    } steps[] = {
        {1, 3, 0, YASLAUREL_NO_USER, 0, 3, 1},                     /* process 3 holds 0 */
        {2, 3, 1, YASLAUREL_NO_USER, YASLAUREL_BLOCKED, 1, 1},     /* which no write brings into file 1 */
        {3, 3, 1, YASLAUREL_NO_USER, YASLAUREL_BLOCKED, 1, 3},     /* and no append */
        {3, 3, 2, YASLAUREL_NO_USER, YASLAUREL_ALERT, 2, 5},       /* a plain file takes it, with an alert */
        {1, 3, 1, YASLAUREL_NO_USER, 0, 3, 3},                     /* a guarded file is read, and holds its own alone */
        {3, 5, 4, YASLAUREL_NO_USER, YASLAUREL_BLOCKED, 4, 8},     /* not even an append of nothing */
        {1, 5, 7, YASLAUREL_NO_USER, 0, 5, 16},                    /* process 5 holds 4, and its run rule */
        {3, 5, 6, YASLAUREL_NO_USER, YASLAUREL_REFUSED_MEET, 77, 88}, /* 15 before blocked */
        {2, 5, 6, YASLAUREL_NO_USER, YASLAUREL_BLOCKED, 6, 16},    /* a write forms no meet */
        {4, 3, 1, 0, YASLAUREL_ALERT, 3, 3 | (uint64_t)1 << 33},   /* a guarded file is executed; user 0 may hold 1 */
        {9, 3, 1, YASLAUREL_NO_USER, 0, 1, 0},                     /* and deleted */
        {6, 3, 1, 0, 0, 1, 0},                                     /* a new file at its number */
        {3, 3, 1, YASLAUREL_NO_USER, YASLAUREL_ALERT, 1, 3 | (uint64_t)1 << 33}, /* is a plain one */
        {3, 3, 4, YASLAUREL_NO_USER, YASLAUREL_BLOCKED, 4, 11 | (uint64_t)1 << 33},
    };

    start_guarded();
    for (size_t i = 0; i < sizeof steps / sizeof steps[0]; i++) {
        const uint8_t record[RECORD] = {
            steps[i].code, 0, steps[i].p, 0, steps[i].o, 0, (uint8_t)steps[i].u, (uint8_t)(steps[i].u >> 8)};
        memcpy(before, session, sizeof session);
        check(step_gives(record, steps[i].answer, steps[i].receiver, steps[i].tag), "guarded: a step of guarded files");
        check(steps[i].answer != YASLAUREL_BLOCKED || session_stayed(), "guarded: a blocked step leaves the session");
    }
}

/* A batch stops behind a blocked record, which is counted and leaves the session as it was. */
static void guarded_batch(void)
{
    static const uint8_t batch[4 * RECORD] = {
        1, 0, 3, 0, 0, 0, 255, 255, 3, 0, 3, 0, 1, 0, 255, 255, /* read, append: blocked */
        1, 0, 3, 0, 2, 0, 255, 255, 2, 0, 3, 0, 1, 0, 255, 255, /* read, write: blocked */
    };

    start_guarded();
    got = unset;
    check(run(session, SESSION, batch, sizeof batch) == YASLAUREL_BLOCKED && got.taken == 2 && got.receiver == 1 &&
              got.tag == 3,
          "run: a batch that stops at a blocked record");
    check(session[YASLAUREL_CONTAINER_ROW + YASLAUREL_TAG_AT] == 2, "run: a blocked record leaves the file");
    check(run(session, SESSION, batch + 2 * RECORD, 2 * RECORD) == YASLAUREL_BLOCKED && got.taken == 2 &&
              got.receiver == 1 && got.tag == 5,
          "run: the rest of the batch goes on where it stopped");
}

/* Which mixture lets a flow through, on a session of files 0 to 3, each with its atom, of which 3 may hold {1, 2, 3}, {0, 3} or
   {0, 2}, guarded file 4 with the same rule, process 5, user 0 who may hold nothing and user 1 who may hold these. */
static void position_example(void)
{
    static const size_t counts[YASLAUREL_SECTIONS] = {6, 2, 2, 3};
    static const struct {
        uint8_t code, p, o;
        uint16_t u;
        uint32_t answer, position;
    } steps[] = {
        {3, 5, 3, YASLAUREL_NO_USER, 0, 1},                             /* 3: the second of 5, 9, 14 */
        {2, 5, 3, YASLAUREL_NO_USER, 0, 0},                             /* nothing: the first */
        {1, 5, 1, YASLAUREL_NO_USER, 0, 0},                             /* the process is unrestricted */
        {3, 5, 3, YASLAUREL_NO_USER, 0, 2},                             /* 1: only the third */
        {3, 5, 4, YASLAUREL_NO_USER, 0, 2},
        {5, 5, 6, YASLAUREL_NO_USER, 0, 0},                             /* a fork has its parent's rule */
        {1, 5, 0, YASLAUREL_NO_USER, 0, 0},
        {3, 5, 4, YASLAUREL_NO_USER, YASLAUREL_BLOCKED, 255},           /* 0 and 1: none */
        {3, 5, 3, YASLAUREL_NO_USER, YASLAUREL_ALERT, 255},
        {6, 5, 7, 0, 0, 255},                                           /* a new file under a rule without mixtures */
        {6, 5, 8, 1, 0, 0},                                             /* and under one that covers nothing at all */
        {7, 5, 9, YASLAUREL_NO_USER, 0, 0},
        {9, 5, 9, YASLAUREL_NO_USER, 0, 255},                           /* who leaves has no rule */
        {8, 6, 6, YASLAUREL_NO_USER, 0, 255},
        {4, 5, 0, 1, YASLAUREL_ALERT, 255},                             /* 0, 1 and the running 0, for user 1 */
        {1, 5, 9, YASLAUREL_NO_USER, YASLAUREL_REFUSED_KIND, 44},       /* a refusal leaves it */
    };
    uint8_t image[18 + 6 * 6 + 2 * 2 + 2 * 6 + 3 * 8];
    size_t length = put_header(image, counts, NULL);
    uint8_t *at = section_at(image, CONTAINER_SECTION);

    for (uint64_t atom = 0; atom < 3; atom++) {
        at = put_container(at, YASLAUREL_FILE, atom, YASLAUREL_UNRESTRICTED, YASLAUREL_UNRESTRICTED);
    }
    at = put_container(at, YASLAUREL_FILE, 3, 0, YASLAUREL_UNRESTRICTED);
    at = put_container(at, YASLAUREL_GUARDED, YASLAUREL_NO_ATOM, 0, YASLAUREL_UNRESTRICTED);
    at = put_user(put_user(put_other(at, YASLAUREL_PROCESS), 1), 0);
    at = put_rule(put_rule(at, 0, 3), 3, 0);
    put_mixture(put_mixture(put_mixture(at, 14), 9), 5);
    check(length == sizeof image && yaslaurel_session_start(image, length, session, SESSION) == 0,
          "position: the session starts");
    for (size_t i = 0; i < sizeof steps / sizeof steps[0]; i++) {
        const uint8_t record[RECORD] = {
            steps[i].code, 0, steps[i].p, 0, steps[i].o, 0, (uint8_t)steps[i].u, (uint8_t)(steps[i].u >> 8)};
        got = unset;
        check(step(session, SESSION, record, RECORD) == steps[i].answer && got.position == steps[i].position,
              "position: which mixture lets a flow through");
    }
    const uint8_t again[2 * RECORD] = {2, 0, 5, 0, 0, 0, 255, 255, 3, 0, 5, 0, 4, 0, 255, 255};
    got = unset;
    check(run(session, SESSION, again, sizeof again) == YASLAUREL_BLOCKED && got.taken == 2 && got.position == 255,
          "position: a run tells that of the record at which it stops");
}

/* Lines `profile /NUMBER {`, `/f MODES,` and `}` for so many programs from a number on. The length of the text. */
static size_t programs(char *text, int first, int count, const char *modes)
{
    char *at = text;
    for (int i = first; i < first + count; i++) {
        at += sprintf(at, "profile /%d {\n/f %s,\n}\n", i, modes);
    }
    return (size_t)(at - text);
}

/* Paths in order of first appearance: files 0 mailer, 1 hosts, 2 mail, 3 admin, 4 keys, then process 5. */
static void profile_example(void)
{
    static const uint8_t exec_admin[RECORD] = {4, 0, 5, 0, 3, 0, 0, 0}, read_mail[RECORD] = {1, 0, 5, 0, 2, 0, 255, 255},
                         write_keys[RECORD] = {2, 0, 5, 0, 4, 0, 255, 255},
                         read_hosts[RECORD] = {1, 0, 5, 0, 1, 0, 255, 255};
    const uint64_t admin = (uint64_t)9 << 32 | 1 << 2 | 1 << 4;

    mark_out();
    uint32_t length = yaslaurel_profiles_policy((const uint8_t *)profiles, sizeof profiles - 1, out, OUTPUT);
    /* 6 containers, a user, and rules by first use: {0}, mailer's mixture, {1}, that mixture (also mail's permit rule),
       {3}, admin's mixture (also keys' permit rule). */
    check(length == 18 + 6 * 6 + 2 + 5 * 6 + 5 * 8, "profiles: the length of the image");
    check(out_stayed_from(length), "profiles: the bytes behind the example's image stay");
    check(yaslaurel_image_check(out, length) == 0, "the policy of profiles is accepted");
    check(yaslaurel_session_start(out, length, session, SESSION) == 0, "the policy of profiles starts a session");
    check(session[YASLAUREL_CONTAINER_ROW * 3 + 11] == 1 && session[YASLAUREL_CONTAINER_ROW * 3 + 12] == admin,
          "profiles: the run rule of a program");
    check(session[YASLAUREL_CONTAINER_ROW * 4 + 2] == 1 && session[YASLAUREL_CONTAINER_ROW * 4 + 3] == admin,
          "profiles: the permit rule of what it writes");
    check(step(session, SESSION, exec_admin, RECORD) == 0 && got.tag == (uint64_t)8 << 32,
          "profiles: the program starts");
    check(step(session, SESSION, read_mail, RECORD) == 0, "profiles: it reads what it may");
    check(step(session, SESSION, write_keys, RECORD) == 0, "profiles: it writes what it may");
    check(step(session, SESSION, read_hosts, RECORD) == YASLAUREL_ALERT && got.receiver == 5,
          "profiles: it reads what it may not");
}

/* Texts at the limits of paths, mixtures and bytes, and one beyond each. */
static void profile_limits(void)
{
    static char text[YASLAUREL_TEXT_LIMIT + 2];
    const uint8_t *bytes = (const uint8_t *)text;
    size_t end = programs(text, 0, 31, "l");
    check(yaslaurel_profiles_policy(bytes, end, out, OUTPUT) >= HEADER, "profiles: 32 paths");
    end = programs(text, 0, 32, "l");
    check(yaslaurel_profiles_policy(bytes, end, out, OUTPUT) == 17, "profiles: 33 paths");
    end += programs(text + end, 31, 1, "l");
    check(yaslaurel_profiles_policy(bytes, end, out, OUTPUT) == 16, "profiles: 16 comes before 17");
    end = programs(text, 0, 8, "w");
    check(yaslaurel_profiles_policy(bytes, end, out, OUTPUT) >= HEADER, "profiles: a rule of 8 mixtures");
    end = programs(text, 0, 9, "w");
    check(yaslaurel_profiles_policy(bytes, end, out, OUTPUT) == 17, "profiles: a permit rule of 9 mixtures");
    end = programs(text, 0, 9, "ix");
    check(yaslaurel_profiles_policy(bytes, end, out, OUTPUT) == 17, "profiles: a run rule of 9 mixtures");
    end = programs(text, 0, 2, "x");
    check(yaslaurel_profiles_policy(bytes, end, out, OUTPUT) == 16, "profiles: a mode x alone");

    /* One line as long as it can be, then one byte longer. */
    memset(text, 'r', sizeof text);
    memcpy(text, "profile /a {\n/b ", 16);
    memcpy(text + YASLAUREL_TEXT_LIMIT - 4, ",\n}\n", 4);
    check(yaslaurel_profiles_policy(bytes, YASLAUREL_TEXT_LIMIT, out, OUTPUT) >= HEADER, "profiles: the longest text");
    memcpy(text + YASLAUREL_TEXT_LIMIT - 4, "r,\n}\n", 5);
    check(yaslaurel_profiles_policy(bytes, YASLAUREL_TEXT_LIMIT + 1, out, OUTPUT) == 16, "profiles: one byte longer");
}

/* The next random number of 31 bits. */
static uint32_t draw(uint64_t *state) { return (uint32_t)(next(state) >> 33); }

/* Document 004's Table 1: the judgement on a proposal, with nothing that must stay. */
static uint32_t judged(const uint32_t *proposed_reads, const uint32_t *proposed_writes, uint32_t objects)
{
    static const uint32_t none[5] = {0, 0, 0, 0, 0};

    return yaslaurel_matrix_judge(table_reads, 5, table_writes, 5, 7, none, 5, none, 5, 7, proposed_reads, 5,
                                  proposed_writes, 5, objects);
}

static void withdrawals(void)
{
    static const uint32_t none[5] = {0, 0, 0, 0, 0};
    static const uint32_t six[5] = {3, 3, 0, 0, 32}, five[5] = {0, 0, 28, 28, 0}, four[5] = {28, 28, 0, 0, 0};
    static const uint32_t more[5] = {3, 3, 0, 0, 33}, stays[5] = {0, 0, 4, 0, 0};

    check(judged(table_reads, table_writes, 7) == YASLAUREL_PROPOSAL_NOT_CONSISTENT, "judge: the table itself");
    check(judged(six, table_writes, 7) == YASLAUREL_ACCEPTED, "judge: its solution of six");
    check(judged(five, table_writes, 7) == YASLAUREL_NOT_MINIMAL, "judge: its five");
    check(judged(table_reads, four, 7) == YASLAUREL_ACCEPTED, "judge: its four");
    check(judged(five, four, 7) == YASLAUREL_NOT_MINIMAL, "judge: its nine");
    check(judged(more, table_writes, 7) == YASLAUREL_RIGHT_ADDED, "judge: a right that the table lacks");
    check(yaslaurel_matrix_judge(table_reads, 5, table_writes, 5, 7, stays, 5, none, 5, 7, six, 5, table_writes, 5, 7) ==
              YASLAUREL_RIGHT_LOST,
          "judge: a right that must stay");
    check(judged(six, table_writes, 8) == 8, "judge: an object more");
    check(judged(six, table_writes, 6) == 8, "judge: a bit beyond the objects");
    check(yaslaurel_matrix_judge(table_reads, 5, table_writes, 5, 7, none, 4, none, 4, 7, six, 5, table_writes, 5, 7) == 8,
          "judge: a subject less");
}

/* Random bytes, which may begin as an image does. Their number. */
static size_t random_image(uint64_t *seed, int round, uint8_t *image, size_t limit)
{
    size_t length = (size_t)draw(seed) % limit;

    if (round % 4 != 0) {
        length %= 64;
    }
    for (size_t i = 0; i < length; i++) {
        image[i] = (uint8_t)(draw(seed));
    }
    if (round % 3 == 0 && length >= 2) {
        image[0] = YASLAUREL_LEADING;
        image[1] = 0;
    }
    return length;
}

/* Whether an answer is one that a step can give, of a record that names no user. */
static int step_answer(uint32_t answer)
{
    return answer == YASLAUREL_QUIET || answer == YASLAUREL_ALERT || answer == YASLAUREL_BLOCKED || answer == 7 ||
           (answer >= 10 && answer <= 15);
}

/* A step and a run on random numbers, or on the session of a random image. */
static int random_steps(uint64_t *seed, const uint8_t *image, size_t length)
{
    static const uint8_t codes[] = {0, 1, 2, 3, 4, 5, 6, 7, 8, 9, 200, 255};
    uint8_t record[RECORD];

    got = unset;
    yaslaurel_record(codes[draw(seed) % sizeof codes], draw(seed) % 256, draw(seed) % 256, YASLAUREL_NO_USER, record);
    uint32_t answer = step(session, SESSION, record, RECORD);
    int good = step_answer(answer) && got.receiver < YASLAUREL_CONTAINERS;
    good = good && (answer == YASLAUREL_QUIET || answer == YASLAUREL_ALERT || answer == YASLAUREL_BLOCKED ||
                    answer_stayed());
    answer = run(session, SESSION, image, length);
    good = good && (step_answer(answer) || answer == 18);
    return good && got.taken <= (length + RECORD - 1) / RECORD && (answer != 0 || got.taken * RECORD >= length);
}

/* The verdict on a random matrix, a random game on it, and the judgement on a random proposal. */
static int random_matrices(uint64_t *seed, int round)
{
    uint32_t rows[10];

    for (int i = 0; i < 10; i++) {
        rows[i] = draw(seed) & draw(seed) & (round % 2 ? 0xffu : 0xffffffffu);
    }
    size_t subjects = draw(seed) % 6;
    uint32_t objects = 4 * (draw(seed) % 9);
    uint32_t answer = verdict(rows, subjects, rows + 5, subjects, objects);
    int good = answer <= 1 || answer == 8;
    uint32_t silent = yaslaurel_matrix_silent(rows, subjects, rows + 5, subjects, objects);
    good = good && (silent <= 1 || silent == 8) && (silent == 8) == (answer == 8) && (silent != 1 || answer == 0);
    got = unset;
    answer = yaslaurel_matrix_game(rows, subjects, rows + 5, subjects, objects, draw(seed) % 4, draw(seed) % 4,
                                   draw(seed) % 6, draw(seed) % 4, &got.move, &got.subject, &got.object);
    good = good && (answer <= 1 || ((answer == 8 || answer == 23) && move_stayed())) && (answer == 8) == (silent == 8);
    answer = yaslaurel_matrix_judge(rows, subjects, rows + 5, subjects, objects, rows + 1, subjects % 5, rows + 4,
                                    subjects % 5, objects, rows + 2, subjects, rows + 3, subjects, objects);
    return good && (answer <= 4 || answer == 8);
}

#include "explanations.h"
#include "gathers.h"

/* Random bytes and numbers everywhere: every answer is one that the function can give. */
static void random_bytes(void)
{
    static uint8_t image[YASLAUREL_IMAGE_LIMIT + 100];
    int good = 1;
    uint64_t seed = 20261115;

    for (int round = 0; round < 3000; round++) {
        size_t length = random_image(&seed, round, image, sizeof image);
        for (size_t i = 0; round % 8 == 0 && i < SESSION; i++) {
            session[i] = (uint64_t)draw(&seed) % 4;
        }
        uint32_t answer = yaslaurel_image_check(image, length);
        good = good && answer <= 6 && yaslaurel_session_start(image, length, session, SESSION) == answer;
        uint32_t normal = yaslaurel_image_normalise(image, length, out, OUTPUT);
        good = good && (answer == 0 ? normal >= HEADER && normal <= OUTPUT : normal == answer);
        uint32_t trimmed = trim(image, length, image, length, YASLAUREL_TRIM_LIMIT);
        good = good && (answer == 0 ? trimmed == 0 || trimmed == 22 : trimmed == answer);
        good = good && random_explanations(image, length, answer, &seed);
        good = good && random_steps(&seed, image, length) && random_matrices(&seed, round);
        good = good && yaslaurel_profiles_policy(image, length, out, OUTPUT) == (length == 0 ? 26u : 16u);
    }
    check(good, "random bytes: every answer is one that the function can give");
}

/* A policy spelled by the header's names: a file, a volatile, a process; a user; two rules, of which the user owns one; three
   mixtures. */
static size_t named_image(uint8_t *image)
{
    static const size_t counts[YASLAUREL_SECTIONS] = {3, 1, 2, 3};
    size_t length = put_header(image, counts, NULL);
    uint8_t *at = section_at(image, CONTAINER_SECTION);

    at = put_container(at, YASLAUREL_FILE, 5, 0, YASLAUREL_UNRESTRICTED);
    at = put_other(put_other(at, YASLAUREL_VOLATILE), YASLAUREL_PROCESS);
    at = put_owned_rule(put_rule(put_user(at, 1), 0, 1), 1, 2, 0);
    at = put_mixture(put_mixture(at, 1u << 5), (uint64_t)1 << YASLAUREL_RUNNING | 1);
    put_mixture(at, 1u << (YASLAUREL_ATOMS - 1));
    return length;
}

/* The header's names against numbers that are written out: the image byte by byte, and what a session has of it. */
static void names(void)
{
    static const uint8_t bytes[] = {5, 0, 18, 0, 18, 0, 36, 0, 2, 0, 38, 0, 12, 0, 50, 0, 24, 0,    /* header */
                                    1, 5, 0, 0, 255, 255, 2, 255, 255, 255, 255, 255, 3, 255, 255, 255, 255, 255,
                                    1, 0, 0, 0, 1, 0, 255, 255, 1, 0, 2, 0, 0, 0,                   /* user, rules */
                                    32, 0, 0, 0, 0, 0, 0, 0, 1, 0, 0, 0, 1, 0, 0, 0, 0, 0, 0, 128, 0, 0, 0, 0};
    const uint64_t *file = session, *volatile_row = file + YASLAUREL_CONTAINER_ROW;
    const uint64_t *process = volatile_row + YASLAUREL_CONTAINER_ROW, *none = process + YASLAUREL_CONTAINER_ROW;
    const uint64_t *user = session + YASLAUREL_USERS_AT;
    uint8_t image[sizeof bytes + 8];

    memset(image, MARK, sizeof image);
    check(named_image(image) == sizeof bytes && memcmp(image, bytes, sizeof bytes) == 0, "names: the bytes of an image");
    check(yaslaurel_session_start(image, sizeof bytes, session, SESSION) == 0, "names: the session starts");
    check(file[YASLAUREL_KIND_AT] == 1 && file[YASLAUREL_TAG_AT] == 32, "names: kind and tag of a file");
    check(file[YASLAUREL_PERMIT_AT] == 1 && file[YASLAUREL_PERMIT_AT + 1] == 32, "names: the permit rule of a file");
    check(file[YASLAUREL_RUN_AT] == 1 && file[YASLAUREL_RUN_AT + 1] == UINT64_MAX, "names: the run rule of a file");
    check(volatile_row[YASLAUREL_KIND_AT] == YASLAUREL_VOLATILE && process[YASLAUREL_KIND_AT] == YASLAUREL_PROCESS &&
              none[YASLAUREL_KIND_AT] == YASLAUREL_FREE,
          "names: the kinds");
    check(process[YASLAUREL_BEHALF_AT] == 65535, "names: a process that runs on nobody's behalf");
    check(user[YASLAUREL_DECLARED_AT] == 1, "names: a user that is declared");
    check(user[YASLAUREL_USER_RULE_AT] == 2 && user[YASLAUREL_USER_RULE_AT + 1] == 0x80000000u &&
              user[YASLAUREL_USER_RULE_AT + 2] == 0x100000001u,
          "names: the user's rule, ascending");
}

/* Owners: equal rules of different owners are two, an unrestricted one with an owner keeps its record, 4 for an owner who is no user
   of the image, and an image that leads with 4 is refused by 2. */
static void owners(void)
{
    static const size_t counts[YASLAUREL_SECTIONS] = {2, 2, 4, 4};
    uint8_t image[YASLAUREL_HEADER_LENGTH + 2 * 6 + 2 * 2 + 4 * 6 + 4 * 8];
    size_t length = put_header(image, counts, NULL);
    uint8_t *at = section_at(image, CONTAINER_SECTION), *rules = section_at(image, RULE_SECTION);

    at = put_container(put_container(at, YASLAUREL_FILE, 0, 0, 1), YASLAUREL_FILE, 1, 2, 3);
    put_user(put_user(at, 1), 0);
    put_rule(put_owned_rule(put_owned_rule(put_owned_rule(rules, 0, 1, 0), 1, 1, 1), 2, 1, 0), 3, 1);
    at = put_mixture(put_mixture(section_at(image, MIXTURE_SECTION), 6), 6);
    put_mixture(put_mixture(at, UINT64_MAX), UINT64_MAX);
    check(length == sizeof image && yaslaurel_image_check(image, length) == 0, "owners: the image is accepted");
    mark_out();
    /* 6 of user 0, 6 of user 1 and the unrestricted rule of user 0 stay; that of nobody is 65535. */
    check(yaslaurel_image_normalise(image, length, out, OUTPUT) == length - 6 - 8, "owners: three rules are written");
    check(get16(section_at(out, RULE_SECTION) + 4) == 0 && get16(section_at(out, RULE_SECTION) + 10) == 1 &&
              get16(section_at(out, RULE_SECTION) + 16) == 0,
          "owners: each with its owner");
    check(get16(section_at(out, CONTAINER_SECTION) + 8) == 2 && get16(section_at(out, CONTAINER_SECTION) + 10) == 65535,
          "owners: an unrestricted rule is 65535 only without an owner");
    check(yaslaurel_image_normalise(image, length, out, OUTPUT - 1) == YASLAUREL_REFUSED_LENT_LENGTH &&
              OUTPUT == 19506,
          "owners: an output of 19,505 bytes is refused");
    put(rules + 6 + 4, 2, 2);
    check(yaslaurel_image_check(image, length) == YASLAUREL_REFUSED_RULE, "owners: no such user");
    put(rules + 6 + 4, 1, 2);
    put(image, 4, 2);
    check(yaslaurel_image_check(image, length) == YASLAUREL_REFUSED_SECTIONS, "owners: an image of an earlier edition");
}

/* The record of an operation, byte by byte. */
static void records(void)
{
    static const struct {
        uint32_t code, p, o, u;
        uint8_t bytes[RECORD];
    } good[] = {
        {YASLAUREL_READ, 4, 2, YASLAUREL_NO_USER, {1, 0, 4, 0, 2, 0, 255, 255}},
        {YASLAUREL_WRITE, 255, 0, YASLAUREL_NO_USER, {2, 0, 255, 0, 0, 0, 255, 255}},
        {YASLAUREL_APPEND, 0, 255, YASLAUREL_NO_USER, {3, 0, 0, 0, 255, 0, 255, 255}},
        {YASLAUREL_EXEC, 5, 1, 15, {4, 0, 5, 0, 1, 0, 15, 0}},
        {YASLAUREL_FORK, 5, 6, YASLAUREL_NO_USER, {5, 0, 5, 0, 6, 0, 255, 255}},
        {YASLAUREL_NEW_FILE, 5, 7, 0, {6, 0, 5, 0, 7, 0, 0, 0}},
        {YASLAUREL_NEW_VOLATILE, 5, 8, YASLAUREL_NO_USER, {7, 0, 5, 0, 8, 0, 255, 255}},
        {YASLAUREL_END, 5, 5, YASLAUREL_NO_USER, {8, 0, 5, 0, 5, 0, 255, 255}},
        {YASLAUREL_DELETE, 4, 8, YASLAUREL_NO_USER, {9, 0, 4, 0, 8, 0, 255, 255}},
        {0, 256, 65535, 258, {0, 0, 0, 1, 255, 255, 2, 1}},
    };
    uint8_t record[RECORD];

    for (size_t i = 0; i < sizeof good / sizeof good[0]; i++) {
        memset(record, MARK, RECORD);
        yaslaurel_record(good[i].code, good[i].p, good[i].o, good[i].u, record);
        check(memcmp(record, good[i].bytes, RECORD) == 0, "record: the bytes of an operation");
    }
}

/* Records of a number that does not fit, and would be good without its upper bits: each is refused with 7. */
static void large_numbers(void)
{
    static const uint32_t large[][4] = {
        {256 + YASLAUREL_READ, 4, 2, YASLAUREL_NO_USER},
        {YASLAUREL_READ, 65536 + 4, 2, YASLAUREL_NO_USER},
        {YASLAUREL_READ, 4, 65536 + 2, YASLAUREL_NO_USER},
        {YASLAUREL_READ, 4, 2, 65536 + YASLAUREL_NO_USER},
        {YASLAUREL_READ, 4, 2, UINT32_MAX},
        {YASLAUREL_EXEC, 4, 2, 65536},
    };
    uint8_t record[RECORD];

    check(yaslaurel_matrix_policy(reads, 3, writes, 3, 4, out, OUTPUT) == 118 &&
              yaslaurel_session_start(out, 118, session, SESSION) == 0,
          "record: the session starts");
    for (size_t i = 0; i < sizeof large / sizeof large[0]; i++) {
        yaslaurel_record(large[i][0], large[i][1], large[i][2], large[i][3], record);
        check(step(session, SESSION, record, RECORD) == 7, "record: a number that does not fit");
    }
}

/* Each refusal has a text of its own, under its number. */
static void refusal_meanings(void)
{
    const char *none = yaslaurel_meaning(0);

    check(strcmp(none, "no refusal") == 0, "meaning: of 0");
    for (uint32_t i = 1; i <= 25; i++) {
        if (i == 19) {
            continue;
        }
        int own = strlen(yaslaurel_meaning(i)) > 0;
        for (uint32_t j = 0; j < i; j++) {
            own = own && strcmp(yaslaurel_meaning(i), yaslaurel_meaning(j)) != 0;
        }
        check(own, "meaning: a refusal has a text of its own");
    }
    check(strcmp(yaslaurel_meaning(19), none) == 0 && yaslaurel_meaning(26) == none && yaslaurel_meaning(YASLAUREL_ALERT) == none &&
              yaslaurel_meaning(UINT32_MAX) == none,
          "meaning: of numbers that are no refusals");
    check(strcmp(yaslaurel_meaning(YASLAUREL_REFUSED_NO_PROCESS), "p is no process") == 0 &&
              strcmp(yaslaurel_meaning(YASLAUREL_REFUSED_KIND), "o is of the wrong kind") == 0 &&
              strcmp(yaslaurel_meaning(YASLAUREL_REFUSED_TRIM),
                     "the trace has no record, too many, one not accepted, or no alert at its end") == 0 &&
              strcmp(yaslaurel_meaning(YASLAUREL_REFUSED_EXPLAIN_BOUNDS), "there is no such container or atom") == 0 &&
              strcmp(yaslaurel_meaning(YASLAUREL_REFUSED_OTHER_USER),
                     "a new file for another user than the process's own") == 0,
          "meaning: the texts stand under their numbers");
}

#include "compositions.h"

/* The verdict's 1, silent's 1, a game's 1 and the judgement's 1 to 4 have texts other than the refusals'. */
static void answer_meanings(void)
{
    static const char *const verdicts[] = {"consistent", "not consistent"};
    static const char *const silences[] = {"not silent", "silent"};
    static const char *const outcomes[] = {"the guard can prevent it", "the desk can force it"};
    static const char *const judgements[] = {"accepted", "the proposal has a right that the old matrix lacks",
                                             "a right that must stay is withdrawn", "the proposal is not consistent",
                                             "a right that was withdrawn may be put back"};

    for (uint32_t i = 0; i < 2; i++) {
        check(strcmp(yaslaurel_verdict_meaning(i), verdicts[i]) == 0, "meaning: of a verdict");
        check(strcmp(yaslaurel_silence_meaning(i), silences[i]) == 0, "meaning: of silence");
        check(strcmp(yaslaurel_outcome_meaning(i), outcomes[i]) == 0, "meaning: of an outcome");
    }
    for (uint32_t i = 0; i < 5; i++) {
        check(strcmp(yaslaurel_judgement_meaning(i), judgements[i]) == 0, "meaning: of a judgement");
    }
    check(strcmp(yaslaurel_verdict_meaning(8), yaslaurel_meaning(8)) == 0 &&
              strcmp(yaslaurel_silence_meaning(8), yaslaurel_meaning(8)) == 0 &&
              strcmp(yaslaurel_outcome_meaning(8), yaslaurel_meaning(8)) == 0 &&
              strcmp(yaslaurel_judgement_meaning(8), yaslaurel_meaning(8)) == 0,
          "meaning: a refused matrix is a refusal in all five");
    check(strcmp(yaslaurel_outcome_meaning(23), yaslaurel_meaning(23)) == 0, "meaning: a refused game is a refusal");
    check(strcmp(yaslaurel_verdict_meaning(2), "no answer of yaslaurel_matrix_verdict") == 0 &&
              strcmp(yaslaurel_silence_meaning(2), "no answer of yaslaurel_matrix_silent") == 0 &&
              strcmp(yaslaurel_outcome_meaning(2), "no answer of yaslaurel_matrix_game") == 0 &&
              strcmp(yaslaurel_judgement_meaning(5), "no answer of yaslaurel_matrix_judge") == 0,
          "meaning: of numbers that are no answers");
}

int main(void)
{
    put_header(empty, (const size_t[YASLAUREL_SECTIONS]){0, 0, 0, 0}, NULL);
    check(yaslaurel_version() == YASLAUREL_VERSION, "the library has the header's version");
    names();
    owners();
    records();
    large_numbers();
    refusal_meanings();
    answer_meanings();
    session_lengths();
    output_lengths();
    nulls();
    matrix_example();
    silent_examples();
    game_examples();
    game_bounds();
    step_example();
    what_if_example();
    batch_example();
    event_example();
    figures_example();
    trim_examples();
    leaving_example();
    behalf_example();
    behalf_rows();
    guarded_example();
    guarded_batch();
    position_example();
    profile_example();
    profile_limits();
    withdrawals();
    compositions();
    explanations();
    random_bytes();
    printf("%u passed, %u failed\n", passed, failed);
    return failed != 0;
}
