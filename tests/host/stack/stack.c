/*
 * Measures the stack of each function of the library. A call runs on a stack of its own that was painted before; what is
 * no longer paint was used. Inputs are the largest and the worst that we can make, and many random ones. Prints a line
 * for each function and `N passed, M failed`: a function fails if it used more than the header says, or if the header
 * says over twice what was found.
 */
#define _GNU_SOURCE
#include <stdio.h>
#include <stdlib.h>
#include <string.h>
#include <sys/mman.h>
#include <ucontext.h>

#include "../inputs.h"
#include "yaslaurel.h"

enum {
    STACK = 1 << 18,
    SESSION = YASLAUREL_SESSION_LENGTH,
    FILES = 200, /* of the containers; the others are processes, and some numbers are free */
    PROCESSES = 40,
    SUBJECTS = 8,
    OBJECTS = 32,
    ROUNDS = 300,
    STEPS = 200
};

static const uint64_t paint = 0xa5c3966969963c5au;

static uint64_t *stack;
static uintptr_t at_call; /* the stack pointer of the caller */
static ucontext_t here;

/* What the calls are lent. */
static uint8_t image[YASLAUREL_IMAGE_LIMIT];
static size_t image_length;
static uint8_t other[YASLAUREL_IMAGE_LIMIT];
static size_t other_length;
static uint8_t consent[YASLAUREL_ATOMS];
static size_t composed_length;
static uint8_t out[YASLAUREL_OUTPUT_LENGTH];
static uint64_t session[SESSION];
static uint8_t record[YASLAUREL_RECORD_LENGTH];
static uint8_t trace[YASLAUREL_TRIM_LIMIT * YASLAUREL_RECORD_LENGTH];
static size_t trace_length;
static uint8_t positions[YASLAUREL_TRIM_LIMIT];
static uint64_t links[YASLAUREL_LINKS_LENGTH(YASLAUREL_TRIM_LIMIT)];
static uint64_t chain[YASLAUREL_TRIM_LIMIT], reason[YASLAUREL_WHY_LENGTH], file, first;
static uint32_t rows[6][SUBJECTS];
static char text[YASLAUREL_TEXT_LIMIT + 1];
static uint32_t answer;
static uint64_t receiver, tag;
static uint32_t position;
static uint32_t count, source, target;
static size_t taken, written;
static uint64_t events[YASLAUREL_EVENT_LENGTH], figures[YASLAUREL_FIGURES_LENGTH], total[YASLAUREL_FIGURES_LENGTH];

/* Each caller notes its stack pointer, then calls. */
#define NOTE() __asm__ volatile("mov %%rsp, %0" : "=m"(at_call))

static void call_version(void)
{
    NOTE();
    answer = yaslaurel_version();
}

static void call_check(void)
{
    NOTE();
    answer = yaslaurel_image_check(image, image_length);
}

static void call_normalise(void)
{
    NOTE();
    answer = yaslaurel_image_normalise(image, image_length, out, sizeof out);
}

static void call_start(void)
{
    NOTE();
    answer = yaslaurel_session_start(image, image_length, session, SESSION);
}

static void call_step(void)
{
    NOTE();
    answer = yaslaurel_step(session, SESSION, record, sizeof record, &receiver, &tag, &position);
}

static void call_run(void)
{
    NOTE();
    answer = yaslaurel_run(session, SESSION, record, sizeof record, &taken, &receiver, &tag, &position);
}

static void call_events(void)
{
    NOTE();
    answer = yaslaurel_events(session, SESSION, record, sizeof record, events, sizeof events / sizeof events[0], &taken,
                              &written);
}

static void call_figures(void)
{
    NOTE();
    answer = yaslaurel_figures(session, SESSION, record, sizeof record, figures, YASLAUREL_FIGURES_LENGTH);
}

static void call_figures_add(void)
{
    NOTE();
    answer = yaslaurel_figures_add(total, YASLAUREL_FIGURES_LENGTH, figures, YASLAUREL_FIGURES_LENGTH);
}

static void call_trim(void)
{
    NOTE();
    answer = yaslaurel_trace_trim(image, image_length, trace, trace_length, positions, sizeof positions, &taken);
}

static void call_explain(void)
{
    NOTE();
    answer = yaslaurel_explain(image, image_length, trace, trace_length, (size_t)(receiver % YASLAUREL_CONTAINERS),
                               (size_t)(tag % 64), links, sizeof links / sizeof links[0], chain,
                               sizeof chain / sizeof chain[0], &file, &first);
}

static void call_why(void)
{
    NOTE();
    answer = yaslaurel_why(image, image_length, trace, trace_length, links, sizeof links / sizeof links[0], chain,
                           sizeof chain / sizeof chain[0], reason, sizeof reason / sizeof reason[0]);
}

static void call_verdict(void)
{
    NOTE();
    answer = yaslaurel_matrix_verdict(rows[0], SUBJECTS, rows[1], SUBJECTS, OBJECTS, &count, &source, &target);
}

static void call_silent(void)
{
    NOTE();
    answer = yaslaurel_matrix_silent(rows[0], SUBJECTS, rows[1], SUBJECTS, OBJECTS);
}

/* A game of all rounds on the first rows: three subjects, and as many objects as are left of each row. */
static void call_game(void)
{
    NOTE();
    answer = yaslaurel_matrix_game(rows[0], YASLAUREL_GAME_SUBJECTS, rows[1], YASLAUREL_GAME_SUBJECTS,
                                   YASLAUREL_GAME_OBJECTS, 0, 2, YASLAUREL_GAME_ROUNDS, YASLAUREL_GAME_WITHDRAWALS,
                                   &count, &source, &target);
}

static void call_judge(void)
{
    NOTE();
    answer = yaslaurel_matrix_judge(rows[0], SUBJECTS, rows[1], SUBJECTS, OBJECTS, rows[2], SUBJECTS, rows[3], SUBJECTS,
                                    OBJECTS, rows[4], SUBJECTS, rows[5], SUBJECTS, OBJECTS);
}

static void call_policy(void)
{
    NOTE();
    answer = yaslaurel_matrix_policy(rows[0], SUBJECTS, rows[1], SUBJECTS, OBJECTS, out, sizeof out);
}

static void call_profiles(void)
{
    NOTE();
    answer = yaslaurel_profiles_policy((const uint8_t *)text, strlen(text), out, sizeof out);
}

static void call_compose(void)
{
    NOTE();
    answer = yaslaurel_image_compose(image, image_length, other, other_length, consent, sizeof consent, out, sizeof out,
                                     &composed_length);
}

static struct function {
    const char *name;
    void (*call)(void);
    size_t said, found;
} functions[] = {
    {"yaslaurel_version", call_version, YASLAUREL_VERSION_STACK, 0},
    {"yaslaurel_image_check", call_check, YASLAUREL_IMAGE_CHECK_STACK, 0},
    {"yaslaurel_image_normalise", call_normalise, YASLAUREL_IMAGE_NORMALISE_STACK, 0},
    {"yaslaurel_session_start", call_start, YASLAUREL_SESSION_START_STACK, 0},
    {"yaslaurel_step", call_step, YASLAUREL_STEP_STACK, 0},
    {"yaslaurel_run", call_run, YASLAUREL_RUN_STACK, 0},
    {"yaslaurel_events", call_events, YASLAUREL_EVENTS_STACK, 0},
    {"yaslaurel_figures", call_figures, YASLAUREL_FIGURES_STACK, 0},
    {"yaslaurel_figures_add", call_figures_add, YASLAUREL_FIGURES_ADD_STACK, 0},
    {"yaslaurel_trace_trim", call_trim, YASLAUREL_TRACE_TRIM_STACK, 0},
    {"yaslaurel_explain", call_explain, YASLAUREL_EXPLAIN_STACK, 0},
    {"yaslaurel_why", call_why, YASLAUREL_WHY_STACK, 0},
    {"yaslaurel_matrix_verdict", call_verdict, YASLAUREL_MATRIX_VERDICT_STACK, 0},
    {"yaslaurel_matrix_silent", call_silent, YASLAUREL_MATRIX_SILENT_STACK, 0},
    {"yaslaurel_matrix_game", call_game, YASLAUREL_MATRIX_GAME_STACK, 0},
    {"yaslaurel_matrix_judge", call_judge, YASLAUREL_MATRIX_JUDGE_STACK, 0},
    {"yaslaurel_matrix_policy", call_policy, YASLAUREL_MATRIX_POLICY_STACK, 0},
    {"yaslaurel_profiles_policy", call_profiles, YASLAUREL_PROFILES_POLICY_STACK, 0},
    {"yaslaurel_image_compose", call_compose, YASLAUREL_IMAGE_COMPOSE_STACK, 0},
};

enum { VERSION, CHECK, NORMALISE, START, STEP, RUN, EVENTS, FIGURES, FIGURES_ADD, TRIM, EXPLAIN, WHY, VERDICT, SILENT, GAME, JUDGE, POLICY, PROFILES, COMPOSE };

/* Runs a call on the painted stack and keeps the most that was found. */
static void measure(int which)
{
    struct function *function = &functions[which];
    ucontext_t there;
    size_t untouched = 0;

    for (size_t i = 0; i < STACK / sizeof *stack; i++) {
        stack[i] = paint;
    }
    if (getcontext(&there) != 0) {
        exit(2);
    }
    there.uc_stack.ss_sp = stack;
    there.uc_stack.ss_size = STACK;
    there.uc_link = &here;
    makecontext(&there, function->call, 0);
    if (swapcontext(&here, &there) != 0) {
        exit(2);
    }
    while (stack[untouched] == paint) {
        untouched++;
    }
    size_t used = (size_t)(at_call - (uintptr_t)&stack[untouched]);
    function->found = used > function->found ? used : function->found;
}

static uint64_t draw(void)
{
    static uint64_t state = 1;
    return next(&state);
}

/*
 * The largest image: 240 containers, 16 users, 256 rules of 8 mixtures. With `sparse` a mixture has a quarter of the
 * atoms, so that the meet of two rules has few enough mixtures.
 */
static void make_image(int sparse)
{
    static const size_t counts[YASLAUREL_SECTIONS] = {FILES + PROCESSES, YASLAUREL_USERS, YASLAUREL_RULES, YASLAUREL_MIXTURES};
    uint8_t *at;

    image_length = put_header(image, counts, NULL);
    at = section_at(image, CONTAINER_SECTION);
    for (size_t i = 0; i < FILES; i++) {
        uint64_t atom = draw() % YASLAUREL_ATOMS, permit = draw() % YASLAUREL_RULES, run = draw() % YASLAUREL_RULES;
        at = put_container(at, YASLAUREL_FILE, atom, permit, run);
    }
    for (size_t i = 0; i < PROCESSES; i++) {
        at = put_other(at, YASLAUREL_PROCESS);
    }
    for (size_t i = 0; i < YASLAUREL_USERS; i++) {
        at = put_user(at, draw() % YASLAUREL_RULES);
    }
    for (size_t i = 0; i < YASLAUREL_RULES; i++) {
        at = put_rule(at, i * YASLAUREL_RULE_MIXTURES, YASLAUREL_RULE_MIXTURES);
    }
    for (size_t i = 0; i < YASLAUREL_MIXTURES; i++) {
        at = put_mixture(at, sparse ? (uint64_t)1 << draw() % 6 | (uint64_t)1 << draw() % 6 : draw());
    }
}

/* Random operations on the session, most of them good. */
static void steps(void)
{
    for (int i = 0; i < STEPS; i++) {
        uint32_t code = (uint32_t)(1 + draw() % YASLAUREL_DELETE);
        uint32_t p = (uint32_t)(FILES + draw() % PROCESSES);
        uint32_t o = (uint32_t)(draw() % YASLAUREL_CONTAINERS);
        uint32_t u = code == YASLAUREL_EXEC || code == YASLAUREL_NEW_FILE ? (uint32_t)(draw() % YASLAUREL_USERS)
                                                                         : YASLAUREL_NO_USER;
        yaslaurel_record(code, p, code == YASLAUREL_END ? p : o, u, record);
        static const int turns[] = {STEP, RUN, EVENTS, FIGURES, FIGURES_ADD};
        measure(turns[i % 5]);
    }
}

/* Accepted operations on a session, up to one that raises an alert; a whole trace of them where none does. */
static void make_trace(void)
{
    trace_length = 0;
    if (yaslaurel_session_start(image, image_length, session, SESSION) != 0) {
        exit(2);
    }
    for (int i = 0; i < STEPS && trace_length < sizeof trace; i++) {
        uint32_t code = (uint32_t)(1 + draw() % YASLAUREL_FORK);
        uint32_t user = code == YASLAUREL_EXEC ? (uint32_t)(draw() % YASLAUREL_USERS) : YASLAUREL_NO_USER;
        yaslaurel_record(code, (uint32_t)(FILES + draw() % PROCESSES), (uint32_t)(draw() % YASLAUREL_CONTAINERS), user, record);
        uint32_t given = yaslaurel_step(session, SESSION, record, sizeof record, &receiver, &tag, &position);
        if (given == YASLAUREL_QUIET || given == YASLAUREL_ALERT) {
            memcpy(trace + trace_length, record, sizeof record);
            trace_length += sizeof record;
        }
        if (given == YASLAUREL_ALERT && i >= STEPS / 10) {
            return;
        }
    }
}

/* Random rights; in the proposal some of those of the old matrix, and some of these must stay. */
static void make_rows(void)
{
    for (size_t i = 0; i < SUBJECTS; i++) {
        for (size_t j = 0; j < 2; j++) {
            rows[j][i] = (uint32_t)(draw() & draw());
            rows[4 + j][i] = rows[j][i] & (uint32_t)(draw() | draw());
            rows[2 + j][i] = rows[4 + j][i] & (uint32_t)draw();
        }
    }
}

/* The rows of a game: every right, or some. */
static void make_game(void)
{
    for (unsigned s = 0; s < YASLAUREL_GAME_SUBJECTS; s++) {
        rows[0][s] = (uint32_t)draw() % 8;
        rows[1][s] = (uint32_t)draw() % 8;
    }
}

/* Programs that read, write and execute random ones of 31 paths, each by many modes. */
static void make_text(void)
{
    static const char *const modes[] = {"r", "w", "rw", "ix", "px", "ux", "rwalmixpxPxuxUx"};
    char *at = text;

    for (unsigned i = 0; i < YASLAUREL_PATHS - 1; i++) {
        at += sprintf(at, "profile /%u {\n", i);
        for (unsigned j = 0; j < 8; j++) {
            at += sprintf(at, "/%u %s,\n", (unsigned)(draw() % YASLAUREL_PATHS), modes[draw() % 7]);
        }
        at += sprintf(at, "}\n");
    }
}

/* One program for each of 8 files that it alone may write, and 32 paths in all: a policy that is accepted. */
static void make_good_text(void)
{
    char *at = text;

    for (unsigned i = 0; i < YASLAUREL_PATHS / 2; i++) {
        at += sprintf(at, "profile /p%u {\n/f%u rwix,\n/f%u r,\n}\n", i, i, (unsigned)(draw() % (i + 1)));
    }
}

/* Composes the image with one of other rules at the same places: with none consenting, with all, and with itself. */
static void compose(void)
{
    other_length = image_length;
    memcpy(other, image, image_length);
    measure(COMPOSE);
    for (size_t i = 0; i < YASLAUREL_MIXTURES; i++) {
        put_mixture(section_at(other, MIXTURE_SECTION) + i * YASLAUREL_MIXTURE_LENGTH, (uint64_t)1 << draw() % 6);
    }
    measure(COMPOSE);
    memset(consent, 1, sizeof consent);
    measure(COMPOSE);
    memset(consent, 0, sizeof consent);
}

static void measure_all(int round)
{
    make_image(round % 2);
    compose();
    measure(VERSION);
    measure(CHECK);
    measure(NORMALISE);
    measure(START);
    steps();
    make_trace();
    measure(TRIM);
    measure(EXPLAIN);
    measure(WHY);
    make_rows();
    measure(VERDICT);
    measure(SILENT);
    measure(JUDGE);
    /* Nothing withdrawn but what no flow needs: each right that is put back is looked at. */
    memcpy(rows[4], rows[0], sizeof rows[0]);
    memset(rows[5], 0, sizeof rows[5]);
    memset(rows[2], 0, 2 * sizeof rows[2]);
    measure(JUDGE);
    measure(POLICY);
    make_game();
    measure(GAME);
    make_text();
    measure(PROFILES);
    make_good_text();
    measure(PROFILES);
    image_length = draw() % sizeof image;
    measure(CHECK);
}

int main(void)
{
    unsigned passed = 0, failed = 0;

    stack = mmap(NULL, STACK, PROT_READ | PROT_WRITE, MAP_PRIVATE | MAP_ANONYMOUS, -1, 0);
    if (stack == MAP_FAILED) {
        return 2;
    }
    for (int round = 0; round < ROUNDS; round++) {
        measure_all(round);
    }
    for (size_t i = 0; i < sizeof functions / sizeof functions[0]; i++) {
        struct function *function = &functions[i];
        int good = function->found <= function->said && function->said <= 2 * function->found;
        printf("%s %s: %zu bytes of stack, the header says %zu\n", good ? "ok" : "FAILED", function->name, function->found,
               function->said);
        good ? passed++ : failed++;
    }
    printf("%u passed, %u failed\n", passed, failed);
    return failed != 0;
}
