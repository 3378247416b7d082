/*
 * Random bytes with some structure for every function of the library, for so many seconds.
 *
 *     fuzz SECONDS [SEED]
 *     fuzz --rounds N [SEED]
 *
 * Every lent slice lies against a page that may not be touched, before it or behind it by turns, and what a call may only
 * read lies on pages that may not be written. The rest of the slice's pages holds a mark that must stay. Every answer
 * must be one that the function can give; a refused call must leave all lent memory; answers of different functions on
 * the same image must agree. The last line is `N passed, M failed`.
 */
#define _GNU_SOURCE
#include <stdio.h>
#include <stdlib.h>
#include <string.h>
#include <sys/mman.h>
#include <time.h>
#include <unistd.h>

#include "../inputs.h"
#include "yaslaurel.h"

enum {
    MARK = 0xc3,
    SESSION = YASLAUREL_SESSION_LENGTH,
    OUTPUT = YASLAUREL_OUTPUT_LENGTH,
    HEADER = YASLAUREL_HEADER_LENGTH,
    RECORD = YASLAUREL_RECORD_LENGTH,
    CONTAINER_ROW = YASLAUREL_CONTAINER_ROW,
    SECTIONS = YASLAUREL_SECTIONS,
    WORD = sizeof(uint64_t),
    BATCH = 40, /* records of a run at most */
    POSITIONS = YASLAUREL_TRIM_LIMIT,
    /* Numbers of answers; a length is counted as the last. */
    ANSWERS = 259,
    LENGTH = ANSWERS - 1
};

/* How many records a section has at most. */
static const size_t most[SECTIONS] = {YASLAUREL_CONTAINERS, YASLAUREL_USERS, YASLAUREL_RULES, YASLAUREL_MIXTURES};

static uint64_t state;
static uint64_t seed;
static unsigned long rounds;

static uint64_t draw(void) { return next(&state); }

static size_t below(size_t bound) { return bound == 0 ? 0 : (size_t)(draw() % bound); }

static int percent(unsigned chance) { return below(100) < chance; }

static void fail(const char *what)
{
    printf("FAILED %s, seed %llu, round %lu\n0 passed, 1 failed\n", what, (unsigned long long)seed, rounds);
    exit(1);
}

static void require(int good, const char *what)
{
    if (!good) {
        fail(what);
    }
}

/* Pages between two pages that may not be touched. */
struct region {
    uint8_t *pages;
    size_t size;
    uint8_t *slice;
    size_t length; /* in bytes */
    uint8_t *copy;
};

static struct region image_at, out_at, session_at, record_at, reads_at, writes_at, numbers_at, taken_at, text_at,
    positions_at;
static struct region rights_at[6]; /* read rows, then write rows, of three matrices */

static void reserve(struct region *region, size_t bytes)
{
    size_t page = (size_t)sysconf(_SC_PAGESIZE);
    region->size = (bytes + page - 1) / page * page;
    uint8_t *all = mmap(NULL, region->size + 2 * page, PROT_NONE, MAP_PRIVATE | MAP_ANONYMOUS, -1, 0);
    require(all != MAP_FAILED, "memory");
    region->pages = all + page;
    require(mprotect(region->pages, region->size, PROT_READ | PROT_WRITE) == 0, "memory");
    region->copy = malloc(region->size);
    require(region->copy != NULL, "memory");
}

/* Lays a slice against the page behind, or the page before. */
static void lend(struct region *region, const void *content, size_t length)
{
    memset(region->pages, MARK, region->size);
    region->slice = percent(70) ? region->pages + region->size - length : region->pages;
    region->length = length;
    if (length > 0) {
        memcpy(region->slice, content, length);
    }
    memcpy(region->copy, region->pages, region->size);
}

static void read_only(struct region *region, int on)
{
    require(mprotect(region->pages, region->size, on ? PROT_READ : PROT_READ | PROT_WRITE) == 0, "memory");
}

/* Nothing of the region has changed, but for the first `written` bytes of the slice. */
static int stayed(const struct region *region, size_t written)
{
    size_t from = (size_t)(region->slice - region->pages);
    return memcmp(region->pages, region->copy, from) == 0 &&
           memcmp(region->slice + written, region->copy + from + written, region->size - from - written) == 0;
}

/* How often each function gave each answer. */
static unsigned long checks[ANSWERS], normals[ANSWERS], starts[ANSWERS], steps[ANSWERS], runs[ANSWERS],
    trims[ANSWERS], verdicts[ANSWERS], silences[ANSWERS], games[ANSWERS], policies[ANSWERS], profiles[ANSWERS],
    proposals[ANSWERS];

static uint8_t *put16(uint8_t *at, size_t value) { return put(at, value, 2); }

static uint8_t image[YASLAUREL_IMAGE_LIMIT + 100];
static uint8_t blank[OUTPUT + 40];

/* The number of one of so many rules, or of the unrestricted one in so many of a hundred. */
static size_t rule_of(size_t rules, unsigned chance)
{
    return rules == 0 || percent(chance) ? YASLAUREL_UNRESTRICTED : below(rules);
}

/* The containers of an image: a process first, then files and others. */
static void make_containers(const size_t *counts)
{
    uint8_t *at = section_at(image, CONTAINER_SECTION);

    for (size_t i = 0; i < counts[CONTAINER_SECTION]; i++) {
        if (i > 0 && percent(60)) {
            size_t permit = rule_of(counts[RULE_SECTION], 20), run = rule_of(counts[RULE_SECTION], 40);
            at = put_container(at, percent(40) ? YASLAUREL_GUARDED : YASLAUREL_FILE, below(YASLAUREL_ATOMS), permit, run);
        } else {
            at = put_other(at, i == 0 || percent(50) ? YASLAUREL_PROCESS : YASLAUREL_VOLATILE);
        }
    }
}

/* An image that is accepted, of small or largest size. Its length. */
static size_t make_image(void)
{
    static const size_t few[SECTIONS] = {14, 6, 8, 20};
    int large = percent(2);
    size_t counts[SECTIONS], gaps[SECTIONS];

    for (int section = 0; section < SECTIONS; section++) {
        counts[section] = large ? most[section] : below(few[section]);
        gaps[section] = percent(10) ? below(5) : 0;
    }
    size_t length = put_header(image, counts, gaps), rules = counts[RULE_SECTION], mixtures = counts[MIXTURE_SECTION];
    make_containers(counts);
    uint8_t *at = section_at(image, USER_SECTION);
    for (size_t i = 0; i < counts[USER_SECTION]; i++) {
        at = put_user(at, rule_of(rules, 20));
    }
    at = section_at(image, RULE_SECTION);
    for (size_t i = 0; i < rules; i++) {
        size_t first = mixtures * i / (rules + 1), left = mixtures - first;
        size_t count = below(1 + (left < YASLAUREL_RULE_MIXTURES ? left : YASLAUREL_RULE_MIXTURES));
        size_t users = counts[USER_SECTION];
        at = put_owned_rule(at, first, count, users > 0 && percent(50) ? below(users) : YASLAUREL_NO_OWNER);
    }
    at = section_at(image, MIXTURE_SECTION);
    for (size_t i = 0; i < mixtures; i++) {
        at = put_mixture(at, percent(50) ? draw() : draw() & 0x3f0000003fu);
    }
    return length;
}

/* A field of a record: a little off, or at an end of its range. */
static void damage_field(uint8_t *field)
{
    put16(field, percent(50) ? get16(field) + 1 : (size_t[]){0, 9, 65534, 65535}[below(4)]);
}

/* Breaks an image in a few places, or makes it any bytes. Its new length. */
static size_t damage(size_t length)
{
    size_t section = below(SECTIONS), size = record_sizes[section];
    size_t at = get16(image + YASLAUREL_OFFSET_AT(section));
    size_t count = get16(image + YASLAUREL_LENGTH_AT(section)) / size;

    for (size_t times = below(4); times > 0; times--) {
        switch (below(9)) {
        case 0:
            length = below(length + 1);
            break;
        case 1:
            image[below(HEADER)] = (uint8_t)draw();
            break;
        case 2:
            put16(image + (percent(50) ? YASLAUREL_OFFSET_AT(section) : YASLAUREL_LENGTH_AT(section)), below(300));
            break;
        case 3:
            memset(image + length, 9, sizeof image - length);
            length = YASLAUREL_IMAGE_LIMIT - 5 + below(10);
            break;
        case 4:
        case 5:
        case 6:
            if (count > 0 && length >= at + size * count) {
                damage_field(image + at + size * below(count) + 2 * below(size / 2));
            }
            break;
        case 7:
            /* A section one byte or one record longer. */
            put16(image + YASLAUREL_LENGTH_AT(section), size * count + (percent(50) ? 1 : size));
            break;
        default:
            image[below(length + 1)] = (uint8_t)(percent(50) ? draw() : 255 * below(2));
        }
    }
    return length;
}

static uint64_t session[SESSION + 8];

/* Check, normaliser and start on one image: whether it was accepted. */
static int try_image(size_t length)
{
    size_t out_length = percent(90) ? OUTPUT : below(OUTPUT + 40);
    size_t session_length = percent(95) ? SESSION : below(SESSION + 8);

    lend(&image_at, image, length);
    lend(&out_at, blank, out_length);
    lend(&session_at, session, WORD * session_length);
    read_only(&image_at, 1);
    uint32_t answer = yaslaurel_image_check(image_at.slice, length);
    uint32_t normal = yaslaurel_image_normalise(image_at.slice, length, out_at.slice, out_length);
    uint32_t start = yaslaurel_session_start(image_at.slice, length, (uint64_t *)(void *)session_at.slice,
                                             session_length);
    read_only(&image_at, 0);

    require(answer <= 6, "the image check gives 0 to 6");
    require(stayed(&image_at, 0), "the image stays");
    checks[answer]++;
    normals[normal < HEADER ? normal : LENGTH]++;
    starts[start < ANSWERS ? start : 0]++;
    if (out_length < OUTPUT) {
        require(normal == 9, "the normaliser gives 9 for a short output");
    } else if (answer != 0) {
        require(normal == answer, "the normaliser refuses as the check does");
    } else {
        require(normal >= HEADER && normal <= OUTPUT, "the normaliser gives a length");
        require(yaslaurel_image_check(out_at.slice, normal) == 0, "a normal image is accepted");
    }
    require(stayed(&out_at, normal < HEADER ? 0 : normal), "the output stays, but for the normal image");
    require(start == (session_length != SESSION ? 9 : answer), "the start refuses as the check does, 9 first");
    require(stayed(&session_at, start == 0 ? WORD * SESSION : 0), "the session stays, but for an accepted start");
    if (start == 0) {
        memcpy(session, session_at.slice, WORD * SESSION);
    }
    return start == 0;
}

/* A container whose row has this kind, from a random place on; any if there is none. */
static size_t container_of(uint64_t kind)
{
    size_t from = below(40);
    for (size_t i = 0; i < YASLAUREL_CONTAINERS; i++) {
        size_t container = (from + i) % YASLAUREL_CONTAINERS;
        if (session[CONTAINER_ROW * container + YASLAUREL_KIND_AT] == kind) {
            return container;
        }
    }
    return from;
}

/* A record for the session as it stands, now and then of any bytes. Its code. */
static unsigned make_record(uint8_t *record)
{
    unsigned code = 1 + (unsigned)below(9);
    if (code == 8 && percent(60)) {
        code = 5; /* More processes begin than end. */
    }
    static const uint64_t stores[] = {YASLAUREL_FILE, YASLAUREL_GUARDED, YASLAUREL_VOLATILE};
    uint64_t store = stores[below(code == 4 ? 2 : 3)];
    size_t p = percent(96) ? container_of(3) : below(YASLAUREL_CONTAINERS);
    size_t o = code == 8 ? p : container_of(code <= 4 || code == 9 ? store : 0);

    for (size_t i = 0; i < RECORD; i++) {
        record[i] = (uint8_t)draw();
    }
    if (percent(95)) {
        o = percent(94) ? o : below(YASLAUREL_CONTAINERS);
        size_t u = code == 4 || code == 6 ? below(percent(90) ? 3 : YASLAUREL_USERS) : YASLAUREL_NO_USER;
        yaslaurel_record(code, (uint32_t)p, (uint32_t)o, (uint32_t)u, record);
    }
    return code;
}

/* The user that the receiver of an accepted record then has. */
static uint64_t behalf_after(const uint8_t *record, size_t receiver)
{
    switch (record[YASLAUREL_CODE_AT]) {
    case 4:
        return record[YASLAUREL_USER_AT];
    case 5:
        return session[CONTAINER_ROW * record[YASLAUREL_PROCESS_AT] + YASLAUREL_BEHALF_AT];
    case 6:
    case 7:
        return YASLAUREL_NO_USER;
    case 8:
    case 9:
        return 0;
    default:
        return session[CONTAINER_ROW * receiver + YASLAUREL_BEHALF_AT];
    }
}

/* Whether a record makes a file for another user than the one of its process. */
static int other_user(const uint8_t *record)
{
    uint64_t own = session[CONTAINER_ROW * record[YASLAUREL_PROCESS_AT] + YASLAUREL_BEHALF_AT];
    return record[YASLAUREL_CODE_AT] == 6 && own != YASLAUREL_NO_USER && own != record[YASLAUREL_USER_AT];
}

/* What a step answers: receiver, tag and, as a number of 32 bits, the position. */
enum { TOLD = 3 };

/* A step, with the numbers that it answers. */
static uint32_t step(uint64_t *words, size_t words_length, const uint8_t *record, size_t length, uint64_t *numbers)
{
    return yaslaurel_step(words, words_length, record, length, &numbers[0], &numbers[1], (uint32_t *)(void *)&numbers[2]);
}

/* The position among the numbers of an answer. */
static uint32_t position_told(const uint64_t *numbers) { return *(const uint32_t *)(const void *)&numbers[2]; }

/* The place of the first mixture that holds a tag in the permit rule of a row. */
static uint32_t position_in(const uint64_t *row, uint64_t tag)
{
    const uint64_t *rule = row + YASLAUREL_PERMIT_AT;
    for (uint32_t place = 0; place < rule[0] && place < YASLAUREL_RULE_MIXTURES; place++) {
        if ((rule[1 + place] & tag) == tag) {
            return place;
        }
    }
    return YASLAUREL_NO_POSITION;
}

/* Changes a bit in a row that a record names: of its process, its object or, for an exec, its user. */
static void damage_session(const uint8_t *record, unsigned code)
{
    size_t width = CONTAINER_ROW;
    size_t row = width * record[percent(50) ? YASLAUREL_PROCESS_AT : YASLAUREL_OBJECT_AT];

    if (code == 4 && percent(30)) {
        width = YASLAUREL_USER_ROW;
        row = YASLAUREL_USERS_AT + width * (record[YASLAUREL_USER_AT] % YASLAUREL_USERS);
    }
    session[row + below(width)] ^= (uint64_t)1 << below(64);
}

/* What an accepted record leaves in the lent session, whose answer is these numbers. The session is then that one. */
static void check_accepted(const uint8_t *record, const uint64_t *numbers)
{
    const uint64_t *after = (const uint64_t *)(const void *)session_at.slice;
    size_t row = CONTAINER_ROW * numbers[0];

    require(!other_user(record), "a new file for another user is refused");
    require(stayed(&session_at, WORD * SESSION), "memory beside the session stays");
    require(numbers[0] == record[YASLAUREL_PROCESS_AT] || numbers[0] == record[YASLAUREL_OBJECT_AT],
            "the receiver is p or o");
    require(after[row + YASLAUREL_BEHALF_AT] == behalf_after(record, numbers[0]),
            "an exec sets the receiver's user, a fork copies it, a new file or volatile has none, the others keep it");
    require(after[row + YASLAUREL_TAG_AT] == numbers[1], "the tag is the receiver's");
    require(position_told(numbers) == position_in(after + row, numbers[1]),
            "the position is that of the first mixture of the receiver's permit rule that holds the tag");
    for (size_t i = 0; record[YASLAUREL_CODE_AT] >= 8 && i < CONTAINER_ROW; i++) {
        require(after[row + i] == 0, "a container that leaves leaves a free row");
    }
    memcpy(session + row, after + row, WORD * CONTAINER_ROW);
    require(memcmp(session, after, WORD * SESSION) == 0, "the other rows stay");
}

/* What a blocked record leaves in the lent session, whose answer is these numbers. */
static void check_blocked(const uint8_t *record, const uint64_t *numbers)
{
    unsigned code = record[YASLAUREL_CODE_AT], o = record[YASLAUREL_OBJECT_AT];

    require(code == 2 || code == 3, "only writes and appends are blocked");
    require(session[CONTAINER_ROW * o + YASLAUREL_KIND_AT] == YASLAUREL_GUARDED, "only guarded files block");
    require(stayed(&session_at, 0), "the session stays where a record is blocked");
    uint64_t tag = session[CONTAINER_ROW * record[YASLAUREL_PROCESS_AT] + YASLAUREL_TAG_AT];
    tag |= code == 3 ? session[CONTAINER_ROW * o + YASLAUREL_TAG_AT] : 0;
    require(numbers[0] == o && numbers[1] == tag, "a blocked record gives the file and the tag it would have had");
    require(position_told(numbers) == YASLAUREL_NO_POSITION, "a blocked record has no position");
}

/* Whether an answer is a refusal of a step, which are these numbers. */
static int step_refused(uint32_t answer) { return answer == 7 || (answer >= 9 && answer <= 15) || answer == 18; }

/* One step on the session as it stands, or after damage to it. */
static void try_step(int damaged)
{
    uint8_t record[24];
    size_t length = RECORD, session_length = percent(98) ? SESSION : below(SESSION + 8);
    uint64_t before[TOLD] = {77, 88, 66};

    for (size_t i = RECORD; i < sizeof record; i++) {
        record[i] = (uint8_t)draw();
    }
    unsigned code = make_record(record);
    if (percent(3)) {
        length = below(sizeof record);
    }
    if (damaged) {
        damage_session(record, code);
    }
    lend(&session_at, session, WORD * session_length);
    lend(&record_at, record, length);
    lend(&numbers_at, before, sizeof before);
    read_only(&record_at, 1);
    uint64_t *numbers = (uint64_t *)(void *)numbers_at.slice;
    uint32_t answer = step((uint64_t *)(void *)session_at.slice, session_length, record_at.slice, length, numbers);
    read_only(&record_at, 0);

    int accepted = answer == YASLAUREL_QUIET || answer == YASLAUREL_ALERT, blocked = answer == YASLAUREL_BLOCKED;
    require(accepted || blocked || step_refused(answer), "the step gives an answer or 7, 9 to 15, 18");
    require((answer == 9) == (session_length != SESSION), "the step gives 9 for a session of wrong length alone");
    require(damaged || answer != 10, "a session that only start and step have written is not refused with 10");
    require(stayed(&record_at, 0), "the record stays");
    require(stayed(&numbers_at, accepted || blocked ? sizeof before : 0), "receiver, tag and position stay in a refusal");
    require(answer != 18 || other_user(record), "18 is for a new file for another user alone");
    steps[answer]++;
    if (accepted) {
        check_accepted(record, numbers);
    } else if (blocked) {
        check_blocked(record, numbers);
    } else {
        require(stayed(&session_at, 0), "the session stays in a refusal");
    }
}

/* What a run comes to: its answer, how many records it takes, and what its last one tells. */
struct run {
    uint32_t answer;
    size_t taken;
    uint64_t numbers[TOLD];
};

/* The records step by step, on a session of the right length, up to the first that is not quiet. */
static struct run run_by_steps(uint64_t *words, const uint8_t *records, size_t length)
{
    struct run run = {YASLAUREL_QUIET, 0, {77, 88, 66}};

    for (size_t at = 0; run.answer == YASLAUREL_QUIET && at < length; at += RECORD) {
        size_t left = length - at;
        run.answer = step(words, SESSION, records + at, left < RECORD ? left : RECORD, run.numbers);
        run.taken++;
    }
    return run;
}

/* Records for a batch on the session as it stands, the last of them short now and then. Their length. */
static size_t make_batch(uint8_t *records)
{
    size_t count = below(percent(70) ? 6 : BATCH + 1), length = RECORD * count;

    for (size_t i = 0; i < count; i++) {
        make_record(records + RECORD * i);
    }
    return percent(10) ? length - below(length < RECORD ? length + 1 : RECORD) : length;
}

/* What a run leaves of the lent memory is what its records leave step by step, and 9 leaves everything. */
static void check_run(const struct run *expected, const uint64_t *stepped, const uint64_t *numbers, size_t taken)
{
    int judged = expected->answer != 9;
    int told = expected->answer == YASLAUREL_ALERT || expected->answer == YASLAUREL_BLOCKED;

    require(stayed(&record_at, 0), "the records stay");
    require(stayed(&numbers_at, told ? TOLD * WORD : 0), "receiver, tag and position stay but in an alert or where it is blocked");
    require(stayed(&taken_at, judged ? sizeof taken : 0), "9 leaves the count");
    require(!judged || taken == expected->taken, "the run counts the records up to and with the one at which it stops");
    require(!told || memcmp(numbers, expected->numbers, sizeof expected->numbers) == 0,
            "the run gives the receiver, tag and position of an alert or a blocked record");
    require(stayed(&session_at, judged ? WORD * SESSION : 0), "memory beside the session stays");
    require(!judged || memcmp(session_at.slice, stepped, WORD * SESSION) == 0,
            "the run leaves the session that its records leave");
}

/* A batch on the session as it stands: its answer, its count and what it leaves are those of its records step by step. */
static void try_run(int damaged)
{
    static uint64_t stepped[SESSION + 8];
    uint8_t records[(BATCH + 1) * RECORD];
    size_t session_length = percent(97) ? SESSION : below(SESSION + 8), length = make_batch(records), old_taken = 99;
    uint64_t before[TOLD] = {77, 88, 66};
    struct run expected = {9, 0, {77, 88, 66}};

    if (damaged) {
        session[CONTAINER_ROW * below(20) + below(CONTAINER_ROW)] ^= (uint64_t)1 << below(64);
    }
    memcpy(stepped, session, sizeof session);
    if (session_length == SESSION) {
        expected = run_by_steps(stepped, records, length);
    }
    lend(&session_at, session, WORD * session_length);
    lend(&record_at, records, length);
    lend(&numbers_at, before, sizeof before);
    lend(&taken_at, &old_taken, sizeof old_taken);
    read_only(&record_at, 1);
    uint64_t *numbers = (uint64_t *)(void *)numbers_at.slice;
    size_t *taken = (size_t *)(void *)taken_at.slice;
    uint32_t answer = yaslaurel_run((uint64_t *)(void *)session_at.slice, session_length, record_at.slice, length,
                                    taken, &numbers[0], &numbers[1], (uint32_t *)(void *)&numbers[2]);
    read_only(&record_at, 0);
    require(answer == expected.answer, "the run answers as the step does at which it stops, 9 first");
    runs[answer]++;
    check_run(&expected, stepped, numbers, *taken);
    memcpy(session, stepped, WORD * SESSION);
}

/* Records that a new session of the image accepts, up to one that alerts if there is one; now and then one that is refused or
   blocked, or short. Their length, and whether a trim must take them. */
static size_t make_trace(size_t image_length, uint8_t *trace, int *good)
{
    uint64_t numbers[TOLD];
    size_t length = 0;

    *good = 0;
    if (yaslaurel_session_start(image, image_length, session, SESSION) != 0) {
        return percent(50) ? RECORD : below(RECORD);
    }
    for (size_t tries = below(BATCH); tries > 0 && !*good; tries--) {
        make_record(trace + length);
        uint32_t answer = step(session, SESSION, trace + length, RECORD, numbers);
        *good = answer == YASLAUREL_ALERT;
        length += *good || answer == YASLAUREL_QUIET ? RECORD : 0;
    }
    if (percent(10)) {
        *good = 0;
        return length + 1 + below(RECORD - 1);
    }
    return length;
}

/* A trace of the image trimmed to its alert, and what that leaves. */
static void try_trim(size_t image_length)
{
    uint8_t trace[(BATCH + 1) * RECORD] = {0};
    int good;
    size_t length = make_trace(image_length, trace, &good), old_kept = 99;
    size_t positions_length = percent(90) ? POSITIONS : below(POSITIONS + 40);
    uint32_t checked = yaslaurel_image_check(image, image_length);

    lend(&image_at, image, image_length);
    lend(&record_at, trace, length);
    lend(&positions_at, blank, positions_length);
    lend(&taken_at, &old_kept, sizeof old_kept);
    read_only(&image_at, 1);
    read_only(&record_at, 1);
    size_t *kept = (size_t *)(void *)taken_at.slice;
    uint32_t answer = yaslaurel_trace_trim(image_at.slice, image_length, record_at.slice, length, positions_at.slice,
                                           positions_length, kept);
    read_only(&image_at, 0);
    read_only(&record_at, 0);
    trims[answer < ANSWERS ? answer : LENGTH]++;
    require(answer == (positions_length < POSITIONS ? 9 : checked != 0 ? checked : good ? 0 : 22),
            "a trim gives 9, then what the check gives, then 22 unless an alert ends the trace");
    require(stayed(&image_at, 0) && stayed(&record_at, 0), "a trim leaves the image and the trace");
    require(stayed(&taken_at, answer == 0 ? sizeof old_kept : 0), "a refused trim leaves the count");
    require(stayed(&positions_at, answer == 0 ? *kept : 0), "the bytes behind the positions stay");
    require(answer != 0 || (*kept >= 1 && positions_at.slice[*kept - 1] == length / RECORD - 1),
            "the last position is that of the last record");
    for (size_t i = 1; answer == 0 && i < *kept; i++) {
        require(positions_at.slice[i - 1] < positions_at.slice[i], "positions rise");
    }
}

/* The verdict on the rows that are lent, and what it leaves. */
static uint32_t try_verdict(size_t subjects, size_t writers, uint32_t objects)
{
    uint32_t before[3] = {7, 8, 9};

    lend(&numbers_at, before, sizeof before);
    uint32_t *numbers = (uint32_t *)(void *)numbers_at.slice;
    uint32_t verdict = yaslaurel_matrix_verdict((const uint32_t *)(const void *)reads_at.slice, subjects,
                                                (const uint32_t *)(const void *)writes_at.slice, writers, objects,
                                                &numbers[0], &numbers[1], &numbers[2]);
    require(verdict <= 1 || verdict == 8, "the verdict gives 0, 1 or 8");
    require(stayed(&numbers_at, verdict == 8 ? 0 : sizeof before), "the three numbers stay in a refusal");
    require(verdict != 0 || (numbers[0] == 0 && numbers[1] == 0 && numbers[2] == 0), "consistent gives zeros");
    require(verdict != 1 ||
                (numbers[0] >= 1 && numbers[1] < objects && numbers[2] < objects && numbers[1] != numbers[2]),
            "the flow is between two objects");
    verdicts[verdict]++;
    return verdict;
}

/* Whether the rows that are lent are silent, beside their verdict. */
static void try_silent(size_t subjects, size_t writers, uint32_t objects, uint32_t verdict)
{
    uint32_t silent = yaslaurel_matrix_silent((const uint32_t *)(const void *)reads_at.slice, subjects,
                                              (const uint32_t *)(const void *)writes_at.slice, writers, objects);
    require(silent <= 1 || silent == 8, "silent gives 0, 1 or 8");
    require((silent == 8) == (verdict == 8), "silent refuses as the verdict does");
    require(silent != 1 || verdict == 0, "a silent matrix is consistent");
    silences[silent]++;
}

/* A game on the rows that are lent, beside their verdict, and what it leaves. */
static void try_game(size_t subjects, size_t writers, uint32_t objects, uint32_t verdict)
{
    uint32_t before[3] = {17, 18, 19}, rounds = (uint32_t)below(6), withdrawals = (uint32_t)below(4);
    uint32_t source = (uint32_t)below(percent(95) ? 3 : 40), target = (uint32_t)below(percent(95) ? 3 : 40);

    lend(&numbers_at, before, sizeof before);
    uint32_t *numbers = (uint32_t *)(void *)numbers_at.slice;
    uint32_t answer = yaslaurel_matrix_game((const uint32_t *)(const void *)reads_at.slice, subjects,
                                            (const uint32_t *)(const void *)writes_at.slice, writers, objects, source,
                                            target, rounds, withdrawals, &numbers[0], &numbers[1], &numbers[2]);
    int bounded = subjects <= 3 && objects <= 3 && source < objects && target < objects && source != target &&
                  rounds >= 1 && rounds <= 4 && withdrawals <= 2;
    require(answer <= 1 || answer == 8 || answer == 23, "a game gives 0, 1, 8 or 23");
    require((answer == 8) == (verdict == 8), "a game refuses its matrix as the verdict does");
    require(verdict == 8 || (answer == 23) == !bounded, "a game is refused by 23 exactly if it is out of bounds");
    require(stayed(&numbers_at, answer > 1 ? 0 : sizeof before), "the move stays in a refusal");
    require(answer != 0 || (numbers[0] == 0 && numbers[1] == 0 && numbers[2] == 0), "the guard's answer has zeros");
    require(answer != 1 || (numbers[0] == YASLAUREL_READ && numbers[1] < subjects && numbers[2] < objects),
            "the first winning move is a read by a subject of an object");
    require(answer != 1 || rounds >= 2, "nobody wins in one round");
    games[answer]++;
}

static void try_matrix(void)
{
    uint32_t rows[24];
    int small = percent(40);
    size_t subjects = percent(95) ? 1 + below(small ? 3 : 8) : below(12), writers = percent(97) ? subjects : below(12);
    size_t out_length = percent(95) ? OUTPUT : below(OUTPUT + 40);
    uint32_t objects = (uint32_t)(percent(90) ? 1 + below(small ? 3 : 32) : below(40));
    uint64_t mask = percent(97) && objects <= 32 ? ((uint64_t)1 << objects) - 1 : UINT32_MAX;

    for (size_t i = 0; i < 24; i++) {
        rows[i] = (uint32_t)(draw() & draw() & (percent(50) ? draw() : UINT64_MAX) & mask);
    }
    lend(&reads_at, rows, 4 * subjects);
    lend(&writes_at, rows + 12, 4 * writers);
    lend(&out_at, blank, out_length);
    read_only(&reads_at, 1);
    read_only(&writes_at, 1);
    uint32_t verdict = try_verdict(subjects, writers, objects);
    try_silent(subjects, writers, objects, verdict);
    try_game(subjects, writers, objects, verdict);
    uint32_t length = yaslaurel_matrix_policy((const uint32_t *)(const void *)reads_at.slice, subjects,
                                              (const uint32_t *)(const void *)writes_at.slice, writers, objects,
                                              out_at.slice, out_length);
    read_only(&reads_at, 0);
    read_only(&writes_at, 0);
    policies[length < HEADER ? length : LENGTH]++;
    require(stayed(&reads_at, 0) && stayed(&writes_at, 0), "the rows stay");
    require(length == 9 || length >= HEADER || length == 8, "the derived policy gives a length, 8 or 9");
    require((length == 9) == (out_length < OUTPUT), "the derived policy gives 9 for a short output");
    require(length == 9 || (length == 8) == (verdict == 8), "the derived policy refuses as the verdict does");
    require(stayed(&out_at, length < HEADER ? 0 : length), "the output stays, but for the image");
    require(length < HEADER || yaslaurel_image_check(out_at.slice, length) == 0, "the derived policy is accepted");
}

/* The rows of a proposal: an old matrix, some of its rights that must stay, and some that are left; now and then other
   bits too. */
static void make_proposal(uint32_t rows[6][12], uint64_t mask)
{
    int dense = percent(50), kept = percent(30);

    for (size_t i = 0; i < 12; i++) {
        for (size_t access = 0; access < 2; access++) {
            uint32_t old = (uint32_t)(draw() & (dense ? UINT64_MAX : draw() & draw()) & mask);
            uint32_t left = kept ? old : (uint32_t)(old & (draw() | draw()));
            rows[access][i] = old;
            rows[4 + access][i] = percent(1) ? (uint32_t)draw() : left;
            rows[2 + access][i] = percent(1) ? (uint32_t)draw() : (uint32_t)(left & draw() & draw());
        }
    }
}

static void try_proposal(void)
{
    uint32_t rows[6][12], counts[3];
    size_t lengths[6], subjects = percent(95) ? 1 + below(8) : below(12);
    uint32_t objects = (uint32_t)(percent(95) ? 1 + below(percent(50) ? 4 : 32) : below(40));

    make_proposal(rows, objects <= 32 ? ((uint64_t)1 << objects) - 1 : UINT32_MAX);
    for (size_t i = 0; i < 6; i++) {
        lengths[i] = percent(99) ? subjects : below(12);
        lend(&rights_at[i], rows[i], 4 * lengths[i]);
        read_only(&rights_at[i], 1);
    }
    for (size_t i = 0; i < 3; i++) {
        counts[i] = percent(99) ? objects : (uint32_t)below(40);
    }
#define ROWS(i) (const uint32_t *)(const void *)rights_at[i].slice, lengths[i]
    uint32_t answer = yaslaurel_matrix_judge(ROWS(0), ROWS(1), counts[0], ROWS(2), ROWS(3), counts[1], ROWS(4), ROWS(5),
                                             counts[2]);
#undef ROWS
    int same = counts[0] == counts[1] && counts[1] == counts[2], stay = 1;
    for (size_t i = 0; i < 6; i++) {
        read_only(&rights_at[i], 0);
        stay = stay && stayed(&rights_at[i], 0);
        same = same && lengths[i] == lengths[0];
    }
    require(answer <= 4 || answer == 8, "the judgement gives 0 to 4 or 8");
    require(same || answer == 8, "differing counts give 8");
    require(stay, "the rows of three matrices stay");
    proposals[answer]++;
}

static uint8_t text[YASLAUREL_TEXT_LIMIT + 300];

/* A text of profiles that is of the grammar, of few paths or many. Its length. */
static size_t make_text(void)
{
    static const char *const modes[] = {"r", "w", "a", "l", "m", "ix", "px", "Px", "ux", "Ux"};
    char *at = (char *)text, *end = at + YASLAUREL_TEXT_LIMIT - 100;
    size_t programs = below(percent(5) ? 1200 : 14), files = 1 + below(percent(10) ? 60 : 20);

    for (size_t i = 0; i < programs && at < end; i++) {
        at += sprintf(at, "profile /bin/%zu {\n", percent(99) ? i : below(programs));
        for (size_t lines = below(percent(5) ? 200 : 6); lines > 0 && at < end; lines--) {
            at += sprintf(at, "/%s%zu ", percent(30) ? "bin/" : "f.", below(files));
            for (size_t count = 1 + below(3); count > 0; count--) {
                at += sprintf(at, "%s", modes[below(10)]);
            }
            at += sprintf(at, ",\n");
        }
        at += sprintf(at, "}\n");
    }
    return (size_t)(at - (char *)text);
}

/* Breaks a text in a few places, or makes it about as long as it can be. Its new length. */
static size_t damage_text(size_t length)
{
    static const uint8_t some[] = "profile /{},\n\t rwalmixpPuU.0-";
    for (size_t times = below(3); times > 0; times--) {
        switch (below(4)) {
        case 0:
            length = below(length + 1);
            break;
        case 1:
            memset(text + length, '\n', sizeof text - length);
            length = YASLAUREL_TEXT_LIMIT - 5 + below(10);
            break;
        case 2:
            text[below(length + 1)] = (uint8_t)draw();
            break;
        default:
            text[below(length + 1)] = some[below(sizeof some - 1)];
        }
    }
    return length;
}

static void try_profiles(void)
{
    size_t length = make_text(), out_length = percent(95) ? OUTPUT : below(OUTPUT + 40);
    if (percent(30)) {
        length = damage_text(length);
    }
    lend(&text_at, text, length);
    lend(&out_at, blank, out_length);
    read_only(&text_at, 1);
    uint32_t answer = yaslaurel_profiles_policy(text_at.slice, length, out_at.slice, out_length);
    read_only(&text_at, 0);

    profiles[answer < HEADER ? answer : LENGTH]++;
    require(answer == 9 || answer == 16 || answer == 17 || (answer >= 26 && answer <= OUTPUT),
            "the policy of profiles gives a length, 9, 16 or 17");
    require((answer == 9) == (out_length < OUTPUT), "the policy of profiles gives 9 for a short output alone");
    require(answer == 9 || answer == 16 || length <= YASLAUREL_TEXT_LIMIT, "a text that is too long gives 16");
    require(answer == 9 || answer == 16 || length == 0 || text[length - 1] == '\n', "a text that ends inside a line gives 16");
    require(stayed(&text_at, 0), "the text stays");
    require(stayed(&out_at, answer < HEADER ? 0 : answer), "the output stays, but for the image of the profiles");
    if (answer >= HEADER) {
        memcpy(image, out_at.slice, answer);
        require(yaslaurel_image_check(image, answer) == 0, "the policy of profiles is accepted");
        require(yaslaurel_image_normalise(image, answer, blank, OUTPUT) == answer && memcmp(blank, image, answer) == 0,
                "the policy of profiles is its own normal image");
        memset(blank, 0x5a, sizeof blank);
    }
}

#include "compositions.h"
#include "explanations.h"
#include "gathers.h"

/* Whether a function gave each of the wanted answers; prints the counts if asked. */
static int reached(int print, const char *name, const unsigned long *counts, const int *wanted, size_t count)
{
    int all = 1;
    for (size_t i = 0; i < count; i++) {
        if (print) {
            printf("%s%-*s%d: %lu%s", i == 0 ? "  " : " ", i == 0 ? 10 : 0, i == 0 ? name : "", wanted[i], counts[wanted[i]],
                   i + 1 < count ? "," : "\n");
        }
        all = all && counts[wanted[i]] > 0;
    }
    return all;
}

#define REACHED(print, counts, ...)                                                                                    \
    reached(print, #counts, counts, (const int[]){__VA_ARGS__}, sizeof((const int[]){__VA_ARGS__}) / sizeof(int))

static int all_reached(int print)
{
    int all = REACHED(print, checks, 0, 1, 2, 3, 4, 5, 6);
    all &= REACHED(print, normals, LENGTH, 1, 2, 3, 4, 5, 6, 9);
    all &= REACHED(print, starts, 0, 1, 2, 3, 4, 5, 6, 9);
    all &= REACHED(print, steps, YASLAUREL_QUIET, YASLAUREL_ALERT, YASLAUREL_BLOCKED, 7, 9, 10, 11, 12, 13, 14, 15, 18);
    all &= REACHED(print, runs, YASLAUREL_QUIET, YASLAUREL_ALERT, YASLAUREL_BLOCKED, 7, 9, 10, 11, 12, 13, 14, 15, 18);
    all &= REACHED(print, trims, 0, 1, 2, 3, 4, 5, 6, 9, 22);
    all &= REACHED(print, verdicts, 0, 1, 8);
    all &= REACHED(print, silences, 0, 1, 8);
    all &= REACHED(print, games, 0, 1, 8, 23);
    all &= REACHED(print, policies, LENGTH, 8, 9);
    all &= REACHED(print, profiles, LENGTH, 9, 16, 17);
    all &= REACHED(print, proposals, 0, 1, 2, 3, 4, 8);
    all &= REACHED(print, pairs, 0, 1, 2, 3, 4, 5, 6, 9, 20, 21);
    all &= REACHED(print, chains, 0, 1, 2, 3, 4, 5, 6, 9, 24);
    all &= REACHED(print, reasons, 0, 1, 2, 3, 4, 5, 6, 9, 25);
    return all;
}

/* Memory for everything that is lent. */
static void reserve_all(void)
{
    memset(blank, 0x5a, sizeof blank);
    reserve(&image_at, sizeof image);
    reserve(&out_at, OUTPUT + 40);
    reserve(&session_at, sizeof session);
    reserve(&record_at, (BATCH + 1) * RECORD);
    reserve(&reads_at, 64);
    reserve(&writes_at, 64);
    reserve(&numbers_at, WORD * (FIGURES + 8));
    reserve(&taken_at, 64);
    reserve(&text_at, sizeof text);
    reserve(&positions_at, POSITIONS + 40);
    reserve(&second_at, sizeof image);
    reserve(&consent_at, 64);
    reserve(&length_at, 64);
    reserve_explanations();
    for (size_t i = 0; i < 6; i++) {
        reserve(&rights_at[i], 64);
    }
}

/* A session, if there is one: steps, batches, then both on damaged rows. */
static void try_session(void)
{
    for (size_t count = below(30); count > 0; count--) {
        try_step(0);
    }
    for (size_t count = below(4); count > 0; count--) {
        try_run(0);
    }
    try_events();
    try_figures();
    try_sum();
    for (size_t count = below(4); count > 0; count--) {
        try_step(1);
    }
    if (percent(30)) {
        try_run(1);
    }
}

static void try_all(void)
{
    size_t length = make_image();

    rounds++;
    if (percent(50)) {
        length = damage(length);
    }
    if (try_image(length)) {
        try_session();
    }
    try_trim(length);
    try_explanations(length);
    try_matrix();
    try_proposal();
    try_profiles();
    try_compose();
    /* The next start finds anything at all. */
    session[below(SESSION)] = draw();
}

int main(int argc, char **argv)
{
    int counted = argc > 2 && strcmp(argv[1], "--rounds") == 0;
    unsigned long limit = argc > 1 + counted ? strtoul(argv[1 + counted], NULL, 10) : 10;
    time_t end = time(NULL) + (time_t)limit;

    seed = argc > 2 + counted ? strtoull(argv[2 + counted], NULL, 10) : (uint64_t)time(NULL);
    state = seed;
    printf("seed %llu\n", (unsigned long long)seed);
    reserve_all();
    /* On a busy machine up to three times as long, until every answer was reached. */
    while (counted ? rounds < limit
                   : time(NULL) < end || (!all_reached(0) && time(NULL) < end + 2 * (time_t)limit)) {
        try_all();
    }
    int all = all_reached(1);
    printf("ok %lu rounds: no page beside a slice touched, every answer as promised\n", rounds);
    if (!counted) {
        printf("%s every answer was reached\n", all ? "ok" : "FAILED");
    }
    printf("%d passed, %d failed\n", counted ? 1 : 1 + all, counted ? 0 : !all);
    return counted ? 0 : !all;
}
