/* Random traces for yaslaurel_explain and yaslaurel_why, for fuzz.c. */
#ifndef EXPLANATIONS_H
#define EXPLANATIONS_H

enum { MOST_LINKS = YASLAUREL_LINKS_LENGTH(BATCH + 1) + 40, REASON = YASLAUREL_WHY_LENGTH };

static struct region links_at, steps_at, reason_at, told_at;
static unsigned long chains[ANSWERS], reasons[ANSWERS];

/* Records on a new session of the image, of which some are refused or blocked, up to one that is an alert or blocked in most cases. Their
   length, and whether the last of them is. The session is as they leave it; a last record that is blocked counts as made in `tags`. */
static size_t make_told(size_t image_length, uint8_t *trace, int *forbidden, uint64_t *tags)
{
    uint64_t numbers[TOLD];
    size_t length = 0;

    *forbidden = 0;
    if (yaslaurel_session_start(image, image_length, session, SESSION) != 0) {
        return below(3 * RECORD);
    }
    uint32_t answer = YASLAUREL_QUIET;
    for (size_t tries = below(BATCH); tries > 0 && !(*forbidden && percent(80)); tries--, length += RECORD) {
        make_record(trace + length);
        answer = step(session, SESSION, trace + length, RECORD, numbers);
        *forbidden = answer == YASLAUREL_ALERT || answer == YASLAUREL_BLOCKED;
    }
    if (percent(10)) {
        *forbidden = 0;
        answer = YASLAUREL_QUIET;
        length += 1 + below(RECORD - 1);
    }
    for (size_t i = 0; i < YASLAUREL_CONTAINERS; i++) {
        tags[i] = session[CONTAINER_ROW * i + YASLAUREL_TAG_AT];
    }
    if (answer == YASLAUREL_BLOCKED) {
        tags[numbers[0]] = numbers[1];
    }
    return length;
}

/* Lends links and steps: mostly as many as are needed, else a little more or less. Whether they are enough. */
static int lend_links(size_t length, size_t *links_length, size_t *steps_length)
{
    static uint64_t filler[MOST_LINKS];
    size_t records = YASLAUREL_TRACE_RECORDS(length), needed = YASLAUREL_LINKS_LENGTH(records);

    for (size_t i = 0; i < MOST_LINKS; i++) {
        filler[i] = percent(50) ? below(needed) : draw();
    }
    *links_length = percent(80) ? needed : needed - 3 + below(20);
    *steps_length = percent(80) ? records : below(BATCH + 20);
    lend(&links_at, filler, WORD * *links_length);
    lend(&steps_at, filler + 3, WORD * *steps_length);
    return *links_length >= needed && *steps_length >= records;
}

/* The record numbers at the end of the steps rise and are in the trace; what stands before them is as it was, and the links behind the
   needed ones are too. */
static void check_chain(size_t length, size_t steps_length, uint64_t first)
{
    const uint64_t *told = (const uint64_t *)(const void *)steps_at.slice;
    size_t from = (size_t)(steps_at.slice - steps_at.pages), records = YASLAUREL_TRACE_RECORDS(length);
    size_t needed = YASLAUREL_LINKS_LENGTH(records), links_from = (size_t)(links_at.slice - links_at.pages);

    require(first <= steps_length && steps_length - first <= records, "the records of a chain stand at the end of the steps");
    for (size_t i = first; i < steps_length; i++) {
        require(told[i] < records && (i == first || told[i - 1] < told[i]), "the records of a chain rise within the trace");
    }
    require(memcmp(steps_at.pages, steps_at.copy, from + WORD * first) == 0, "the front of the steps stays");
    require(memcmp(steps_at.slice + WORD * steps_length, steps_at.copy + from + WORD * steps_length,
                   steps_at.size - from - WORD * steps_length) == 0,
            "what is behind the steps stays");
    require(memcmp(links_at.pages, links_at.copy, links_from) == 0 &&
                memcmp(links_at.slice + WORD * needed, links_at.copy + links_from + WORD * needed, links_at.size - links_from - WORD * needed) == 0,
            "links behind those needed stay");
}

static void lock_told(int on)
{
    read_only(&image_at, on);
    read_only(&record_at, on);
}

/* An atom in a container of a trace; with a tag that the session tells, a chain must be there exactly if it has the atom. */
static void try_explain(size_t image_length, size_t length, uint32_t checked, const uint64_t *tags)
{
    static const uint64_t before[2] = {555, 666};
    size_t links_length, steps_length, container = percent(95) ? below(20) : 250 + below(10);
    size_t atom = percent(95) ? below(8) + (percent(50) ? YASLAUREL_RUNNING : 0) : 60 + below(8);
    int enough = lend_links(length, &links_length, &steps_length);

    if (checked == 0 && container < YASLAUREL_CONTAINERS && tags[container] != 0 && percent(70)) {
        for (atom = below(64); (tags[container] >> atom & 1) == 0; atom = (atom + 1) % 64) {
        }
    }
    lend(&told_at, before, sizeof before);
    uint64_t *told = (uint64_t *)(void *)told_at.slice;
    lock_told(1);
    uint32_t answer = yaslaurel_explain(image_at.slice, image_length, record_at.slice, length, container, atom, (uint64_t *)(void *)links_at.slice,
                                        links_length, (uint64_t *)(void *)steps_at.slice, steps_length, &told[0], &told[1]);
    lock_told(0);
    int inside = container < YASLAUREL_CONTAINERS && atom < 64;
    require(answer == (!enough ? 9 : checked != 0 ? checked : inside ? 0 : 24), "explain gives 9, then what the check gives, then 24 out of bounds");
    chains[answer]++;
    require(stayed(&image_at, 0) && stayed(&record_at, 0), "explain leaves the image and the trace");
    require(stayed(&told_at, answer == 0 ? sizeof before : 0), "a refused explain leaves file and first");
    if (answer != 0) {
        require(stayed(&links_at, 0) && stayed(&steps_at, 0), "a refused explain leaves links and steps");
        return;
    }
    check_chain(length, steps_length, told[1]);
    require((tags[container] >> atom & 1) == 0 ? told[0] == YASLAUREL_NO_CHAIN && told[1] == steps_length : told[0] < YASLAUREL_NO_CHAIN,
            "there is a chain exactly if the container has the atom");
}

/* The numbers of a reason fit each other. */
static void check_reason(const uint64_t *why, size_t length, size_t steps_length)
{
    size_t records = YASLAUREL_TRACE_RECORDS(length);
    uint64_t origin = why[YASLAUREL_WHY_ORIGIN_AT], count = why[YASLAUREL_WHY_MIXTURES_AT], tag = why[YASLAUREL_WHY_TAG_AT];
    const uint8_t *rule = section_at(image_at.slice, RULE_SECTION) + YASLAUREL_RULE_LENGTH * why[YASLAUREL_WHY_RULE_AT];

    require(why[YASLAUREL_WHY_RECEIVER_AT] < YASLAUREL_CONTAINERS && origin <= YASLAUREL_ORIGIN_RUN, "a reason has a receiver and an origin");
    require(why[YASLAUREL_WHY_RECORD_AT] < records, "the record of a rule is in the trace");
    require(why[YASLAUREL_WHY_RULE_AT] < YASLAUREL_RULES && get16(rule + 2) == count && get16(rule + 4) == why[YASLAUREL_WHY_OWNER_AT],
            "a reason tells the rule's mixtures and its owner");
    require(origin == YASLAUREL_ORIGIN_RUN || why[YASLAUREL_WHY_FIRST_AT] == steps_length, "a chain is told of a run rule alone");
    for (size_t i = 0; i < YASLAUREL_RULE_MIXTURES; i++) {
        uint64_t atom = why[YASLAUREL_WHY_LACKED_AT + i];
        const uint8_t *mixture = section_at(image_at.slice, MIXTURE_SECTION) + YASLAUREL_MIXTURE_LENGTH * (get16(rule) + i);
        require(i < count ? atom < 64 && (tag >> atom & 1) == 1 && (mixture[atom / 8] >> atom % 8 & 1) == 0 : atom == 0,
                "a mixture lacks an atom of the tag, and zeros are behind");
    }
}

/* Why the last record of a trace is forbidden, if it is. */
static void try_why(size_t image_length, size_t length, uint32_t checked, int forbidden)
{
    size_t links_length, steps_length, reason_length = percent(85) ? REASON : REASON - 3 + below(8);
    int enough = lend_links(length, &links_length, &steps_length) && reason_length >= REASON;

    lend(&reason_at, blank, WORD * reason_length);
    lock_told(1);
    uint32_t answer = yaslaurel_why(image_at.slice, image_length, record_at.slice, length, (uint64_t *)(void *)links_at.slice, links_length,
                                    (uint64_t *)(void *)steps_at.slice, steps_length, (uint64_t *)(void *)reason_at.slice, reason_length);
    lock_told(0);
    require(answer == (!enough ? 9 : checked != 0 ? checked : forbidden ? 0 : 25),
            "why gives 9, then what the check gives, then 25 unless an alert or a blocked record ends the trace");
    reasons[answer]++;
    require(stayed(&image_at, 0) && stayed(&record_at, 0), "why leaves the image and the trace");
    require(stayed(&reason_at, answer == 0 ? WORD * REASON : 0), "a refused why leaves the reason, and another what is behind it");
    if (answer != 0) {
        require(stayed(&links_at, 0) && stayed(&steps_at, 0), "a refused why leaves links and steps");
        return;
    }
    const uint64_t *why = (const uint64_t *)(const void *)reason_at.slice;
    check_reason(why, length, steps_length);
    check_chain(length, steps_length, why[YASLAUREL_WHY_FIRST_AT]);
}

static void try_explanations(size_t image_length)
{
    static uint64_t tags[YASLAUREL_CONTAINERS];
    uint8_t trace[(BATCH + 1) * RECORD] = {0};
    int forbidden;
    size_t length = make_told(image_length, trace, &forbidden, tags);
    uint32_t checked = yaslaurel_image_check(image, image_length);

    lend(&image_at, image, image_length);
    lend(&record_at, trace, length);
    for (int i = 0; i < 4; i++) {
        try_explain(image_length, length, checked, tags);
    }
    try_why(image_length, length, checked, forbidden);
}

static void reserve_explanations(void)
{
    reserve(&links_at, WORD * MOST_LINKS);
    reserve(&steps_at, WORD * (BATCH + 40));
    reserve(&reason_at, WORD * (REASON + 8));
    reserve(&told_at, 64);
}

#endif
