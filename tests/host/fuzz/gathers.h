/*
 * Events and figures of a batch on the session as it stands, for fuzz.c: what they answer and leave is what the records step by step come to. And sums of
 * figures, whatever their numbers.
 */
#ifndef GATHERS_H
#define GATHERS_H

enum { EVENT = YASLAUREL_EVENT_LENGTH, FIGURES = YASLAUREL_FIGURES_LENGTH, EVENT_ROOM = 8 * EVENT };

/* One record on the session, and its numbers in an event at this place. Its answer. */
static uint32_t event_by_step(uint64_t *words, const uint8_t *records, size_t length, size_t place, uint64_t *event)
{
    uint64_t numbers[TOLD] = {0};
    size_t left = length - RECORD * place;
    uint32_t answer = step(words, SESSION, records + RECORD * place, left < RECORD ? left : RECORD, numbers);
    event[0] = place;
    event[1] = answer;
    memcpy(event + 2, numbers, sizeof numbers);
    return answer;
}

static void try_events(void)
{
    static uint64_t stepped[SESSION + 8];
    uint8_t records[(BATCH + 1) * RECORD];
    uint64_t events[EVENT_ROOM + EVENT];
    size_t room = percent(90) ? EVENT + below(EVENT_ROOM - EVENT) : below(EVENT);
    size_t session_length = percent(97) ? SESSION : below(SESSION + 8), length = make_batch(records);
    size_t old[2] = {99, 99}, taken = 0, written = 0;
    int good = session_length == SESSION && room >= EVENT;

    memcpy(stepped, session, sizeof session);
    memset(events, MARK, sizeof events);
    while (good && RECORD * taken < length && EVENT * (written + 1) <= room) {
        written += event_by_step(stepped, records, length, taken, events + EVENT * written) != YASLAUREL_QUIET;
        taken++;
    }
    lend(&session_at, session, WORD * session_length);
    lend(&record_at, records, length);
    lend(&numbers_at, blank, WORD * room);
    lend(&taken_at, old, sizeof old);
    read_only(&record_at, 1);
    size_t *counts = (size_t *)(void *)taken_at.slice;
    uint32_t answer = yaslaurel_events((uint64_t *)(void *)session_at.slice, session_length, record_at.slice, length,
                                       (uint64_t *)(void *)numbers_at.slice, room, &counts[0], &counts[1]);
    read_only(&record_at, 0);
    require(answer == (good ? 0u : 9u), "events are refused with 9 alone");
    require(stayed(&record_at, 0) && stayed(&taken_at, good ? sizeof old : 0), "the records stay, and in a refusal the counts");
    require(!good || (counts[0] == taken && counts[1] == written), "events are counted, and the records up to where there is no room");
    require(stayed(&numbers_at, WORD * EVENT * written), "the numbers behind the events stay");
    require(memcmp(numbers_at.slice, events, WORD * EVENT * written) == 0, "the events are those of the records step by step");
    require(stayed(&session_at, good ? WORD * SESSION : 0), "memory beside the session stays");
    require(!good || memcmp(session_at.slice, stepped, WORD * SESSION) == 0, "events leave the session that their records leave");
    memcpy(session, stepped, WORD * SESSION);
}

static void try_figures(void)
{
    static uint64_t stepped[SESSION + 8];
    uint8_t records[(BATCH + 1) * RECORD];
    uint64_t figures[FIGURES] = {0}, event[EVENT];
    size_t session_length = percent(97) ? SESSION : below(SESSION + 8), length = make_batch(records);
    size_t wide = percent(97) ? FIGURES : below(FIGURES + 8);
    int good = session_length == SESSION && wide == FIGURES;

    memcpy(stepped, session, sizeof session);
    for (size_t place = 0; good && RECORD * place < length; place++) {
        uint32_t answer = event_by_step(stepped, records, length, place, event);
        int alert = answer == YASLAUREL_ALERT, blocked = answer == YASLAUREL_BLOCKED, quiet = answer == YASLAUREL_QUIET;
        figures[YASLAUREL_FIGURES_RECORDS_AT]++;
        figures[YASLAUREL_FIGURES_ACCEPTED_AT] += quiet || alert;
        figures[YASLAUREL_FIGURES_ALERTS_AT] += alert;
        figures[YASLAUREL_FIGURES_REFUSED_AT] += !quiet && !alert && !blocked;
        figures[YASLAUREL_FIGURES_BLOCKED_AT] += blocked;
        figures[YASLAUREL_FIGURES_CONTAINERS_AT + event[2] % YASLAUREL_CONTAINERS] += alert;
    }
    lend(&session_at, session, WORD * session_length);
    lend(&record_at, records, length);
    lend(&numbers_at, blank, WORD * wide);
    read_only(&record_at, 1);
    uint32_t answer = yaslaurel_figures((uint64_t *)(void *)session_at.slice, session_length, record_at.slice, length,
                                        (uint64_t *)(void *)numbers_at.slice, wide);
    read_only(&record_at, 0);
    require(answer == (good ? 0u : 9u), "figures are refused with 9 alone");
    require(stayed(&record_at, 0) && stayed(&numbers_at, good ? WORD * FIGURES : 0), "the records stay, and in a refusal the figures");
    require(!good || memcmp(numbers_at.slice, figures, sizeof figures) == 0, "the figures are those of the records step by step");
    require(stayed(&session_at, good ? WORD * SESSION : 0), "memory beside the session stays");
    require(!good || memcmp(session_at.slice, stepped, WORD * SESSION) == 0, "figures leave the session that their records leave");
    memcpy(session, stepped, WORD * SESSION);
}

/* A number of figures: small, large, or so large that sums of two wrap. */
static uint64_t any_figure(void) { return percent(20) ? UINT64_MAX - below(3) : draw() >> below(64); }

static void try_sum(void)
{
    uint64_t total[FIGURES + 8], figures[FIGURES + 8];
    size_t total_wide = percent(95) ? FIGURES : below(FIGURES + 8), wide = percent(95) ? FIGURES : below(FIGURES + 8);
    int good = total_wide == FIGURES && wide == FIGURES;

    for (size_t k = 0; k < FIGURES + 8; k++) {
        total[k] = any_figure();
        figures[k] = any_figure();
    }
    lend(&numbers_at, total, WORD * total_wide);
    lend(&session_at, figures, WORD * wide);
    read_only(&session_at, 1);
    uint32_t answer = yaslaurel_figures_add((uint64_t *)(void *)numbers_at.slice, total_wide, (const uint64_t *)(const void *)session_at.slice, wide);
    read_only(&session_at, 0);
    require(answer == (good ? 0u : 9u), "sums are refused with 9 alone");
    require(stayed(&session_at, 0) && stayed(&numbers_at, good ? WORD * FIGURES : 0), "the figures stay, and in a refusal the total");
    for (size_t k = 0; good && k < FIGURES; k++) {
        total[k] += figures[k];
    }
    require(!good || memcmp(numbers_at.slice, total, WORD * FIGURES) == 0, "each number is added to its like, and wraps");
}

#endif
