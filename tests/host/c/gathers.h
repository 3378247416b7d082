/*
 * Checks of yaslaurel_events, yaslaurel_figures and yaslaurel_figures_add, for calls.c: the paper's trace, of which record 3 alerts at object 1
 * with tag 7 and record 5 is refused with 12; rooms at their limits, each refusal, and the memory that a call leaves.
 */
#ifndef GATHERS_H
#define GATHERS_H

enum { EVENT = YASLAUREL_EVENT_LENGTH, FIGURES = YASLAUREL_FIGURES_LENGTH, LEFT = 99 };

static uint64_t gathered[3 * EVENT], counted[FIGURES], summed[FIGURES];
static size_t records_taken, events_written;

static void fill(uint64_t *words, size_t count)
{
    for (size_t i = 0; i < count; i++) {
        words[i] = LEFT;
    }
}

static uint32_t gather(size_t session_length, const uint8_t *records, size_t length, size_t room)
{
    fill(gathered, 3 * EVENT);
    records_taken = events_written = LEFT;
    return yaslaurel_events(session, session_length, records, length, gathered, room, &records_taken, &events_written);
}

static int event_is(size_t n, uint64_t place, uint64_t answer, uint64_t receiver, uint64_t tag, uint64_t position)
{
    const uint64_t *at = gathered + EVENT * n;
    return at[YASLAUREL_EVENT_PLACE_AT] == place && at[YASLAUREL_EVENT_ANSWER_AT] == answer &&
           at[YASLAUREL_EVENT_RECEIVER_AT] == receiver && at[YASLAUREL_EVENT_TAG_AT] == tag &&
           at[YASLAUREL_EVENT_POSITION_AT] == position;
}

/* Every number from the place on is as it was. */
static int events_stayed(size_t from)
{
    int good = 1;
    for (size_t i = from; i < 3 * EVENT; i++) {
        good = good && gathered[i] == LEFT;
    }
    return good;
}

/* The paper's trace as events. The session is that which single steps left, in `before`. */
static void event_example(void)
{
    memcpy(before, session, sizeof session);
    check(yaslaurel_session_start(out, 118, session, SESSION) == 0 && gather(SESSION, trace + 1, 6 * RECORD, 3 * EVENT) == 0 &&
              records_taken == 6 && events_written == 2 && event_is(0, 3, YASLAUREL_ALERT, 1, 7, YASLAUREL_NO_POSITION) &&
              event_is(1, 5, 12, 0, 0, 0) && events_stayed(2 * EVENT),
          "events: what is not quiet, with its places, and the numbers behind stay");
    check(session_stayed(), "events: the session is that which single steps leave");
    check(yaslaurel_session_start(out, 118, session, SESSION) == 0 && gather(SESSION, trace + 1, 6 * RECORD, 2 * EVENT - 1) == 0 &&
              records_taken == 4 && events_written == 1 && event_is(0, 3, YASLAUREL_ALERT, 1, 7, YASLAUREL_NO_POSITION) &&
              events_stayed(EVENT),
          "events: a call stops where there is no room for one more");
    check(gather(SESSION, trace + 1 + 4 * RECORD, 2 * RECORD, EVENT) == 0 && records_taken == 2 && events_written == 1 &&
              event_is(0, 1, 12, 0, 0, 0) && session_stayed(),
          "events: the next call goes on, and its places begin from 0");
    check(gather(SESSION, trace + 1, 0, EVENT) == 0 && records_taken == 0 && events_written == 0 && events_stayed(0),
          "events: no records");
    check(gather(SESSION, trace + 1, RECORD - 1, EVENT) == 0 && records_taken == 1 && event_is(0, 0, 7, 0, 0, 0),
          "events: a short record is refused with 7");
    check(gather(SESSION - 1, trace + 1, 0, EVENT) == 9 && gather(SESSION + 1, trace + 1, RECORD, EVENT) == 9 &&
              gather(SESSION, trace + 1, 0, EVENT - 1) == 9 && gather(SESSION, trace + 1, RECORD, 0) == 9 &&
              records_taken == LEFT && events_written == LEFT && events_stayed(0) && session_stayed(),
          "events: 9, and nothing changes");
}

static int counts_are(const uint64_t *at, uint64_t records, uint64_t accepted, uint64_t alerts, uint64_t refused, uint64_t of_1)
{
    int good = at[YASLAUREL_FIGURES_RECORDS_AT] == records && at[YASLAUREL_FIGURES_ACCEPTED_AT] == accepted &&
               at[YASLAUREL_FIGURES_ALERTS_AT] == alerts && at[YASLAUREL_FIGURES_REFUSED_AT] == refused &&
               at[YASLAUREL_FIGURES_BLOCKED_AT] == 0;
    for (size_t i = 0; i < YASLAUREL_CONTAINERS; i++) {
        good = good && at[YASLAUREL_FIGURES_CONTAINERS_AT + i] == (i == 1 ? of_1 : 0);
    }
    return good;
}

static int all_left(const uint64_t *words)
{
    int good = 1;
    for (size_t i = 0; i < FIGURES; i++) {
        good = good && words[i] == LEFT;
    }
    return good;
}

/* The paper's trace counted, whole and in two parts that are added. */
static void figures_example(void)
{
    memcpy(before, session, sizeof session);
    fill(counted, FIGURES);
    check(yaslaurel_figures(session, SESSION - 1, trace + 1, 0, counted, FIGURES) == 9 &&
              yaslaurel_figures(session, SESSION, trace + 1, RECORD, counted, FIGURES - 1) == 9 &&
              yaslaurel_figures(session, SESSION, trace + 1, RECORD, counted, 0) == 9 && all_left(counted) && session_stayed(),
          "figures: 9, and nothing changes");
    check(yaslaurel_session_start(out, 118, session, SESSION) == 0 &&
              yaslaurel_figures(session, SESSION, trace + 1, 6 * RECORD, counted, FIGURES) == 0 && counts_are(counted, 6, 5, 1, 1, 1) &&
              session_stayed(),
          "figures: the paper's trace, and the session that single steps leave");
    memset(summed, 0, sizeof summed);
    check(yaslaurel_session_start(out, 118, session, SESSION) == 0 &&
              yaslaurel_figures(session, SESSION, trace + 1, 4 * RECORD, counted, FIGURES) == 0 &&
              yaslaurel_figures_add(summed, FIGURES, counted, FIGURES) == 0 && counts_are(summed, 4, 4, 1, 0, 1) &&
              yaslaurel_figures(session, SESSION, trace + 1 + 4 * RECORD, 2 * RECORD - 1, counted, FIGURES) == 0 &&
              counts_are(counted, 2, 1, 0, 1, 0) && yaslaurel_figures_add(summed, FIGURES, counted, FIGURES) == 0 &&
              counts_are(summed, 6, 5, 1, 1, 1),
          "figures: those of two parts add up");
    fill(counted, FIGURES);
    summed[YASLAUREL_FIGURES_CONTAINERS_AT + 255] = UINT64_MAX;
    check(yaslaurel_figures_add(summed, FIGURES, counted, FIGURES) == 0 && summed[0] == 6 + LEFT && summed[FIGURES - 1] == LEFT - 1,
          "figures: a sum wraps round");
    fill(summed, FIGURES);
    check(yaslaurel_figures_add(summed, FIGURES - 1, counted, FIGURES) == 9 && yaslaurel_figures_add(summed, FIGURES, counted, 0) == 9 &&
              all_left(summed),
          "figures: a sum of other lengths is refused with 9, and nothing changes");
}

#endif
