/*
 * A small host in C: loads a policy, reads a trace in chunks, and prints each alert with the names of the sources that met.
 *
 *     gcc -std=c11 -o host host.c $(pkg-config --cflags --libs yaslaurel)
 *     host POLICY TRACE [NAMES]
 *
 * NAMES is a text of one name for each data atom, one on a line; without it an atom is named by its number. A long name is
 * cut.
 *
 * Exit status:
 *   0  every record was quiet
 *   1  some record gave an alert, or was blocked
 *   2  some record was refused: the monitor has not followed it
 *   3  both
 *   4  the policy was refused
 *   5  a failure: wrong arguments, a file that could not be read, an output that could not be written, an answer that the
 *      header does not list
 */
#include <inttypes.h>
#include <stdio.h>
#include <string.h>

#include "yaslaurel.h"

enum { ATOMS = YASLAUREL_ATOMS, NAME_LENGTH = 256 };

enum status { QUIET = 0, ALERTS = 1, REFUSALS = 2, POLICY_REFUSED = 4, FAILED = 5 };

/* Bytes of the trace that are read at a time: whole records. */
enum { CHUNK = 8192 * YASLAUREL_RECORD_LENGTH };

/* Reads up to so many bytes of a file. How many there were, or -1 with a message if it could not be read. */
static long load(const char *path, uint8_t *into, size_t limit)
{
    FILE *file = fopen(path, "rb");
    if (file == NULL) {
        perror(path);
        return -1;
    }
    size_t length = fread(into, 1, limit, file);
    int good = !ferror(file);
    if (!good) {
        perror(path);
    }
    fclose(file);
    return good ? (long)length : -1;
}

/* The names of the sources, by atom. */
struct names {
    char text[ATOMS][NAME_LENGTH];
    size_t count;
};

/* Reads on behind the end of a line. */
static void skip_line(FILE *file)
{
    int byte = fgetc(file);
    while (byte != '\n' && byte != EOF) {
        byte = fgetc(file);
    }
}

/* Reads the names of the sources. Whether it could, with a message if not. */
static int load_names(const char *path, struct names *names)
{
    FILE *file = fopen(path, "r");
    if (file == NULL) {
        perror(path);
        return 0;
    }
    while (names->count < ATOMS && fgets(names->text[names->count], NAME_LENGTH, file) != NULL) {
        char *end = strchr(names->text[names->count++], '\n');
        if (end != NULL) {
            *end = '\0';
        } else {
            skip_line(file);
        }
    }
    int good = !ferror(file);
    if (!good) {
        perror(path);
    }
    fclose(file);
    return good;
}

/* Prints the sources of a tag; a source that was executed is marked. */
static void print_sources(uint64_t tag, const struct names *names)
{
    for (unsigned atom = 0; atom < YASLAUREL_RUNNING + ATOMS; atom++) {
        unsigned source = atom % YASLAUREL_RUNNING;
        if ((tag >> atom & 1) == 0) {
            continue;
        }
        if (source < names->count) {
            printf(" %s", names->text[source]);
        } else {
            printf(" atom-%u", source);
        }
        if (atom >= YASLAUREL_RUNNING) {
            printf("(running)");
        }
    }
}

/* What has been counted so far. */
struct totals {
    uint64_t steps, alerts, blocked, refusals;
};

/* Whether an answer is one of the refusals that the header lists. */
static int is_refusal(uint32_t answer) { return yaslaurel_meaning(answer) != yaslaurel_meaning(YASLAUREL_ACCEPTED); }

/* Judges the records of a chunk and prints what is not quiet. Whether it knew each answer, with a message if not. */
static int judge(uint64_t *session, const uint8_t *records, size_t length, struct totals *totals,
                 const struct names *names)
{
    while (length > 0) {
        size_t taken = 0;
        uint64_t receiver = 0, tag = 0;
        uint32_t position = YASLAUREL_NO_POSITION;
        uint32_t answer =
            yaslaurel_run(session, YASLAUREL_SESSION_LENGTH, records, length, &taken, &receiver, &tag, &position);
        totals->steps += taken;
        if (answer == YASLAUREL_ALERT) {
            totals->alerts++;
            printf("step %" PRIu64 ": container %" PRIu64 " now holds", totals->steps, receiver);
            print_sources(tag, names);
            printf("\n");
        } else if (answer == YASLAUREL_BLOCKED) {
            totals->blocked++;
            printf("step %" PRIu64 ": blocked, container %" PRIu64 " would hold", totals->steps, receiver);
            print_sources(tag, names);
            printf("\n");
        } else if (is_refusal(answer)) {
            totals->refusals++;
            printf("step %" PRIu64 ": refused %" PRIu32 ", %s\n", totals->steps, answer, yaslaurel_meaning(answer));
        } else if (answer != YASLAUREL_QUIET) {
            fprintf(stderr, "step %" PRIu64 ": unknown answer %" PRIu32 "\n", totals->steps, answer);
            return 0;
        }
        /* The last record of a trace may be short. */
        size_t bytes = taken * YASLAUREL_RECORD_LENGTH;
        bytes = bytes < length ? bytes : length;
        records += bytes;
        length -= bytes;
    }
    return 1;
}

/* Judges a trace to its end, and prints the totals. The exit status. */
static int judge_trace(uint64_t *session, const char *path, FILE *trace, const struct names *names)
{
    static uint8_t chunk[CHUNK];
    struct totals totals = {0, 0, 0, 0};
    /* A chunk is short at the end of the trace alone, so no record is cut. */
    size_t length = sizeof chunk;

    while (length == sizeof chunk) {
        length = fread(chunk, 1, sizeof chunk, trace);
        if (ferror(trace)) {
            perror(path);
            return FAILED;
        }
        if (!judge(session, chunk, length, &totals, names)) {
            return FAILED;
        }
    }
    printf("%" PRIu64 " steps, %" PRIu64 " alerts, %" PRIu64 " refused, %" PRIu64 " blocked\n", totals.steps,
           totals.alerts, totals.refusals, totals.blocked);
    return (totals.alerts + totals.blocked > 0 ? ALERTS : QUIET) | (totals.refusals > 0 ? REFUSALS : QUIET);
}

int main(int argc, char **argv)
{
    static uint64_t session[YASLAUREL_SESSION_LENGTH];
    /* One byte more than the limit: a policy that is too long is refused, not cut. */
    static uint8_t policy[YASLAUREL_IMAGE_LIMIT + 1];
    static struct names names;

    if (argc < 3 || argc > 4) {
        fprintf(stderr, "host POLICY TRACE [NAMES]\n");
        return FAILED;
    }
    long policy_length = load(argv[1], policy, sizeof policy);
    int named = argc < 4 || load_names(argv[3], &names);
    FILE *trace = fopen(argv[2], "rb");
    if (trace == NULL) {
        perror(argv[2]);
    }
    if (policy_length < 0 || !named || trace == NULL) {
        return FAILED;
    }

    int status = FAILED;
    uint32_t answer = yaslaurel_session_start(policy, (size_t)policy_length, session, YASLAUREL_SESSION_LENGTH);
    if (answer == YASLAUREL_ACCEPTED) {
        status = judge_trace(session, argv[2], trace, &names);
    } else if (is_refusal(answer)) {
        printf("policy refused %" PRIu32 "\n", answer);
        status = POLICY_REFUSED;
    } else {
        fprintf(stderr, "policy: unknown answer %" PRIu32 "\n", answer);
    }
    fclose(trace);
    if (fflush(stdout) != 0 || ferror(stdout)) {
        perror("output");
        status = FAILED;
    }
    return status;
}
