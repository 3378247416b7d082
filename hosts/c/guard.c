/*
 * A host in C that stops: it makes the accesses of a list itself, asks the monitor before each, and makes none that is blocked
 * or refused. So a guarded file never receives a forbidden mixture.
 *
 *     gcc -std=c11 -o guard guard.c $(pkg-config --cflags --libs yaslaurel)
 *     guard POLICY CONTAINERS <ACCESSES
 *
 * POLICY is an image, CONTAINERS the names of its containers, a line `NUMBER NAME` each, as `policy make` writes them. An access
 * is a line: `read PROCESS FILE`, `write PROCESS FILE TEXT` or `append PROCESS FILE TEXT`. A file is the one of its name in
 * this folder: a read prints it, a write replaces what it holds by the text, an append adds the text.
 *
 * An access is made on quiet and on alert: an alerted access counts as made. Where an access that the monitor has been told of
 * then fails, the monitor keeps it as made, which may alert too much and never too little; the failure is told.
 *
 * Exit status:
 *   0  every access was quiet
 *   1  some access gave an alert, or was blocked
 *   2  some access was refused by the monitor, and not made
 *   3  both
 *   4  the policy was refused
 *   5  a failure: wrong arguments, a line that is no access, a file that could not be read or written, an answer that the
 *      header does not list
 */
#include <inttypes.h>
#include <stdio.h>
#include <stdlib.h>
#include <string.h>

#include "yaslaurel.h"

enum { NAME_LENGTH = 256, LINE_LENGTH = 4096 };

enum status { QUIET = 0, ALERTS = 1, REFUSALS = 2, POLICY_REFUSED = 4, FAILED = 5 };

static char names[YASLAUREL_CONTAINERS][NAME_LENGTH];
static uint64_t session[YASLAUREL_SESSION_LENGTH];

/* Reads the names of the containers. Whether it could, with a message if not. */
static int load_names(const char *path)
{
    char line[NAME_LENGTH + 8];
    FILE *file = fopen(path, "r");
    if (file == NULL) {
        perror(path);
        return 0;
    }
    int good = 1;
    while (good && fgets(line, sizeof line, file) != NULL) {
        char *name = NULL;
        unsigned long number = strtoul(line, &name, 10);
        size_t length = strcspn(name, "\n");
        good = number < YASLAUREL_CONTAINERS && name[0] == ' ' && name[length] == '\n' && length <= NAME_LENGTH;
        if (good) {
            memcpy(names[number], name + 1, length - 1);
        } else {
            fprintf(stderr, "%s: not a line `NUMBER NAME`: %s\n", path, line);
        }
    }
    if (ferror(file)) {
        perror(path);
        good = 0;
    }
    fclose(file);
    return good;
}

/* The number of a container; YASLAUREL_CONTAINERS, which is refused, if there is none of this name. */
static uint32_t number_of(const char *name)
{
    uint32_t number = 0;
    while (number < YASLAUREL_CONTAINERS && strcmp(names[number], name) != 0) {
        number++;
    }
    return number;
}

/* Starts the session from a policy. 0, or the exit status with a message. */
static int start(const char *path)
{
    /* One byte more than the limit: a policy that is too long is refused, not cut. */
    static uint8_t policy[YASLAUREL_IMAGE_LIMIT + 1];
    FILE *file = fopen(path, "rb");
    if (file == NULL) {
        perror(path);
        return FAILED;
    }
    size_t length = fread(policy, 1, sizeof policy, file);
    int good = !ferror(file);
    fclose(file);
    if (!good) {
        fprintf(stderr, "%s: could not be read\n", path);
        return FAILED;
    }
    uint32_t answer = yaslaurel_session_start(policy, length, session, YASLAUREL_SESSION_LENGTH);
    if (answer != YASLAUREL_ACCEPTED) {
        fprintf(stderr, "policy refused %" PRIu32 ", %s\n", answer, yaslaurel_meaning(answer));
        return POLICY_REFUSED;
    }
    return QUIET;
}

/* Prints a file. Whether it could. */
static int print_file(const char *name)
{
    char part[LINE_LENGTH];
    size_t length;
    FILE *file = fopen(name, "r");
    if (file == NULL) {
        return 0;
    }
    while ((length = fread(part, 1, sizeof part, file)) > 0) {
        fwrite(part, 1, length, stdout);
    }
    int good = !ferror(file);
    return fclose(file) == 0 && good;
}

/* Puts a text and a line's end into a file. Whether it could. */
static int put_text(const char *name, const char *text, const char *mode)
{
    FILE *file = fopen(name, mode);
    if (file == NULL) {
        return 0;
    }
    int good = fprintf(file, "%s\n", text) >= 0;
    return fclose(file) == 0 && good;
}

/* Makes an access. Whether it could, with a message if not. */
static int make_access(uint32_t code, const char *file, const char *text)
{
    int good = code == YASLAUREL_READ ? print_file(file) : put_text(file, text, code == YASLAUREL_WRITE ? "w" : "a");
    if (!good) {
        perror(file);
        fprintf(stderr, "%s: the access failed; the monitor keeps it as made\n", file);
    }
    return good;
}

/* Asks the monitor for an access, and makes it if it may be made. What it adds to the exit status; FAILED at a failure. */
static int access_file(uint32_t code, const char *process, const char *file, const char *text)
{
    uint8_t record[YASLAUREL_RECORD_LENGTH];
    uint64_t receiver = 0, tag = 0;
    uint32_t position = YASLAUREL_NO_POSITION;

    yaslaurel_record(code, number_of(process), number_of(file), YASLAUREL_NO_USER, record);
    uint32_t answer = yaslaurel_step(session, YASLAUREL_SESSION_LENGTH, record, sizeof record, &receiver, &tag, &position);
    switch (answer) {
    case YASLAUREL_QUIET:
        return make_access(code, file, text) ? QUIET : FAILED;
    case YASLAUREL_ALERT:
        fprintf(stderr, "alert: %s now holds %016" PRIx64 "\n", names[receiver], tag);
        return make_access(code, file, text) ? ALERTS : FAILED;
    case YASLAUREL_BLOCKED:
        fprintf(stderr, "blocked: %s would hold %016" PRIx64 ", and stays as it was\n", names[receiver], tag);
        return ALERTS;
    default:
        if (yaslaurel_meaning(answer) == yaslaurel_meaning(YASLAUREL_ACCEPTED)) {
            fprintf(stderr, "unknown answer %" PRIu32 "\n", answer);
            return FAILED;
        }
        fprintf(stderr, "refused %" PRIu32 ", %s: %s %s\n", answer, yaslaurel_meaning(answer), process, file);
        return REFUSALS;
    }
}

/* Takes up a line of the list. What it adds to the exit status. */
static int take(char *line)
{
    const char *word = strtok(line, " \n"), *process = strtok(NULL, " \n");
    const char *file = strtok(NULL, " \n"), *text = strtok(NULL, "\n");
    static const char *const words[] = {"read", "write", "append"};
    static const uint32_t codes[] = {YASLAUREL_READ, YASLAUREL_WRITE, YASLAUREL_APPEND};

    for (size_t i = 0; word != NULL && file != NULL && i < 3; i++) {
        if (strcmp(word, words[i]) == 0 && (i == 0) == (text == NULL)) {
            return access_file(codes[i], process, file, text);
        }
    }
    fprintf(stderr, "not `read PROCESS FILE`, `write PROCESS FILE TEXT` or `append PROCESS FILE TEXT`\n");
    return FAILED;
}

int main(int argc, char **argv)
{
    char line[LINE_LENGTH];
    int status = QUIET;

    if (argc != 3) {
        fprintf(stderr, "guard POLICY CONTAINERS <ACCESSES\n");
        return FAILED;
    }
    if (!load_names(argv[2])) {
        return FAILED;
    }
    status = start(argv[1]);
    while (status < POLICY_REFUSED && fgets(line, sizeof line, stdin) != NULL) {
        int added = strchr(line, '\n') == NULL ? FAILED : take(line);
        status = added == FAILED ? FAILED : status | added;
    }
    if (ferror(stdin) || fflush(stdout) != 0 || ferror(stdout)) {
        perror("input or output");
        status = FAILED;
    }
    return status;
}
