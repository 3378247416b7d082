/* loop POLICY TRACE..: the figures of each trace and their sum by one process of C, with what is measured of it on standard error: the loop that the fleet is compared with. */
#include <stdio.h>
#include <stdlib.h>
#include <string.h>
#include <time.h>
#include <yaslaurel.h>

static uint8_t image[YASLAUREL_IMAGE_LIMIT], trace[1 << 24];
static uint64_t session[YASLAUREL_SESSION_LENGTH], figures[YASLAUREL_FIGURES_LENGTH], total[YASLAUREL_FIGURES_LENGTH];

static size_t load(const char *name, uint8_t *room, size_t most)
{
    FILE *file = fopen(name, "rb");
    if (!file) {
        perror(name);
        exit(1);
    }
    const size_t length = fread(room, 1, most, file);
    fclose(file);
    return length;
}

int main(int argc, char **argv)
{
    const size_t image_length = load(argv[1], image, sizeof image);
    struct timespec before, behind;
    clock_gettime(CLOCK_MONOTONIC, &before);
    for (int k = 2; k < argc; k++) {
        const size_t length = load(argv[k], trace, sizeof trace);
        if (yaslaurel_session_start(image, image_length, session, YASLAUREL_SESSION_LENGTH) != YASLAUREL_ACCEPTED ||
            yaslaurel_figures(session, YASLAUREL_SESSION_LENGTH, trace, length, figures, YASLAUREL_FIGURES_LENGTH) != YASLAUREL_ACCEPTED ||
            yaslaurel_figures_add(total, YASLAUREL_FIGURES_LENGTH, figures, YASLAUREL_FIGURES_LENGTH) != YASLAUREL_ACCEPTED)
            return 1;
    }
    clock_gettime(CLOCK_MONOTONIC, &behind);
    const double seconds = (double)(behind.tv_sec - before.tv_sec) + (double)(behind.tv_nsec - before.tv_nsec) / 1e9;
    printf("%lu %lu %lu %lu\n", (unsigned long)total[YASLAUREL_FIGURES_ACCEPTED_AT], (unsigned long)total[YASLAUREL_FIGURES_ALERTS_AT],
           (unsigned long)total[YASLAUREL_FIGURES_REFUSED_AT], (unsigned long)total[YASLAUREL_FIGURES_BLOCKED_AT]);
    fprintf(stderr, "%lu %f\n", (unsigned long)total[YASLAUREL_FIGURES_RECORDS_AT], seconds);
}
