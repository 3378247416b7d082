/*
 * Calls from signal handlers and from threads, each on memory of its own: a handler that interrupts calls again and again,
 * on a stack that the header's numbers size, and threads at the same time. Each must find what a call alone finds. With
 * SHARED the handler is lent what the interrupted call is lent, which must be seen. Prints a line for each check and
 * `N passed, M failed`.
 */
#define _GNU_SOURCE
#include <pthread.h>
#include <signal.h>
#include <stdio.h>
#include <stdlib.h>
#include <sys/mman.h>
#include <sys/time.h>
#include <unistd.h>

#include "../inputs.h"
#include "yaslaurel.h"

enum { SESSION = YASLAUREL_SESSION_LENGTH, STEPS = 300, INTERRUPTIONS = 200, THREADS = 4, JOBS = 50 };

/* Room for the frames of a handler and of the job itself. */
enum { OWN_FRAMES = 4096 };

struct memory {
    uint8_t image[YASLAUREL_OUTPUT_LENGTH], normal[YASLAUREL_OUTPUT_LENGTH];
    uint64_t session[SESSION];
};

static struct memory here, in_threads[THREADS];
#ifdef SHARED
static struct memory *const in_handler = &here;
#else
static struct memory own;
static struct memory *const in_handler = &own;
#endif
static uint64_t alone;
static volatile sig_atomic_t interruptions, differing;

/* A policy made, normalised and started, and many steps: one number for all that was answered. */
static uint64_t job(struct memory *memory)
{
    static const uint32_t reads[3] = {5, 3, 2}, writes[3] = {1, 2, 10};
    uint64_t seed = 1, found = 0, receiver = 0, tag = 0;
    uint32_t position = 0;
    uint8_t record[YASLAUREL_RECORD_LENGTH];
    size_t length = yaslaurel_matrix_policy(reads, 3, writes, 3, 4, memory->image, sizeof memory->image);

    length = yaslaurel_image_normalise(memory->image, length, memory->normal, sizeof memory->normal);
    found = yaslaurel_session_start(memory->normal, length, memory->session, SESSION);
    for (int i = 0; i < STEPS; i++) {
        uint32_t code = (uint32_t)(YASLAUREL_READ + next(&seed) % 3), p = (uint32_t)(4 + next(&seed) % 3);
        yaslaurel_record(code, p, (uint32_t)(next(&seed) % 4), YASLAUREL_NO_USER, record);
        uint64_t answer = yaslaurel_step(memory->session, SESSION, record, sizeof record, &receiver, &tag, &position);
        found = found * 31 + answer * 7 + receiver * 3 + tag + position * 5;
    }
    return found;
}

static void handle(int signal)
{
    (void)signal;
    /* Behind the last one the program goes on, also where a job takes longer than the timer. */
    if (interruptions < INTERRUPTIONS) {
        interruptions++;
        differing += job(in_handler) != alone;
    }
}

/* A stack for the handler, with a page in front that may not be touched. Whether it is there. */
static int handler_stack(void)
{
    size_t page = (size_t)sysconf(_SC_PAGESIZE);
    size_t size = YASLAUREL_IMAGE_NORMALISE_STACK + OWN_FRAMES + (size_t)sysconf(_SC_MINSIGSTKSZ);
    size = (size + page - 1) / page * page;
    uint8_t *all = mmap(NULL, page + size, PROT_READ | PROT_WRITE, MAP_PRIVATE | MAP_ANONYMOUS, -1, 0);
    stack_t stack = {.ss_sp = all + page, .ss_size = size, .ss_flags = 0};
    struct sigaction action = {.sa_handler = handle, .sa_flags = SA_ONSTACK | SA_RESTART};

    return all != MAP_FAILED && mprotect(all, page, PROT_NONE) == 0 && sigaltstack(&stack, NULL) == 0 &&
           sigaction(SIGALRM, &action, NULL) == 0;
}

/* Jobs of the program itself, until they were interrupted often enough. Whether each found what one alone finds. */
static int interrupted_jobs(void)
{
    const struct itimerval every = {{0, 100}, {0, 100}}, never = {{0, 0}, {0, 0}};
    int good = setitimer(ITIMER_REAL, &every, NULL) == 0;

    while (good && interruptions < INTERRUPTIONS) {
        good = job(&here) == alone;
    }
    setitimer(ITIMER_REAL, &never, NULL);
    return good;
}

/* Many jobs on one memory. The memory if each found what one alone finds, else a null. */
static void *jobs(void *memory)
{
    for (int i = 0; i < JOBS; i++) {
        if (job(memory) != alone) {
            return NULL;
        }
    }
    return memory;
}

static int thread_jobs(void)
{
    pthread_t threads[THREADS];
    int good = 1;

    for (int i = 0; i < THREADS; i++) {
        if (pthread_create(&threads[i], NULL, jobs, &in_threads[i]) != 0) {
            exit(2);
        }
    }
    for (int i = 0; i < THREADS; i++) {
        void *found = NULL;
        good = pthread_join(threads[i], &found) == 0 && found == &in_threads[i] && good;
    }
    return good;
}

int main(void)
{
    static const char *const texts[] = {"a stack for the handler", "calls that are interrupted", "calls in a handler",
                                        "calls in threads"};
    int good[4], passed = 0;

    alone = job(&here);
    good[0] = handler_stack();
    good[1] = good[0] && interrupted_jobs();
    good[2] = differing == 0;
    good[3] = thread_jobs();
    for (int i = 0; i < 4; i++) {
        printf("%s %s\n", good[i] ? "ok" : "FAILED", texts[i]);
        passed += good[i];
    }
    printf("%d passed, %d failed\n", passed, 4 - passed);
    return passed != 4;
}
