/* How many instructions a call executes, for a rule of eight mixtures of which only the first covers the tag, only the second,
 * and so on: prints the eight counts on one line. The exit status is 0 if each is larger than the one before it, 1 if not, 2
 * if instructions cannot be counted here.
 *
 * The processor stops behind each instruction while its trap flag is set, and the signal's handler counts; so the counts are
 * the same in every run. `cover_call.c`, or `cover_step.c`, says what is called. */
#define _POSIX_C_SOURCE 200809L
#include "count.h"

#include <signal.h>
#include <stdio.h>
#include <string.h>

static volatile sig_atomic_t counted;

static void count(int number)
{
    (void)number;
    counted++;
}

/* Set and clear the trap flag, bit 8 of the flags. */
void trap_on(void);
void trap_off(void);
__asm__(".globl trap_on\n"
        "trap_on:\n"
        "    pushfq\n"
        "    orq $0x100, (%rsp)\n"
        "    popfq\n"
        "    ret\n"
        ".globl trap_off\n"
        "trap_off:\n"
        "    pushfq\n"
        "    andq $~0x100, (%rsp)\n"
        "    popfq\n"
        "    ret\n"
        ".section .note.GNU-stack,\"\",@progbits\n"
        ".text\n");

static long instructions(int place)
{
    prepare(place);
    /* Once without counting, so that nothing is done for the first time. */
    call();
    counted = 0;
    trap_on();
    call();
    trap_off();
    return counted;
}

int main(void)
{
    struct sigaction action;
    memset(&action, 0, sizeof action);
    action.sa_handler = count;
    if (sigaction(SIGTRAP, &action, NULL) != 0) {
        perror("sigaction");
        return 2;
    }
    long before = 0;
    int status = 0;
    for (int place = 0; place < MIXTURES; place++) {
        long now = instructions(place);
        if (instructions(place) != now || now < 10) {
            fputs("instructions cannot be counted here\n", stderr);
            return 2;
        }
        printf("%s%ld", place == 0 ? "" : " ", now);
        if (now <= before)
            status = 1;
        before = now;
    }
    putchar('\n');
    return status;
}
