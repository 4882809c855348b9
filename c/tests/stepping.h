/* Calls that are made one instruction at a time, by the trap flag of the processor. So a test can count the
 * instructions of a call, or can let another thread run between any two of them. Neither depends on how fast or how
 * busy the machine is. A file that includes this one first defines _GNU_SOURCE. */
#ifndef STEPPING_H
#define STEPPING_H

#include "check.h"

#include <signal.h>
#include <ucontext.h>

static volatile sig_atomic_t steps_on;  /* whether instructions are counted after the next breakpoint */
static volatile uint64_t steps_made;    /* how many instructions were made since then */
static volatile uint64_t steps_until;   /* after this many instructions steps_hook is called, and counting ends */
static void (*volatile steps_hook)(void);

static void on_trap(int number, siginfo_t *its, void *context) {
    const long long flag = 0x100;
    long long *flags = (long long *)&((ucontext_t *)context)->uc_mcontext.gregs[REG_EFL];
    (void)number;
    if (its->si_code != TRAP_TRACE) {
        *flags = steps_on ? *flags | flag : *flags & ~flag;
    } else if (++steps_made == steps_until) {
        *flags &= ~flag;
        steps_hook();
    }
}

static void prepare_steps(void) {
    struct sigaction action;
    memset(&action, 0, sizeof action);
    action.sa_sigaction = on_trap;
    action.sa_flags = SA_SIGINFO;
    CHECK(sigaction(SIGTRAP, &action, NULL) == 0);
}

/* Makes a call one instruction at a time, and keeps its code. Calls the hook after `until` instructions, if the call
 * has this many and `until` is not 0. */
#define STEP(code, call, until)                \
    do {                                       \
        steps_made = 0;                        \
        steps_until = (until);                 \
        steps_on = 1;                          \
        __asm__ volatile("int3" ::: "memory"); \
        (code) = (call);                       \
        steps_on = 0;                          \
        __asm__ volatile("int3" ::: "memory"); \
    } while (0)

#endif
