/* Pauses of the calls that wait, which are counted and not measured. A test can do something during a pause.
 * Link with -Wl,--wrap=nanosleep,--wrap=sched_yield. */
#ifndef PAUSING_H
#define PAUSING_H

#include "check.h"
#include "felter_wait.h"

/* How often this thread has paused, and what it does in a pause, if anything. */
static __thread int paused;
static __thread void (*at_pause)(int paused);

static void note_pause(void) {
    paused++;
    if (at_pause) at_pause(paused);
}

int __real_nanosleep(const struct timespec *time, struct timespec *left);
int __wrap_nanosleep(const struct timespec *time, struct timespec *left) {
    note_pause();
    return __real_nanosleep(time, left);
}

int __real_sched_yield(void);
int __wrap_sched_yield(void) {
    note_pause();
    return __real_sched_yield();
}

#endif
