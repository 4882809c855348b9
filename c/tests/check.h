/* What the tests in C share. A test ends with status 1 at the first check that fails, and prints the place of that
 * check. */
#ifndef CHECK_H
#define CHECK_H

#include "felter.h"

#include <inttypes.h>
#include <sched.h>
#include <stdio.h>
#include <stdlib.h>
#include <string.h>
#include <time.h>

/* Ends the test if the condition is false. */
#define CHECK(that)                                                     \
    do {                                                                \
        if (!(that)) {                                                  \
            fprintf(stderr, "%s:%d: not so: %s\n", __FILE__, __LINE__, #that); \
            exit(1);                                                    \
        }                                                               \
    } while (0)

/* Ends the test if the call returns another code. */
#define EXPECT(code, call)                                                                                    \
    do {                                                                                                      \
        int32_t answered = (call);                                                                            \
        if (answered != (code)) {                                                                             \
            fprintf(stderr, "%s:%d: %" PRId32 " and not %s: %s\n", __FILE__, __LINE__, answered, #code, #call); \
            exit(1);                                                                                          \
        }                                                                                                     \
    } while (0)

/* Lets other threads run. A thread that waits for long sleeps between its tries, so that it takes little processor time,
 * however busy the machine is. `tries` is 0 before the first one. */
static inline void rest(int *tries) {
    const struct timespec pause = {0, 100000};
    if (++*tries < 100) sched_yield();
    else nanosleep(&pause, NULL);
}

#define LAST_POSITION ((uint64_t)1 << 62)

/* The bytes of a text, without its end. */
#define BYTES(text) (const uint8_t *)(text), sizeof(text) - 1

#endif
