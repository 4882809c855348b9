/* What the workloads of the worker share. */
#ifndef TWINS_WORKER_H
#define TWINS_WORKER_H

#include "layout.h"

#include <pthread.h>
#include <stdatomic.h>
#include <stdbool.h>
#include <sched.h>

#define MAX_THREADS 64
#define MAX_BODY 4096
#define MESSAGE 1
/* The messages that a read may take. */
#define LIMIT 64

/* A request for one measurement. */
struct request {
    char workload[16];
    bool is_for_one; /* the ring of one producer */
    bool in_batches; /* messages are published 16 at a time */
    uint32_t size;   /* bytes of a message */
    uint64_t capacity;
    uint32_t threads; /* producers, receivers or clients */
};

/* What receivers of a broadcast came to, in all. */
struct received {
    uint64_t copies, laps;
};

/* Each runs a job this many times and returns the nanoseconds that took. A message that was lost or came in another
 * order ends the program. */
uint64_t run_batches(const struct request *request, uint64_t times);
uint64_t run_flow(const struct request *request, uint64_t times);
uint64_t run_broadcast(const struct request *request, uint64_t times, struct received *received);
uint64_t run_sets(uint64_t times);
uint64_t run_gets(uint64_t times);
uint64_t run_cycles(uint64_t times);
uint64_t run_watched_sets(uint64_t times);

/* The nanoseconds of each round trip go into `trips`, unless that is NULL. */
uint64_t run_trips(const struct request *request, uint64_t times, uint32_t *trips);

/* `times` commands of each client. `whole` is the time with what is made and taken apart. */
uint64_t run_storm(const struct request *request, uint64_t times, uint64_t *whole);

uint64_t now_ns(void);

/* Says what was wrong and ends the program. */
_Noreturn void wrong(const char *what);

void start_thread(pthread_t *thread, void *(*run)(void *), void *with);

static inline void pause_once(void) {
#if defined __x86_64__ || defined __i386__
    __builtin_ia32_pause();
#elif defined __aarch64__
    __asm__ volatile("yield");
#endif
}

/* The rest between two tries: 64 pauses, and then the processor is given away, as every worker does it. */
static inline void rest(unsigned *turns) {
    if (++*turns <= 64) pause_once();
    else sched_yield();
}

/* Looks at the first and the last 8 bytes of a message, and returns the first. */
static inline uint64_t look(const uint8_t *body, uint32_t len) {
    uint64_t last = word_at(body + len - 8);
    __asm__ volatile("" : : "r"(last));
    return word_at(body);
}

#endif
