/* How fast processors run: bench/run asks before and after each measurement, and bench/run pairs asks too. It takes
 * requests on standard input, one a line, and prints lines, of which the last is `end`.
 *
 *     adds P P ..     a loop of dependent adds runs on these processors at once: for each, the nanoseconds of a turn
 *     pass P P        a word goes to and fro between two processors: the nanoseconds of one way
 *     quit
 *
 * An add waits for the one before, so a turn takes one cycle. If something else runs on the same core, it takes two or
 * more, since the loop needs each cycle of the core to fetch its instructions. */
#define _GNU_SOURCE
#include <pthread.h>
#include <sched.h>
#include <stdatomic.h>
#include <stdbool.h>
#include <stdint.h>
#include <stdio.h>
#include <stdlib.h>
#include <string.h>
#include <time.h>

enum { MOST = 256, LINE = 4096, ADDS = 100000, RUNS = 5, PASSES = 20000 };

/* What all threads of a request share, each on lines of its own. */
static struct {
    _Alignas(256) atomic_int ready;
    _Alignas(256) atomic_int done;
    _Alignas(256) atomic_uint_fast64_t word;
} shared;
static int count;

struct seat {
    _Alignas(256) int processor;
    bool is_second;
    double ns;
    pthread_t thread;
};
static struct seat seats[MOST];

static double now_ns(void) {
    struct timespec at;
    clock_gettime(CLOCK_MONOTONIC, &at);
    return (double)at.tv_sec * 1e9 + (double)at.tv_nsec;
}

static double add_often(void) {
    uint64_t sum = 1;
    double began = now_ns();
    for (uint64_t k = 0; k < ADDS; k++) {
        sum += k;
        __asm__ volatile("" : "+r"(sum));
    }
    return (now_ns() - began) / ADDS;
}

static void wait_for_all(atomic_int *here) {
    atomic_fetch_add(here, 1);
    while (atomic_load(here) < count) {
    }
}

static int by_size(const void *one, const void *other) {
    double a = *(const double *)one, b = *(const double *)other;
    return (a > b) - (a < b);
}

/* The median of some runs, all while the other processors run too. The first run only warms the processor up. */
static void *add_on(void *with) {
    struct seat *seat = with;
    double took[RUNS];
    wait_for_all(&shared.ready);
    add_often();
    for (int k = 0; k < RUNS; k++) took[k] = add_often();
    qsort(took, RUNS, sizeof *took, by_size);
    seat->ns = took[RUNS / 2];
    atomic_fetch_add(&shared.done, 1);
    while (atomic_load(&shared.done) < count) add_often();
    return NULL;
}

/* The first thread stores odd numbers and waits for even ones. */
static void *pass_on(void *with) {
    struct seat *seat = with;
    wait_for_all(&shared.ready);
    double began = now_ns();
    for (uint64_t k = seat->is_second ? 1 : 0; k < 2 * PASSES; k += 2) {
        while (atomic_load_explicit(&shared.word, memory_order_acquire) != k) {
        }
        atomic_store_explicit(&shared.word, k + 1, memory_order_release);
    }
    seat->ns = (now_ns() - began) / (2.0 * PASSES);
    return NULL;
}

/* Starts a thread on each processor and joins them: whether all could be started. */
static bool run_all(void *(*run)(void *)) {
    atomic_store(&shared.ready, 0);
    atomic_store(&shared.done, 0);
    atomic_store(&shared.word, 0);
    for (int k = 0; k < count; k++) {
        pthread_attr_t attributes;
        cpu_set_t set;
        CPU_ZERO(&set);
        CPU_SET((size_t)seats[k].processor, &set);
        seats[k].is_second = k > 0;
        pthread_attr_init(&attributes);
        pthread_attr_setaffinity_np(&attributes, sizeof set, &set);
        int fault = pthread_create(&seats[k].thread, &attributes, run, &seats[k]);
        pthread_attr_destroy(&attributes);
        if (fault) return false;
    }
    for (int k = 0; k < count; k++) pthread_join(seats[k].thread, NULL);
    return true;
}

/* Reads the processors of a request: whether there are some, and all can be used. */
static bool read_processors(char *words) {
    cpu_set_t usable;
    count = 0;
    if (sched_getaffinity(0, sizeof usable, &usable)) return false;
    for (char *word = strtok(words, " \n"); word; word = strtok(NULL, " \n")) {
        char *end;
        long processor = strtol(word, &end, 10);
        if (*end || processor < 0 || processor >= CPU_SETSIZE || count == MOST) return false;
        if (!CPU_ISSET((size_t)processor, &usable)) return false;
        seats[count++].processor = (int)processor;
    }
    return count > 0;
}

int main(void) {
    static char line[LINE];
    while (fgets(line, sizeof line, stdin)) {
        if (strcmp(line, "quit\n") == 0) break;
        bool adds = strncmp(line, "adds ", 5) == 0, pass = strncmp(line, "pass ", 5) == 0;
        if ((!adds && !pass) || !read_processors(line + 5) || (pass && count != 2)) {
            printf("error no such request\n");
        } else {
            if (!run_all(adds ? add_on : pass_on)) return 1;
            for (int k = 0; k < (adds ? count : 1); k++) printf("%.4f\n", seats[k].ns);
        }
        printf("end\n");
        fflush(stdout);
    }
    return 0;
}
