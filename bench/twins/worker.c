/* A worker of bench/run: it takes requests on standard input, one a line, and prints lines, of which the last is `end`.
 *
 *     list                                           who takes part in what: has WORKLOAD CONTENDER
 *     run W CONTENDER SIZE CAPACITY THREADS MS       a measurement of about MS milliseconds: METRIC VALUE ..
 *     quit
 *
 * bench/README.md names the workloads. One program has one twin. */
#include "worker.h"

#include "steps.h"

#include <stdio.h>
#include <time.h>

uint64_t now_ns(void) {
    struct timespec at;
    clock_gettime(CLOCK_MONOTONIC, &at);
    return (uint64_t)at.tv_sec * 1000000000u + (uint64_t)at.tv_nsec;
}

void wrong(const char *what) {
    fprintf(stderr, "twin " TWIN ": wrong: %s\n", what);
    exit(3);
}

void start_thread(pthread_t *thread, void *(*run)(void *), void *with) {
    if (pthread_create(thread, NULL, run, with)) wrong("a thread could not be started");
}

/* What is done over and over. */
enum job { BATCHES, FLOW, TRIPS, BROADCAST, SETS, GETS, CYCLES, WATCHED_SETS, STORM };

/* A job's metric, and how often it is done at least and at most. */
static const struct {
    const char *metric;
    uint64_t least, most;
} jobs[] = {
    [BATCHES] = {"ns", 2000, 50000000},        [FLOW] = {"ns", 2000, 50000000},
    [TRIPS] = {"mean", 500, 1000000},          [BROADCAST] = {"ns", 2000, 50000000},
    [SETS] = {"set", 4096, 100000000},         [GETS] = {"get", 4096, 100000000},
    [CYCLES] = {"alloc_free", 4096, 10000000}, [WATCHED_SETS] = {"set_watched", 4096, 50000000},
    [STORM] = {"ns", 50, 10000},
};

/* Who takes part in what, and the jobs of that. */
static const struct entry {
    const char *workload, *contender;
    bool is_for_one, in_batches;
    enum job first, last;
} entries[] = {
    {"batches", "o2o-" TWIN, true, false, BATCHES, BATCHES},
    {"sparse", "o2o-" TWIN, true, false, BATCHES, BATCHES},
    {"pair", "o2o-" TWIN, true, false, FLOW, FLOW},
    {"trips", "o2o-" TWIN, true, false, TRIPS, TRIPS},
#if HAS_CLAIMS
    {"batches", "m2o-" TWIN, false, false, BATCHES, BATCHES},
    {"sparse", "m2o-" TWIN, false, false, BATCHES, BATCHES},
    {"pair", "m2o-" TWIN, false, false, FLOW, FLOW},
    {"producers", "m2o-" TWIN, false, false, FLOW, FLOW},
    {"trips", "m2o-" TWIN, false, false, TRIPS, TRIPS},
    {"storm", "storm-" TWIN, false, false, STORM, STORM},
#endif
#if HAS_BATCHES
    {"batches", "o2o-" TWIN "-batch", true, true, BATCHES, BATCHES},
    {"pair", "o2o-" TWIN "-batch", true, true, FLOW, FLOW},
#endif
#if HAS_BATCHES && HAS_CLAIMS
    {"batches", "m2o-" TWIN "-batch", false, true, BATCHES, BATCHES},
    {"pair", "m2o-" TWIN "-batch", false, true, FLOW, FLOW},
    {"producers", "m2o-" TWIN "-batch", false, true, FLOW, FLOW},
#endif
#if !HAS_MARKS && HAS_CLAIMS /* (those of `pb` would be those of `sc`, and those of `ta` those of `ar`) */
    {"broadcast", "board-" TWIN, false, false, BROADCAST, BROADCAST},
    {"counters", "counters-" TWIN, false, false, SETS, WATCHED_SETS},
#endif
};

#define ENTRIES (sizeof entries / sizeof *entries)
#define KNOWN 256

/* What a run of a job found apart from its time. */
struct found {
    struct received received;
    uint64_t whole;
    uint32_t *trips;
};

static uint64_t run_job(enum job job, const struct request *request, uint64_t times, struct found *found) {
    switch (job) {
    case BATCHES: return run_batches(request, times);
    case FLOW: return run_flow(request, times);
    case TRIPS: return run_trips(request, times, found->trips);
    case BROADCAST: return run_broadcast(request, times, &found->received);
    case SETS: return run_sets(times);
    case GETS: return run_gets(times);
    case CYCLES: return run_cycles(times);
    case WATCHED_SETS: return run_watched_sets(times);
    case STORM: return run_storm(request, times, &found->whole);
    }
    return 0;
}

/* How often a job fills the time of a request: found once for each, by running it more and more often. */
static uint64_t times_for(const char *line, enum job job, const struct request *request, double ms) {
    static struct {
        char line[128];
        enum job job;
        uint64_t times;
    } known[KNOWN];
    static int count;
    for (int k = 0; k < count; k++)
        if (known[k].job == job && strcmp(known[k].line, line) == 0) return known[k].times;
    struct found found = {{0, 0}, 0, NULL};
    uint64_t times = jobs[job].least;
    for (int tries = 0; tries < 8; tries++) {
        double took = (double)run_job(job, request, times, &found) + 1, growth = ms * 1e6 / took;
        double wanted = (double)times * (growth < 64 ? growth : 64);
        times = wanted < (double)jobs[job].least ? jobs[job].least
            : wanted > (double)jobs[job].most    ? jobs[job].most
                                                 : (uint64_t)wanted;
        if (growth < 4 || times == jobs[job].most) break;
    }
    if (count < KNOWN) {
        snprintf(known[count].line, sizeof known[count].line, "%s", line);
        known[count].job = job;
        known[count++].times = times;
    }
    return times;
}

static int by_size(const void *one, const void *other) {
    uint32_t a = *(const uint32_t *)one, b = *(const uint32_t *)other;
    return (a > b) - (a < b);
}

static void print_trips(uint32_t *trips, uint64_t count) {
    static const struct {
        const char *name;
        uint64_t parts;
    } metrics[] = {{"p50", 5000}, {"p90", 9000}, {"p99", 9900}, {"p999", 9990}, {"p9999", 9999}};
    qsort(trips, count, sizeof *trips, by_size);
    for (size_t k = 0; k < sizeof metrics / sizeof *metrics; k++)
        printf("%s %u\n", metrics[k].name, trips[count * metrics[k].parts / 10000]);
}

static void measure(const char *line, enum job job, const struct request *request, double ms) {
    uint64_t times = times_for(line, job, request, ms);
    struct found found = {{0, 0}, 0, job == TRIPS ? malloc(times * sizeof *found.trips) : NULL};
    if (job == TRIPS && !found.trips) wrong("out of memory");
    uint64_t all = job == STORM ? times * request->threads : times;
    printf("%s %.3f\n", jobs[job].metric, (double)run_job(job, request, times, &found) / (double)all);
    if (job == TRIPS) print_trips(found.trips, times);
    if (job == STORM) printf("whole %.3f\n", (double)found.whole / (double)all);
    double wanted = (double)times * request->threads;
    if (job == BROADCAST)
        printf("copied %.4f\nlaps_per_million %.1f\n", (double)found.received.copies / wanted,
               (double)found.received.laps / wanted * 1e6);
    free(found.trips);
}

static const struct entry *find_entry(const char *workload, const char *contender) {
    for (size_t k = 0; k < ENTRIES; k++)
        if (strcmp(entries[k].workload, workload) == 0 && strcmp(entries[k].contender, contender) == 0)
            return &entries[k];
    return NULL;
}

static void answer_run(const char *line) {
    struct request request;
    memset(&request, 0, sizeof request);
    char contender[64];
    unsigned long long capacity;
    double ms;
    if (sscanf(line, "run %15s %63s %u %llu %u %lf", request.workload, contender, &request.size, &capacity,
               &request.threads, &ms) != 6) {
        printf("error no such request\n");
        return;
    }
    const struct entry *entry = find_entry(request.workload, contender);
    request.capacity = capacity;
    if (!entry || request.size < 8 || request.size > MAX_BODY || request.threads < 1 || request.threads > MAX_THREADS ||
        capacity < 256 || (capacity & (capacity - 1))) {
        printf("error no such measurement\n");
        return;
    }
    request.is_for_one = entry->is_for_one;
    request.in_batches = entry->in_batches;
    for (enum job job = entry->first; job <= entry->last; job++) measure(line, job, &request, ms);
}

int main(void) {
    char line[128];
    while (fgets(line, sizeof line, stdin)) {
        line[strcspn(line, "\n")] = 0;
        if (strcmp(line, "quit") == 0) break;
        if (strcmp(line, "list") == 0)
            for (size_t k = 0; k < ENTRIES; k++) printf("has %s %s\n", entries[k].workload, entries[k].contender);
        else if (strncmp(line, "run ", 4) == 0) answer_run(line);
        printf("end\n");
        fflush(stdout);
    }
    return 0;
}
