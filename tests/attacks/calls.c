/* Random calls of the C library, each compared with a model.
 *
 *     calls SECONDS SEED      sequences of calls until the time is over; prints how much that was
 *
 * With -DFUZZ it is a target of libFuzzer, whose input is what is chosen. */
#include "calls.h"

#include <errno.h>
#include <sys/mman.h>
#include <time.h>
#include <unistd.h>

#define ROOM (1 << 16)
#define STEPS 400

/* Choices ---------------------------------------------------------------------------------------------------------- */

static const uint8_t *chosen; /* what a fuzzer has chosen, or NULL */
static size_t chosen_left;
static uint64_t state, calls_made, requests_refused;

static uint64_t next_random(void) {
    state += 0x9e3779b97f4a7c15;
    uint64_t mixed = (state ^ state >> 30) * 0xbf58476d1ce4e5b9;
    mixed = (mixed ^ mixed >> 27) * 0x94d049bb133111eb;
    return mixed ^ mixed >> 31;
}

uint64_t pick(uint64_t below) {
    if (!chosen) return next_random() % below;
    uint64_t number = 0;
    for (uint64_t most = below - 1; most && chosen_left; most >>= 8, chosen_left--) number = number << 8 | *chosen++;
    return number % below;
}

/* Buffers ---------------------------------------------------------------------------------------------------------- */

/* The last bytes before a guard page. */
static uint8_t *guarded(int which, size_t len) {
    static uint8_t *ends[4];
    if (!ends[which]) {
        size_t page = (size_t)sysconf(_SC_PAGESIZE);
        uint8_t *pages = mmap(NULL, ROOM + page, PROT_READ | PROT_WRITE, MAP_PRIVATE | MAP_ANONYMOUS, -1, 0);
        if (pages == MAP_FAILED || mprotect(pages + ROOM, page, PROT_NONE)) abort();
        ends[which] = pages + ROOM;
    }
    return ends[which] - len;
}

uint8_t *input(size_t len) {
    static int which;
    uint8_t *bytes = guarded(which = !which, len);
    uint64_t kind = pick(4);
    for (size_t k = 0; k < len; k++) bytes[k] = kind == 0 ? 0 : kind == 1 ? (uint8_t)(k * 7) : (uint8_t)next_random();
    return bytes;
}

uint8_t *output(size_t room) {
    static int which;
    return memset(guarded(2 + (which = !which), room), 0xa5, room);
}

/* Memory ----------------------------------------------------------------------------------------------------------- */

void *__real_malloc(size_t size);
void *__real_calloc(size_t count, size_t size);
void *__real_realloc(void *at, size_t size);
void *__real_aligned_alloc(size_t align, size_t size);
int __real_posix_memalign(void **at, size_t align, size_t size);
void __real_free(void *at);

static bool is_calling, was_refused;
static long granted = -1; /* how many requests of a call are granted before one is refused; -1: all */
static long live;         /* pieces of memory that were not given back */

static bool refuses(void) {
    if (!is_calling || granted < 0) return false;
    if (granted-- > 0) return false;
    was_refused = true;
    requests_refused++;
    return true;
}

void *__wrap_malloc(size_t size) {
    void *at = refuses() ? NULL : __real_malloc(size);
    live += is_calling && at;
    return at;
}

void *__wrap_calloc(size_t count, size_t size) {
    void *at = refuses() ? NULL : __real_calloc(count, size);
    live += is_calling && at;
    return at;
}

void *__wrap_realloc(void *from, size_t size) {
    void *at = refuses() ? NULL : __real_realloc(from, size);
    live += is_calling && at && !from;
    return at;
}

void *__wrap_aligned_alloc(size_t align, size_t size) {
    void *at = refuses() ? NULL : __real_aligned_alloc(align, size);
    live += is_calling && at;
    return at;
}

int __wrap_posix_memalign(void **at, size_t align, size_t size) {
    int code = refuses() ? ENOMEM : __real_posix_memalign(at, align, size);
    live += is_calling && !code;
    return code;
}

void __wrap_free(void *at) {
    live -= is_calling && at;
    __real_free(at);
}

/* Calls ------------------------------------------------------------------------------------------------------------ */

static uint64_t sequence;

void fail(const char *what, const char *file, int line) {
    fprintf(stderr, "%s:%d: sequence %llu, after %llu calls: not so: %s\n", file, line, (unsigned long long)sequence,
            (unsigned long long)calls_made, what);
    abort();
}

void before_call(void) {
    granted = once_in(8) ? (long)pick(4) : -1;
    was_refused = false;
    is_calling = true;
}

int32_t after_call(int32_t code, int32_t wanted, const char *call, const char *file, int line) {
    is_calling = false;
    calls_made++;
    if (code != wanted && !(code == FELTER_OUT_OF_MEMORY && was_refused)) {
        fprintf(stderr, "%d and not %d: ", code, wanted);
        fail(call, file, line);
    }
    return code;
}

/* (the header's count begins at 1) */
uint64_t some_number(void) {
    static uint64_t drawn = (uint64_t)1 << 40;
    return drawn++;
}

void look_at_sizes(felter_handle *handle, uint32_t capacity) {
    uint32_t found = UNTOUCHED, longest = UNTOUCHED;
    if (CALL(FELTER_OK, felter_capacity(handle, &found, &longest)) == FELTER_OK)
        CHECK(found == capacity && longest == capacity / 8);
}

/* One sequence: steps of all parts, then all handles are freed and no memory is left. */
static void run_sequence(int steps) {
    for (int k = 0; k < steps && (!chosen || chosen_left); k++) {
        switch (pick(9)) {
        case 0: case 1: case 2: ring_step(); break;
        case 3: case 4: board_step(); break;
        case 5: counter_step(); break;
        case 6: adder_step(); break;
        default: conductor_step();
        }
    }
    ring_end();
    board_end();
    counter_end();
    adder_end();
    conductor_end();
    CHECK(live == 0);
    sequence++;
}

#ifdef FUZZ
int LLVMFuzzerTestOneInput(const uint8_t *data, size_t size) {
    chosen = data;
    chosen_left = size;
    run_sequence(4 * STEPS);
    return 0;
}
#else
int main(int count, char **words) {
    if (count != 3) return 2;
    double seconds = atof(words[1]);
    uint64_t seed = strtoull(words[2], NULL, 10);
    struct timespec began, now;
    clock_gettime(CLOCK_MONOTONIC, &began);
    do {
        state = seed + sequence * 0x100000001;
        run_sequence(STEPS);
        clock_gettime(CLOCK_MONOTONIC, &now);
    } while ((double)(now.tv_sec - began.tv_sec) + (double)(now.tv_nsec - began.tv_nsec) / 1e9 < seconds);
    printf("%llu sequences of %llu calls, in which %llu requests for memory were refused; nothing was leaked\n",
           (unsigned long long)sequence, (unsigned long long)calls_made, (unsigned long long)requests_refused);
    return 0;
}
#endif
