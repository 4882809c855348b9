/* Shared counters: threads add, and the total is exact; every code of the calls of adders. */
#include "check.h"

#include <pthread.h>

#define THREADS 4
#define TIMES 100000

static void has(felter_adder *adder, int64_t value, uint32_t shares) {
    int64_t found = 77;
    uint32_t held = 77;
    EXPECT(FELTER_OK, felter_adder_value(adder, &found));
    EXPECT(FELTER_OK, felter_adder_shares(adder, &held));
    CHECK(found == value && held == shares);
}

struct task {
    felter_adder adder;
    int64_t amount;
    pthread_t thread;
};

/* Adds, and sees that the value contains at least what it added, since the amounts are above 0. */
static void *add(void *its) {
    struct task *it = its;
    int64_t last = -1, before = 0, value = 0;
    for (int64_t n = 0; n < TIMES; n++) {
        EXPECT(FELTER_OK, felter_adder_add(&it->adder, it->amount, &before));
        CHECK(before > last && before >= n * it->amount);
        last = before;
        if (n % 64) continue;
        EXPECT(FELTER_OK, felter_adder_value(&it->adder, &value));
        CHECK(value >= before + it->amount);
    }
    return NULL;
}

/* The total of threads, whose adders are joined, or of which one is freed. */
static void totals(int frees) {
    felter_adder adder = FELTER_EMPTY;
    static struct task tasks[THREADS];
    int64_t total = 0, before = 77;
    EXPECT(FELTER_OK, felter_adder_new(&adder));
    for (int i = 0; i < THREADS; i++) {
        tasks[i].amount = 1 + ((int64_t)i << 20);
        EXPECT(FELTER_OK, felter_adder_split(&adder, &tasks[i].adder));
        total += TIMES * tasks[i].amount;
    }
    has(&adder, 0, 65536 - THREADS);
    for (int i = 0; i < THREADS; i++) CHECK(pthread_create(&tasks[i].thread, NULL, add, &tasks[i]) == 0);
    EXPECT(FELTER_OK, felter_adder_add(&adder, 5, &before));
    for (int i = 0; i < THREADS; i++) CHECK(pthread_join(tasks[i].thread, NULL) == 0);
    if (frees) felter_free(&tasks[0].adder.handle);
    for (int i = frees; i < THREADS; i++) EXPECT(FELTER_OK, felter_adder_join(&adder, &tasks[i].adder));
    for (int i = 0; i < THREADS; i++) CHECK(tasks[i].adder.handle.at == NULL);
    has(&adder, total + 5, frees ? 65535 : 65536);
    felter_free(&adder.handle);
}

/* Sums wrap at both ends, and the value before is written. */
static void sums(void) {
    static const struct { int64_t amount, before; } steps[] = {
        {INT64_MAX, 0}, {1, INT64_MAX}, {-1, INT64_MIN}, {INT64_MIN, INT64_MAX}, {0, -1}};
    felter_adder adder = FELTER_EMPTY, other = FELTER_EMPTY;
    int64_t before = 77;
    EXPECT(FELTER_OK, felter_adder_new(&adder));
    EXPECT(FELTER_OK, felter_adder_split(&adder, &other));
    for (size_t i = 0; i < sizeof steps / sizeof *steps; i++) {
        EXPECT(FELTER_OK, felter_adder_add(i % 2 ? &adder : &other, steps[i].amount, &before));
        CHECK(before == steps[i].before);
    }
    /* The shared counter lives as long as one of its adders. */
    felter_free(&adder.handle);
    has(&other, -1, 1);
    felter_free(&other.handle);
}

/* Shares move to adders and back. An adder that is freed takes its share along. */
static void shares(void) {
    felter_adder adder = FELTER_EMPTY, others[2] = {FELTER_EMPTY, FELTER_EMPTY}, last = FELTER_EMPTY;
    EXPECT(FELTER_OK, felter_adder_new(&adder));
    for (int i = 0; i < 2; i++) EXPECT(FELTER_OK, felter_adder_split(&adder, &others[i]));
    EXPECT(FELTER_NO_SHARES, felter_adder_split(&others[0], &last));
    EXPECT(FELTER_OK, felter_adder_join(&others[0], &others[1]));
    has(&others[0], 0, 2);
    EXPECT(FELTER_OK, felter_adder_split(&others[0], &others[1]));
    EXPECT(FELTER_NO_SHARES, felter_adder_split(&others[0], &last));
    CHECK(last.handle.at == NULL);
    for (int i = 0; i < 2; i++) EXPECT(FELTER_OK, felter_adder_join(&adder, &others[i]));
    for (uint32_t left = 65535; left >= 1; left--) {
        EXPECT(FELTER_OK, felter_adder_split(&adder, &last));
        if (left > 1) felter_free(&last.handle);
    }
    EXPECT(FELTER_NO_SHARES, felter_adder_split(&adder, &others[0]));
    EXPECT(FELTER_OK, felter_adder_join(&adder, &last));
    has(&adder, 0, 2);
    felter_free(&adder.handle);
}

/* What each call answers of a handle. */
static void refuses(felter_adder *adder, felter_adder *whole, int32_t code) {
    felter_adder none = FELTER_EMPTY;
    int64_t number = 77;
    uint32_t count = 77;
    EXPECT(code, felter_adder_add(adder, 5, &number));
    EXPECT(code, felter_adder_value(adder, &number));
    EXPECT(code, felter_adder_shares(adder, &count));
    EXPECT(code, felter_adder_split(adder, &none));
    EXPECT(code, felter_adder_join(adder, whole));
    EXPECT(code, felter_adder_join(whole, adder));
    CHECK(number == 77 && count == 77 && none.handle.at == NULL);
    has(whole, 7, 65536);
}

static void refusals(void) {
    felter_adder adder = FELTER_EMPTY, other = FELTER_EMPTY, alike = FELTER_EMPTY, none = FELTER_EMPTY;
    felter_counters counters = FELTER_EMPTY;
    int64_t number = 77;
    uint32_t count = 77, longest = 77;
    EXPECT(FELTER_OK, felter_adder_new(&adder));
    EXPECT(FELTER_OK, felter_adder_new(&alike));
    EXPECT(FELTER_OK, felter_counters_new(1, 0, &counters));
    EXPECT(FELTER_OK, felter_adder_add(&adder, 7, &number));
    number = 77;
    refuses(&none, &adder, FELTER_NO_HANDLE);
    refuses((felter_adder *)(void *)&counters, &adder, FELTER_WRONG_HANDLE);
    EXPECT(FELTER_OK, felter_counters_count(&counters, &count));
    EXPECT(FELTER_WRONG_HANDLE, felter_counters_count((felter_counters *)(void *)&adder, &count));
    EXPECT(FELTER_WRONG_HANDLE, felter_capacity(&adder.handle, &count, &longest));
    EXPECT(FELTER_HANDLE_IN_USE, felter_adder_new(&adder));
    EXPECT(FELTER_HANDLE_IN_USE, felter_adder_split(&adder, &alike));
    /* Adders of two shared counters are distinguished. */
    EXPECT(FELTER_OK, felter_adder_split(&alike, &other));
    EXPECT(FELTER_OTHER_RING, felter_adder_join(&adder, &other));
    EXPECT(FELTER_OTHER_RING, felter_adder_join(&other, &adder));
    has(&adder, 7, 65536);
    has(&other, 0, 1);
    EXPECT(FELTER_OK, felter_adder_join(&alike, &other));
    has(&alike, 0, 65536);
    EXPECT(FELTER_NO_HANDLE, felter_adder_new(NULL));
    EXPECT(FELTER_NO_HANDLE, felter_adder_join(&adder, NULL));
    EXPECT(FELTER_NULL_POINTER, felter_adder_add(&adder, 1, NULL));
    EXPECT(FELTER_NULL_POINTER, felter_adder_value(&adder, NULL));
    EXPECT(FELTER_NULL_POINTER, felter_adder_shares(&adder, NULL));
    has(&adder, 7, 65536);
    felter_free(&adder.handle);
    felter_free(&alike.handle);
    felter_free(&counters.handle);
    EXPECT(FELTER_NO_HANDLE, felter_adder_value(&adder, &number));
    CHECK(number == 77 && count == 1 && longest == 77);
}

int main(void) {
    totals(0);
    totals(1);
    sums();
    shares();
    refusals();
    puts("adders: each total and each answer as it should be");
    return 0;
}
