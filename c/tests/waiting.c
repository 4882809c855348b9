/* Calls that wait, sleepers, and doorbells. No result depends on how fast or how busy the machine is: a thread is known
 * to sleep because the system says so.
 * Link with -Wl,--wrap=syscall,--wrap=nanosleep,--wrap=sched_yield. */
#include "pausing.h"

#include <pthread.h>
#include <semaphore.h>
#include <stdarg.h>

#define COUNT 2000

static int bell;

static void *write_all(void *its) {
    for (uint32_t i = 0; i < COUNT; i++) {
        EXPECT(FELTER_OK, felter_write_wait(its, 1, &i, sizeof i, -1));
        if (i % 100 == 0) CHECK(felter_ring_doorbell(bell) == 0);
    }
    return its;
}

static int64_t nanos(void) {
    struct timespec now;
    clock_gettime(CLOCK_MONOTONIC, &now);
    return (int64_t)now.tv_sec * 1000000000 + now.tv_nsec;
}

static int64_t millis(void) {
    return nanos() / 1000000;
}

/* The sleeps of readers: how many have begun, and how many of these have a timeout. */
static int sleeps, timed_sleeps;
static sem_t has_begun; /* (posted for each of them) */

long __real_syscall(long number, ...);
long __wrap_syscall(long number, ...) {
    va_list its;
    long words[6];
    va_start(its, number);
    for (int i = 0; i < 6; i++) words[i] = va_arg(its, long);
    va_end(its);
    if (number == SYS_futex && (int)words[1] == FUTEX_WAIT_PRIVATE) {
        if (words[3]) __atomic_add_fetch(&timed_sleeps, 1, __ATOMIC_SEQ_CST);
        __atomic_add_fetch(&sleeps, 1, __ATOMIC_SEQ_CST);
        sem_post(&has_begun);
    }
    return __real_syscall(number, words[0], words[1], words[2], words[3], words[4], words[5]);
}

static long thread_id(void) {
    return __real_syscall(SYS_gettid, 0, 0, 0, 0, 0, 0);
}

/* Waits until a thread sleeps, which the system reports. */
static void await_sleep(const long *thread) {
    const struct timespec pause = {0, 100000};
    char path[64], text[512], *end = NULL;
    for (;; __real_nanosleep(&pause, NULL)) {
        long its = __atomic_load_n(thread, __ATOMIC_SEQ_CST);
        if (its == 0) continue;
        snprintf(path, sizeof path, "/proc/self/task/%ld/stat", its);
        FILE *file = fopen(path, "r");
        CHECK(file && fgets(text, sizeof text, file));
        fclose(file);
        /* (the state is after the name, which is in parentheses) */
        end = strrchr(text, ')');
        CHECK(end && end[1] == ' ');
        if (end[2] == 'S') return;
    }
}

/* The number of turns of a wait stays small, however long the wait is. */
static void pauses(void) {
    felter_pause pause = {0, 0, -1};
    int before = 0;
    for (int i = 0; i < 40; i++) {
        CHECK(felter_pauses(&pause) && pause.turns >= before && pause.turns <= 16);
        before = pause.turns;
    }
    CHECK(pause.turns == 16);
}

/* Sleepers --------------------------------------------------------------------------------------------------------- */

struct sleeping {
    felter_consumer consumer;
    felter_sleepers sleepers;
    uint32_t read;
    long thread;
};

static void *read_asleep(void *its) {
    struct sleeping *it = its;
    uint32_t value;
    int32_t type_id;
    size_t len;
    __atomic_store_n(&it->thread, thread_id(), __ATOMIC_SEQ_CST);
    while (it->read < COUNT) {
        EXPECT(FELTER_OK, felter_read_asleep(&it->consumer, &it->sleepers, &type_id, &len, &value, sizeof value, -1));
        CHECK(value == it->read && len == sizeof value);
        it->read++;
    }
    return its;
}

/* A reader that nothing but a wake ends. */
static void sleepers(void) {
    felter_producer producer = FELTER_EMPTY;
    struct sleeping it = {FELTER_EMPTY, FELTER_NO_SLEEPERS, 0, 0};
    felter_transmitter transmitter = FELTER_EMPTY;
    felter_receiver receiver = FELTER_EMPTY;
    pthread_t thread;
    uint8_t buffer[32];
    uint64_t lapped;
    int32_t type_id;
    size_t len;
    int64_t began = millis();
    EXPECT(FELTER_OK, felter_many_to_one_new(128, &producer, &it.consumer));
    EXPECT(FELTER_NO_MESSAGE, felter_read_asleep(&it.consumer, &it.sleepers, &type_id, &len, buffer, sizeof buffer, 0));
    EXPECT(FELTER_NO_MESSAGE, felter_read_asleep(&it.consumer, &it.sleepers, &type_id, &len, buffer, sizeof buffer, 20));
    CHECK(millis() - began >= 19 && it.sleepers.count == 0);
    CHECK(pthread_create(&thread, NULL, read_asleep, &it) == 0);
    for (uint32_t i = 0; i < COUNT; i++) {
        /* (now and then the reader falls asleep) */
        if (i % 50 == 0) await_sleep(&it.thread);
        EXPECT(FELTER_OK, felter_write_wait(&producer, 1, &i, sizeof i, -1));
        felter_wake(&it.sleepers);
    }
    pthread_join(thread, NULL);
    CHECK(it.read == COUNT && it.sleepers.count == 0 && it.sleepers.turn >= COUNT / 50);
    EXPECT(FELTER_OK, felter_board_new(256, &transmitter));
    EXPECT(FELTER_OK, felter_subscribe(&transmitter, &receiver));
    EXPECT(FELTER_NO_MESSAGE,
           felter_receive_asleep(&receiver, &it.sleepers, &type_id, &len, &lapped, buffer, sizeof buffer, 5));
    EXPECT(FELTER_OK, felter_transmit(&transmitter, 3, "x", 1));
    EXPECT(FELTER_OK,
           felter_receive_asleep(&receiver, &it.sleepers, &type_id, &len, &lapped, buffer, sizeof buffer, -1));
    felter_free(&producer.handle);
    felter_free(&it.consumer.handle);
    felter_free(&transmitter.handle);
    felter_free(&receiver.handle);
}

/* Pointers that are NULL. */
static void nulls(void) {
    felter_producer producer = FELTER_EMPTY;
    felter_consumer consumer = FELTER_EMPTY;
    felter_transmitter transmitter = FELTER_EMPTY;
    felter_receiver receiver = FELTER_EMPTY;
    felter_sleepers none = FELTER_NO_SLEEPERS;
    uint8_t buffer[32];
    uint64_t lapped;
    int32_t type_id;
    size_t len;
    felter_wake(NULL);
    EXPECT(FELTER_OK, felter_one_to_one_new(128, &producer, &consumer));
    EXPECT(FELTER_OK, felter_board_new(256, &transmitter));
    EXPECT(FELTER_OK, felter_subscribe(&transmitter, &receiver));
    EXPECT(FELTER_NO_HANDLE, felter_read_asleep(NULL, &none, &type_id, &len, buffer, sizeof buffer, -1));
    EXPECT(FELTER_NO_HANDLE, felter_read_asleep(NULL, NULL, &type_id, &len, buffer, sizeof buffer, -1));
    EXPECT(FELTER_NULL_POINTER, felter_read_asleep(&consumer, NULL, &type_id, &len, buffer, sizeof buffer, -1));
    EXPECT(FELTER_NULL_POINTER, felter_read_asleep(&consumer, &none, &type_id, NULL, buffer, sizeof buffer, -1));
    EXPECT(FELTER_NO_HANDLE, felter_receive_asleep(NULL, NULL, &type_id, &len, &lapped, buffer, sizeof buffer, -1));
    EXPECT(FELTER_NULL_POINTER,
           felter_receive_asleep(&receiver, NULL, &type_id, &len, &lapped, buffer, sizeof buffer, -1));
    EXPECT(FELTER_NULL_POINTER,
           felter_receive_asleep(&receiver, &none, &type_id, &len, NULL, buffer, sizeof buffer, -1));
    CHECK(none.count == 0 && none.turn == 0);
    felter_free(&producer.handle);
    felter_free(&consumer.handle);
    felter_free(&transmitter.handle);
    felter_free(&receiver.handle);
}

#define WAKES 100

/* A reader that sleeps for a message, then for a doorbell, and so on, and after how many nanoseconds it woke. */
struct woken {
    felter_consumer consumer;
    felter_sleepers sleepers;
    int bell, pauses;
    long thread;
    sem_t woke;
    int64_t rang, by_message[WAKES], by_bell[WAKES];
};

static void *be_woken(void *its) {
    struct woken *it = its;
    int32_t type_id;
    size_t len;
    int64_t wrote;
    __atomic_store_n(&it->thread, thread_id(), __ATOMIC_SEQ_CST);
    for (int i = 0; i < WAKES; i++) {
        EXPECT(FELTER_OK,
               felter_read_asleep(&it->consumer, &it->sleepers, &type_id, &len, &wrote, sizeof wrote, -1));
        it->by_message[i] = nanos() - wrote;
        sem_post(&it->woke);
        CHECK(felter_wait_doorbell(it->bell, -1) == 1);
        it->by_bell[i] = nanos() - __atomic_load_n(&it->rang, __ATOMIC_SEQ_CST);
        CHECK(felter_clear_doorbell(it->bell) == 1);
        sem_post(&it->woke);
    }
    it->pauses = paused;
    return its;
}

static int compare(const void *one, const void *other) {
    const int64_t *a = one, *b = other;
    return *a < *b ? -1 : *a > *b;
}

static int64_t median(int64_t *nanos_of) {
    qsort(nanos_of, WAKES, sizeof *nanos_of, compare);
    return nanos_of[WAKES / 2];
}

/* A reader sleeps once for each message. The sleep has no timeout, and the reader makes no pauses, so nothing but the
 * wake can have ended the sleep. The times are printed, and are not tested. */
static void wakes(void) {
    static struct woken it = {.bell = -1};
    felter_producer producer = FELTER_EMPTY;
    pthread_t thread;
    sleeps = timed_sleeps = 0;
    it.bell = felter_doorbell();
    CHECK(it.bell >= 0 && sem_init(&it.woke, 0, 0) == 0 && sem_init(&has_begun, 0, 0) == 0);
    EXPECT(FELTER_OK, felter_one_to_one_new(256, &producer, &it.consumer));
    CHECK(pthread_create(&thread, NULL, be_woken, &it) == 0);
    for (int i = 0; i < WAKES; i++) {
        CHECK(sem_wait(&has_begun) == 0);
        await_sleep(&it.thread);
        const int64_t began = nanos();
        EXPECT(FELTER_OK, felter_write(&producer, 1, &began, sizeof began));
        felter_wake(&it.sleepers);
        CHECK(sem_wait(&it.woke) == 0);
        await_sleep(&it.thread);
        __atomic_store_n(&it.rang, nanos(), __ATOMIC_SEQ_CST);
        CHECK(felter_ring_doorbell(it.bell) == 0 && sem_wait(&it.woke) == 0);
    }
    pthread_join(thread, NULL);
    CHECK(sleeps == WAKES && timed_sleeps == 0 && it.pauses == 0 && it.sleepers.turn == WAKES);
    printf("waiting: woken after %" PRId64 " us, by an eventfd after %" PRId64 " us, in the median of %d\n",
           median(it.by_message) / 1000, median(it.by_bell) / 1000, WAKES);
    CHECK(close(it.bell) == 0);
    felter_free(&producer.handle);
    felter_free(&it.consumer.handle);
}

static void waits(void) {
    felter_producer producer = FELTER_EMPTY;
    felter_consumer consumer = FELTER_EMPTY;
    pthread_t thread;
    uint8_t buffer[32];
    uint32_t value;
    int32_t type_id;
    size_t len;
    int64_t began = millis();
    EXPECT(FELTER_OK, felter_one_to_one_new(128, &producer, &consumer));
    EXPECT(FELTER_NO_MESSAGE, felter_read_wait(&consumer, &type_id, &len, buffer, sizeof buffer, 0));
    EXPECT(FELTER_NO_MESSAGE, felter_read_wait(&consumer, &type_id, &len, buffer, sizeof buffer, 20));
    while (felter_write(&producer, 1, buffer, 16) == FELTER_OK) continue;
    EXPECT(FELTER_INSUFFICIENT_CAPACITY, felter_write_wait(&producer, 1, buffer, 16, 20));
    EXPECT(FELTER_BAD_TYPE, felter_write_wait(&producer, 0, buffer, 16, -1));
    CHECK(millis() - began >= 38);
    while (felter_read(&consumer, &type_id, &len, buffer, sizeof buffer) == FELTER_OK) continue;

    bell = felter_doorbell();
    CHECK(bell >= 0 && felter_clear_doorbell(bell) == 0 && felter_wait_doorbell(bell, 5) == 0);
    CHECK(pthread_create(&thread, NULL, write_all, &producer) == 0);
    CHECK(felter_wait_doorbell(bell, -1) == 1 && felter_clear_doorbell(bell) == 1);
    for (uint32_t i = 0; i < COUNT; i++) {
        EXPECT(FELTER_OK, felter_read_wait(&consumer, &type_id, &len, &value, sizeof value, -1));
        CHECK(value == i && len == sizeof value);
    }
    pthread_join(thread, NULL);
    CHECK(close(bell) == 0);
    felter_free(&producer.handle);
    felter_free(&consumer.handle);
}

static void waits_of_boards(void) {
    felter_transmitter transmitter = FELTER_EMPTY;
    felter_receiver receiver = FELTER_EMPTY;
    uint8_t buffer[32];
    uint64_t lapped;
    int32_t type_id;
    size_t len;
    EXPECT(FELTER_OK, felter_board_new(256, &transmitter));
    EXPECT(FELTER_OK, felter_subscribe(&transmitter, &receiver));
    EXPECT(FELTER_NO_MESSAGE, felter_receive_wait(&receiver, &type_id, &len, &lapped, buffer, sizeof buffer, 5));
    EXPECT(FELTER_OK, felter_transmit(&transmitter, 3, "x", 1));
    EXPECT(FELTER_OK, felter_receive_wait(&receiver, &type_id, &len, &lapped, buffer, sizeof buffer, -1));
    CHECK(type_id == 3 && len == 1 && buffer[0] == 'x');
    felter_free(&transmitter.handle);
    felter_free(&receiver.handle);
}

int main(void) {
    pauses();
    nulls();
    wakes();
    sleepers();
    waits();
    waits_of_boards();
    return 0;
}
