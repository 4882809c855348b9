/* Records a storm on a ring of felter.h: storm CAPACITY PRODUCERS MESSAGES SEED FILE. With one producer the ring is a
 * one-to-one ring. Each producer makes MESSAGES calls, by writes, by claims that are committed, and by claims that are
 * aborted, with bodies of random lengths; the consumer reads one message or a batch at a time. */
#include "felter.h"
#include "ring_record.h"

#include <pthread.h>
#include <sched.h>
#include <stdatomic.h>
#include <string.h>

#define MOST 64
/* The most bytes of a message here. */
#define LONGEST 8192

struct worker {
    felter_producer producer;
    ring_record_log log;
    uint64_t messages, random, longest;
    uint16_t id;
    int failed;
};

static struct worker workers[MOST];
static felter_consumer consumer = FELTER_EMPTY;
static ring_record_log shown = RING_RECORD_EMPTY;
static atomic_int ended;
static uint64_t seed;

/* The next number of a generator (xorshift). */
static uint64_t next_random(uint64_t *state) {
    *state ^= *state << 13;
    *state ^= *state >> 7;
    *state ^= *state << 17;
    return *state;
}

/* Makes the message of a producer with this number: it names both, and other bytes follow. Returns its length. */
static size_t make(struct worker *it, uint64_t number, unsigned char *body) {
    size_t length = 10 + (size_t)(next_random(&it->random) % (it->longest - 9));
    memcpy(body, &it->id, 2);
    memcpy(body + 2, &number, 8);
    for (size_t i = 10; i < length; i++) body[i] = (unsigned char)next_random(&it->random);
    return length;
}

/* One try of a call: a write, or a claim that is filled in two parts and settled. */
static int32_t try_once(struct worker *it, uint64_t how, const unsigned char *body, size_t length) {
    uint64_t claim;
    if (how < 2) return felter_write(&it->producer, 7, body, length);
    int32_t code = felter_claim(&it->producer, 7, length, &claim);
    if (code != FELTER_OK) return code;
    size_t half = length / 2;
    if (felter_put(&it->producer, claim, 0, body, half) != FELTER_OK ||
        felter_put(&it->producer, claim, half, body + half, length - half) != FELTER_OK)
        return -1;
    return how == 2 ? felter_commit(&it->producer, claim) : felter_abort(&it->producer, claim);
}

static void *send(void *its) {
    struct worker *it = its;
    unsigned char body[LONGEST];
    for (uint64_t number = 0; number < it->messages; number++) {
        size_t length = make(it, number, body);
        uint64_t how = next_random(&it->random) % 4, sum = ring_record_sum(body, length);
        int is_noted = 0;
        for (;;) {
            int32_t code = try_once(it, how, body, length);
            if (code == FELTER_OK) break;
            if (code != FELTER_INSUFFICIENT_CAPACITY && code != FELTER_CONTENDED) {
                it->failed = 1;
                atomic_fetch_add(&ended, 1);
                return NULL;
            }
            if (!is_noted) ring_record_refused(&it->log, it->id, number, sum);
            is_noted = 1;
            sched_yield();
        }
        if (how == 3)
            ring_record_refused(&it->log, it->id, number, sum);
        else
            ring_record_sent(&it->log, it->id, number, sum);
    }
    atomic_fetch_add(&ended, 1);
    return NULL;
}

/* Notes a message that was shown. */
static void note(const unsigned char *body, size_t length) {
    uint16_t id = UINT16_MAX;
    uint64_t number = UINT64_MAX;
    if (length >= 10) {
        memcpy(&id, body, 2);
        memcpy(&number, body + 2, 8);
    }
    ring_record_got(&shown, id, number, ring_record_sum(body, length));
}

/* Reads one message, or a batch. Returns a code. */
static int32_t read_some(uint64_t how) {
    static _Alignas(8) unsigned char room[1 << 16];
    if (how == 0) {
        int32_t type_id;
        size_t length;
        int32_t code = felter_read(&consumer, &type_id, &length, room, sizeof room);
        if (code == FELTER_OK) note(room, length);
        return code;
    }
    uint32_t count;
    size_t used;
    int32_t code = felter_read_batch(&consumer, 16, &count, &used, room, sizeof room);
    for (size_t at = 0; code == FELTER_OK && at < used;) {
        felter_record record;
        memcpy(&record, room + at, sizeof record);
        note(room + at + sizeof record, record.len);
        at += FELTER_SPAN(record.len);
    }
    return code;
}

static int read_all(int producers) {
    uint64_t random = seed ^ UINT64_C(0x9e3779b97f4a7c15);
    for (;;) {
        int is_last = atomic_load(&ended) == producers;
        int32_t code = read_some(next_random(&random) % 2);
        if (code != FELTER_OK && code != FELTER_NO_MESSAGE) return 1;
        if (code == FELTER_NO_MESSAGE && is_last) {
            ring_record_nothing(&shown);
            return 0;
        }
        if (code == FELTER_NO_MESSAGE) sched_yield();
    }
}

static int start(int producers, uint32_t capacity, uint64_t messages, pthread_t *threads) {
    int32_t code = producers == 1 ? felter_one_to_one_new(capacity, &workers[0].producer, &consumer)
                                  : felter_many_to_one_new(capacity, &workers[0].producer, &consumer);
    for (int i = 1; code == FELTER_OK && i < producers; i++)
        code = felter_split(&workers[0].producer, &workers[i].producer);
    if (code != FELTER_OK) return 1;
    for (int i = 0; i < producers; i++) {
        workers[i].messages = messages;
        workers[i].longest = capacity / 8 < LONGEST ? capacity / 8 : LONGEST;
        workers[i].id = (uint16_t)i;
        workers[i].random = seed * 1000003 + (uint64_t)i + 1;
        if (pthread_create(&threads[i], NULL, send, &workers[i]) != 0) return 1;
    }
    return 0;
}

int main(int count, char **words) {
    if (count != 6) return fprintf(stderr, "usage: storm CAPACITY PRODUCERS MESSAGES SEED FILE\n"), 2;
    uint32_t capacity = (uint32_t)strtoul(words[1], NULL, 10);
    int producers = atoi(words[2]);
    uint64_t messages = strtoull(words[3], NULL, 10);
    seed = strtoull(words[4], NULL, 10) + 1;
    if (producers < 1 || producers > MOST) return 2;
    pthread_t threads[MOST];
    ring_record_log logs[MOST + 1];
    if (start(producers, capacity, messages, threads) != 0) return 3;
    int failed = read_all(producers);
    for (int i = 0; i < producers; i++) {
        pthread_join(threads[i], NULL);
        failed |= workers[i].failed;
        logs[i] = workers[i].log;
        felter_free(&workers[i].producer.handle);
    }
    logs[producers] = shown;
    felter_free(&consumer.handle);
    FILE *file = fopen(words[5], "w");
    if (file == NULL || ring_record_write(file, logs, (size_t)producers + 1) != 0 || fclose(file) != 0) failed = 1;
    return failed ? 3 : 0;
}
