/* Records a storm on a broadcast buffer of felter.h: broadcast CAPACITY RECEIVERS MESSAGES SEED FILE. The transmitter
 * makes MESSAGES messages of random lengths, and pauses now and then. Receivers subscribe one after another, from
 * before the first message on. Each second one is a raw receiver. */
#include "felter.h"
#include "ring_record.h"

#include <pthread.h>
#include <sched.h>
#include <stdatomic.h>
#include <string.h>

#define MOST 64
/* The most bytes of a message. */
#define LONGEST 8192

struct receiver {
    felter_receiver copying;
    felter_raw_receiver raw;
    ring_record_log log;
    pthread_t thread;
    /* How many calls of the raw receiver reported a lap. */
    uint64_t laps;
    uint16_t id;
    int is_raw, failed;
};

static struct receiver receivers[MOST];
static felter_transmitter transmitter = FELTER_EMPTY;
static ring_record_log transmitted = RING_RECORD_EMPTY;
static atomic_int has_ended;

/* The next number of a generator (xorshift). */
static uint64_t next_random(uint64_t *state) {
    *state ^= *state << 13;
    *state ^= *state >> 7;
    *state ^= *state << 17;
    return *state;
}

/* Notes a copy. A message begins with its number. */
static void note(struct receiver *it, const unsigned char *body, size_t length) {
    uint64_t number = UINT64_MAX;
    if (length >= 8) memcpy(&number, body, 8);
    ring_record_received(&it->log, it->id, number, ring_record_sum(body, length));
}

static int32_t receive_copy(struct receiver *it, unsigned char *room) {
    int32_t type_id;
    size_t length;
    uint64_t lapped;
    int32_t code = felter_receive(&it->copying, &type_id, &length, &lapped, room, LONGEST);
    if (code == FELTER_OK) note(it, room, length);
    if (code == FELTER_LAPPED) ring_record_lapped(&it->log, it->id, lapped);
    return code;
}

/* A copy of a raw receiver counts only if its record was not overwritten meanwhile. */
static int32_t receive_raw(struct receiver *it, unsigned char *room) {
    int32_t type_id;
    size_t length;
    uint64_t lapped;
    int32_t code = felter_receive_next(&it->raw, &type_id, &length, &lapped);
    if (code == FELTER_OK) code = felter_load_body(&it->raw, room, LONGEST);
    if (code == FELTER_OK) code = felter_validate(&it->raw);
    if (code == FELTER_OK) note(it, room, length);
    if (code == FELTER_LAPPED) ring_record_lapped(&it->log, it->id, ++it->laps);
    return code;
}

static void *receive(void *its) {
    struct receiver *it = its;
    _Alignas(8) unsigned char room[LONGEST];
    for (;;) {
        int is_last = atomic_load(&has_ended);
        int32_t code = it->is_raw ? receive_raw(it, room) : receive_copy(it, room);
        if (code == FELTER_NO_MESSAGE && is_last) {
            ring_record_caught_up(&it->log, it->id);
            return NULL;
        }
        if (code == FELTER_NO_MESSAGE) sched_yield();
        if (code != FELTER_OK && code != FELTER_LAPPED && code != FELTER_NO_MESSAGE) {
            it->failed = 1;
            return NULL;
        }
    }
}

static int32_t subscribe(struct receiver *it) {
    return it->is_raw ? felter_subscribe_raw(&transmitter, &it->raw) : felter_subscribe(&transmitter, &it->copying);
}

static int32_t join(struct receiver *it) {
    return it->is_raw ? felter_board_join_raw(&transmitter, &it->raw) : felter_board_join(&transmitter, &it->copying);
}

static int start(uint16_t id) {
    struct receiver *it = &receivers[id];
    it->id = id;
    it->is_raw = id % 2;
    return subscribe(it) != FELTER_OK || pthread_create(&it->thread, NULL, receive, it) != 0;
}

/* Transmits all messages, and starts the receivers. Returns 1 if a call failed. */
static int transmit_all(uint32_t capacity, int count, uint64_t messages, uint64_t random) {
    unsigned char body[LONGEST];
    size_t longest = capacity / 8 < LONGEST ? capacity / 8 : LONGEST;
    int started = 0;
    for (uint64_t number = 0; number < messages; number++) {
        for (; started < count && number >= messages / 2 * (uint64_t)started / (uint64_t)count; started++)
            if (start((uint16_t)started) != 0) return 1;
        size_t length = 8 + (size_t)(next_random(&random) % (longest - 7));
        memcpy(body, &number, 8);
        for (size_t i = 8; i < length; i++) body[i] = (unsigned char)next_random(&random);
        if (felter_transmit(&transmitter, 7, body, length) != FELTER_OK) return 1;
        ring_record_transmitted(&transmitted, number, ring_record_sum(body, length));
        if (next_random(&random) % 4 == 0) sched_yield();
    }
    return 0;
}

int main(int count, char **words) {
    if (count != 6) return fprintf(stderr, "usage: broadcast CAPACITY RECEIVERS MESSAGES SEED FILE\n"), 2;
    uint32_t capacity = (uint32_t)strtoul(words[1], NULL, 10);
    int receiving = atoi(words[2]);
    uint64_t messages = strtoull(words[3], NULL, 10);
    uint64_t seed = strtoull(words[4], NULL, 10) * 1000003 + 1;
    if (receiving < 1 || receiving > MOST || messages < 2) return 2;
    if (felter_board_new(capacity, &transmitter) != FELTER_OK) return 3;
    if (transmit_all(capacity, receiving, messages, seed) != 0) return 3;
    atomic_store(&has_ended, 1);
    int failed = 0;
    ring_record_log logs[MOST + 1];
    logs[0] = transmitted;
    for (int i = 0; i < receiving; i++) {
        pthread_join(receivers[i].thread, NULL);
        failed |= receivers[i].failed;
        logs[i + 1] = receivers[i].log;
        failed |= join(&receivers[i]) != FELTER_OK;
    }
    uint64_t tail;
    failed |= felter_board_close(&transmitter, &tail) != FELTER_OK;
    FILE *file = fopen(words[5], "w");
    if (file == NULL || ring_record_write_broadcast(file, logs, (size_t)receiving + 1) != 0 || fclose(file) != 0)
        failed = 1;
    return failed ? 3 : 0;
}
