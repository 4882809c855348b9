/* A program for tests/show to look into. With an argument it has
 *
 *   - a ring of 65,536 bytes into which three threads write as fast as they can, and from which one reads
 *
 * and without one
 *
 *   - a ring of 1,024 bytes whose consumer is blocked by a claim that stays open
 *   - a ring of 4,096 bytes through which messages of 72 bytes go until standard input ends
 *   - a ring of 256 bytes that was never used
 *   - a broadcast buffer of 2,048 bytes with three messages, and four counters of which two are in use, with values
 *   - a ring of 16,777,216 bytes whose positions change all the time, since a thread passes messages through it
 *
 * It prints its number once all are there. */
#include <poll.h>
#include <pthread.h>
#include <stdatomic.h>
#include <stdio.h>
#include <string.h>
#include <unistd.h>

#include "felter.h"

static felter_producer blocked = FELTER_EMPTY, busy = FELTER_EMPTY, restless = FELTER_EMPTY, unused = FELTER_EMPTY;
static felter_consumer blocked_reader = FELTER_EMPTY, busy_reader = FELTER_EMPTY, restless_reader = FELTER_EMPTY,
                       unused_reader = FELTER_EMPTY;
static felter_transmitter board = FELTER_EMPTY;
static felter_counters counters = FELTER_EMPTY;
static atomic_int is_over;

static int make_rings(void) {
    uint64_t claim;
    return felter_many_to_one_new(1024, &blocked, &blocked_reader) == FELTER_OK &&
           felter_one_to_one_new(4096, &busy, &busy_reader) == FELTER_OK &&
           felter_one_to_one_new(1 << 24, &restless, &restless_reader) == FELTER_OK &&
           felter_one_to_one_new(256, &unused, &unused_reader) == FELTER_OK &&
           felter_write(&busy, 7, (const uint8_t *)"first", 5) == FELTER_OK &&
           felter_write(&blocked, 3, (const uint8_t *)"shown", 5) == FELTER_OK &&
           felter_claim(&blocked, 5, 20, &claim) == FELTER_OK &&
           felter_write(&blocked, 6, (const uint8_t *)"waits", 5) == FELTER_OK;
}

static int make_others(void) {
    uint32_t id;
    if (felter_board_new(2048, &board) != FELTER_OK) return 0;
    for (int32_t type_id = 1; type_id <= 3; type_id++) {
        if (felter_transmit(&board, type_id, "transmitted", 11) != FELTER_OK) return 0;
    }
    return felter_counters_new(4, 0, &counters) == FELTER_OK &&
           felter_counter_allocate(&counters, 0, 1, "", 0, "messages sent", 13, 0, &id) == FELTER_OK &&
           felter_counter_allocate(&counters, 0, 2, "", 0, "bytes on disk", 13, 0, &id) == FELTER_OK &&
           felter_counter_set(&counters, 0, 1234) == FELTER_OK && felter_counter_set(&counters, 1, -5) == FELTER_OK;
}

/* Writes a message and reads it, again and again. */
static void *pass(void *result) {
    uint8_t body[8] = {1}, buffer[512];
    int32_t type_id;
    size_t len;
    while (!atomic_load(&is_over)) {
        if (felter_write(&restless, 9, body, sizeof body) != FELTER_OK) *(int *)result = 1;
        while (felter_read(&restless_reader, &type_id, &len, buffer, sizeof buffer) == FELTER_OK)
            ;
    }
    return NULL;
}

static int has_ended(int milliseconds) {
    struct pollfd input = {.fd = 0, .events = POLLIN};
    char byte;
    return poll(&input, 1, milliseconds) > 0 && read(0, &byte, 1) <= 0;
}

#define PRODUCERS 3

/* Writes messages as fast as it can. */
static void *produce(void *producer) {
    uint8_t body[24] = {2};
    while (!atomic_load(&is_over)) {
        int32_t code = felter_write(producer, 7, body, sizeof body);
        if (code != FELTER_OK && code != FELTER_CONTENDED && code != FELTER_INSUFFICIENT_CAPACITY) break;
    }
    return NULL;
}

/* Runs three producers and a consumer until standard input ends. */
static int run_busy(void) {
    felter_producer producers[PRODUCERS] = {FELTER_EMPTY, FELTER_EMPTY, FELTER_EMPTY};
    pthread_t threads[PRODUCERS];
    uint8_t buffer[8192];
    int32_t type_id;
    size_t len;
    if (felter_many_to_one_new(65536, &producers[0], &busy_reader) != FELTER_OK) return 1;
    for (int k = 1; k < PRODUCERS; k++) {
        if (felter_split(&producers[0], &producers[k]) != FELTER_OK) return 1;
    }
    for (int k = 0; k < PRODUCERS; k++) {
        if (pthread_create(&threads[k], NULL, produce, &producers[k])) return 1;
    }
    printf("%ld\n", (long)getpid());
    fflush(stdout);
    while (!has_ended(0)) {
        for (int k = 0; k < 4096; k++) {
            int32_t code = felter_read(&busy_reader, &type_id, &len, buffer, sizeof buffer);
            if (code != FELTER_OK && code != FELTER_NO_MESSAGE) return 3;
        }
    }
    atomic_store(&is_over, 1);
    for (int k = 0; k < PRODUCERS; k++) {
        pthread_join(threads[k], NULL);
        felter_free(&producers[k].handle);
    }
    felter_free(&busy_reader.handle);
    return 0;
}

int main(int count, char **arguments) {
    (void)arguments;
    if (count > 1) return run_busy();
    uint8_t body[64] = {1}, buffer[512];
    int32_t type_id;
    size_t len;
    pthread_t thread;
    int is_wrong = 0;
    if (!make_rings() || !make_others() || pthread_create(&thread, NULL, pass, &is_wrong)) return 1;
    printf("%ld\n", (long)getpid());
    fflush(stdout);
    while (!has_ended(1)) {
        if (felter_write(&busy, 7, body, sizeof body) != FELTER_OK) return 2;
        while (felter_read(&busy_reader, &type_id, &len, buffer, sizeof buffer) == FELTER_OK)
            ;
        /* (one message stays, so that the ring is never empty) */
        if (felter_write(&busy, 7, body, sizeof body) != FELTER_OK) return 2;
    }
    atomic_store(&is_over, 1);
    pthread_join(thread, NULL);
    felter_free(&blocked.handle);
    felter_free(&blocked_reader.handle);
    felter_free(&busy.handle);
    felter_free(&busy_reader.handle);
    felter_free(&restless.handle);
    felter_free(&restless_reader.handle);
    felter_free(&unused.handle);
    felter_free(&unused_reader.handle);
    felter_free(&board.handle);
    felter_free(&counters.handle);
    return is_wrong;
}
