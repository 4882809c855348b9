/* Two producers of a ring. A call of the first one is stopped after each of its instructions in turn, and the second
 * one then writes a message. So at some places the first one's try is refused as contended, and at the others it
 * succeeds. The consumer gets the messages of both, and nothing of a try that was refused. */
#define _GNU_SOURCE 1
#include "stepping.h"

#include <pthread.h>
#include <semaphore.h>

enum call { WRITE, CLAIM, BATCH, CALLS };

static felter_producer one = FELTER_EMPTY, two = FELTER_EMPTY;
static felter_consumer consumer = FELTER_EMPTY;
static sem_t go, done;
static int reads, is_over;
static uint32_t count[3]; /* the messages of both that were read, by their type ids */

/* Reads the next message, and returns 0 if there is none. */
static int read_one(void) {
    int32_t type_id = 0;
    size_t len = 99;
    int32_t code = felter_read(&consumer, &type_id, &len, NULL, 0);
    CHECK(code == FELTER_NO_MESSAGE || (code == FELTER_OK && len == 0 && (type_id == 1 || type_id == 2)));
    if (code == FELTER_OK) count[type_id]++;
    return code == FELTER_OK;
}

/* The thread of the second producer. With `reads` it also takes the next message out of the ring. Then the head may be
 * beyond the tail that the first producer has loaded. */
static void *intrude(void *unused) {
    for (;;) {
        while (sem_wait(&go)) continue;
        if (is_over) return unused;
        EXPECT(FELTER_OK, felter_write(&two, 2, NULL, 0));
        if (reads) read_one();
        sem_post(&done);
    }
}

/* Lets the second producer write. The first one waits meanwhile. */
static void let_intrude(void) {
    sem_post(&go);
    while (sem_wait(&done)) continue;
}

/* Makes a call of the first producer, and stops it after this many instructions. Returns how many messages it wrote. */
static uint32_t make(enum call call, uint64_t stop_at, int32_t *code) {
    static const felter_record records[2] = {{0, 1}, {0, 1}};
    uint64_t claim = 0;
    uint32_t written = 99;
    switch (call) {
    case WRITE:
        STEP(*code, felter_write(&one, 1, NULL, 0), stop_at);
        return *code == FELTER_OK;
    case CLAIM:
        STEP(*code, felter_claim(&one, 1, 0, &claim), stop_at);
        if (*code == FELTER_OK) EXPECT(FELTER_OK, felter_commit(&one, claim));
        return *code == FELTER_OK;
    default:
        STEP(*code, felter_write_batch(&one, records, sizeof records, &written), stop_at);
        CHECK(written == (*code == FELTER_OK ? 2 : 0));
        return written;
    }
}

/* Stops a call after this many instructions. Counts the calls that were contended, and those that were not. Returns 0
 * if the call has fewer instructions. */
static int meet(enum call call, uint64_t stop_at, int *contended, int *written) {
    uint64_t head = 99, tail = 99;
    uint32_t wrote;
    int32_t code = -1;
    memset(count, 0, sizeof count);
    EXPECT(FELTER_OK, felter_many_to_one_new(128, &one, &consumer));
    EXPECT(FELTER_OK, felter_split(&one, &two));
    wrote = make(call, stop_at, &code);
    CHECK(code == FELTER_OK || code == FELTER_CONTENDED);
    const int is_met = steps_made >= stop_at;
    CHECK(is_met || code == FELTER_OK);
    *contended += code == FELTER_CONTENDED;
    *written += is_met && code == FELTER_OK;
    EXPECT(FELTER_OK, felter_positions(&one, &head, &tail));
    CHECK(tail == 8 * (wrote + (uint64_t)is_met));
    while (read_one()) continue;
    CHECK(count[1] == wrote && count[2] == (uint32_t)is_met);
    felter_free(&one.handle);
    felter_free(&two.handle);
    felter_free(&consumer.handle);
    return is_met;
}

int main(void) {
    static const char *const names[CALLS] = {"write", "claim", "batch"};
    pthread_t thread;
    CHECK(sem_init(&go, 0, 0) == 0 && sem_init(&done, 0, 0) == 0);
    prepare_steps();
    steps_hook = let_intrude;
    CHECK(pthread_create(&thread, NULL, intrude, NULL) == 0);
    for (reads = 0; reads < 2; reads++) {
        for (enum call call = WRITE; call < CALLS; call++) {
            int contended = 0, written = 0;
            for (uint64_t stop_at = 1; meet(call, stop_at, &contended, &written); stop_at++) continue;
            printf("contended: %s: at %d of %d places\n", names[call], contended, contended + written);
            /* (a batch tries once more, so another producer has to be faster twice) */
            CHECK(written > 0 && (contended > 0) == (call != BATCH));
        }
    }
    is_over = 1;
    sem_post(&go);
    CHECK(pthread_join(thread, NULL) == 0);
    return 0;
}
