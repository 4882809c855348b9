/* Records a storm of claims on a ring of felter.h: claims CAPACITY PRODUCERS CLAIMS SEED FILE. With one producer the
 * ring is a one-to-one ring. Each producer makes CLAIMS claims, up to four of them open at once, and commits or aborts
 * them in any order. A message of eight bytes or more begins with the position of its claim. After the threads have
 * ended, some runs get more claims, of which one stays open. */
#include "felter.h"
#include "ring_record.h"

#include <pthread.h>
#include <sched.h>
#include <stdatomic.h>
#include <string.h>

#define MOST 64
/* The most bytes of a message here, and the most claims that a producer has open. */
#define LONGEST 8192
#define OPEN 4
/* The most refusals that are noted before a claim. */
#define NOTED 3

struct claim {
    uint64_t place, sum;
};

struct worker {
    felter_producer producer;
    ring_record_log log;
    struct claim open[OPEN];
    uint64_t claims, random;
    uint32_t longest, count;
    uint16_t id;
    int failed;
};

static struct worker workers[MOST];
static felter_consumer consumer = FELTER_EMPTY;
static ring_record_log shown = RING_RECORD_EMPTY;
static atomic_int ended;
static uint64_t seed;

/* The next number of a generator (xorshift). */
static uint64_t next_random(uint64_t *state) {
    *state ^= *state << 13;
    *state ^= *state >> 7;
    *state ^= *state << 17;
    return *state;
}

/* Commits or aborts one of the open claims. */
static int settle(struct worker *it) {
    uint32_t at = (uint32_t)(next_random(&it->random) % it->count);
    struct claim claim = it->open[at];
    it->open[at] = it->open[--it->count];
    if (next_random(&it->random) % 4 == 0) {
        ring_record_aborted(&it->log, claim.place);
        return felter_abort(&it->producer, claim.place) == FELTER_OK;
    }
    ring_record_committed(&it->log, claim.place, claim.sum);
    return felter_commit(&it->producer, claim.place) == FELTER_OK;
}

/* Fills the claim at this place with bytes, and keeps it open. */
static int fill(struct worker *it, uint64_t place, uint32_t length) {
    unsigned char body[LONGEST];
    for (uint32_t i = 0; i < length; i++) body[i] = (unsigned char)next_random(&it->random);
    if (length >= sizeof place) memcpy(body, &place, sizeof place);
    it->open[it->count].place = place;
    it->open[it->count++].sum = ring_record_sum(body, length);
    return felter_put(&it->producer, place, 0, body, length) == FELTER_OK;
}

/* Makes a claim. While there is no room, settles its open claims one after another. */
static int claim_once(struct worker *it) {
    uint32_t length = (uint32_t)(next_random(&it->random) % (it->longest + 1));
    int32_t type_id = (int32_t)(1 + next_random(&it->random) % 9);
    for (int tried = 0;; tried++) {
        uint64_t place;
        int32_t code = felter_claim(&it->producer, type_id, length, &place);
        if (code == FELTER_OK) {
            ring_record_claimed(&it->log, it->id, place, type_id, length);
            return fill(it, place, length);
        }
        if (code == FELTER_INSUFFICIENT_CAPACITY) {
            if (tried < NOTED) ring_record_full(&it->log, it->id, length);
        } else if (code != FELTER_CONTENDED) {
            return 0;
        }
        if (it->count > 0 && !settle(it)) return 0;
        sched_yield();
    }
}

static int settle_all(struct worker *it) {
    while (it->count > 0)
        if (!settle(it)) return 0;
    return 1;
}

static void *send(void *its) {
    struct worker *it = its;
    int is_right = 1;
    for (uint64_t number = 0; is_right && number < it->claims; number++) {
        is_right = claim_once(it);
        while (is_right && (it->count == OPEN || (it->count > 0 && next_random(&it->random) % 2 == 0)))
            is_right = settle(it);
    }
    it->failed = !is_right || !settle_all(it);
    atomic_fetch_add(&ended, 1);
    return NULL;
}

/* Reads one message, and notes it. Returns a code. */
static int32_t read_one(void) {
    static unsigned char body[1 << 16];
    int32_t type_id;
    size_t length;
    uint64_t place = RING_RECORD_NO_PLACE;
    int32_t code = felter_read(&consumer, &type_id, &length, body, sizeof body);
    if (code != FELTER_OK) return code;
    if (length >= sizeof place) memcpy(&place, body, sizeof place);
    ring_record_shown(&shown, place, type_id, (uint32_t)length, ring_record_sum(body, length));
    return FELTER_OK;
}

static int read_all(int producers) {
    for (;;) {
        int is_last = atomic_load(&ended) >= producers;
        int32_t code = read_one();
        if (code != FELTER_OK && code != FELTER_NO_MESSAGE) return 1;
        if (code == FELTER_NO_MESSAGE && is_last) return 0;
        if (code == FELTER_NO_MESSAGE) sched_yield();
    }
}

static int start(int producers, uint32_t capacity, uint64_t first, uint64_t claims, pthread_t *threads) {
    int32_t code = producers == 1 ? felter_one_to_one_new_at(capacity, first, &workers[0].producer, &consumer)
                                  : felter_many_to_one_new_at(capacity, first, &workers[0].producer, &consumer);
    for (int i = 1; code == FELTER_OK && i < producers; i++)
        code = felter_split(&workers[0].producer, &workers[i].producer);
    if (code != FELTER_OK) return 1;
    for (int i = 0; i < producers; i++) {
        workers[i].claims = claims;
        workers[i].longest = capacity / 8 < LONGEST ? capacity / 8 : LONGEST;
        workers[i].id = (uint16_t)i;
        workers[i].random = seed * 1000003 + (uint64_t)i + 1;
        if (pthread_create(&threads[i], NULL, send, &workers[i]) != 0) return 1;
    }
    return 0;
}

/* Makes claims of the first producer after all threads have ended, and leaves the first of them open. */
static int leave_one_open(void) {
    struct worker *it = &workers[0];
    if (!claim_once(it)) return 0;
    it->count = 0;
    for (int more = 0; more < 2; more++)
        if (!claim_once(it) || !settle_all(it)) return 0;
    return 1;
}

int main(int count, char **words) {
    if (count != 6) return fprintf(stderr, "usage: claims CAPACITY PRODUCERS CLAIMS SEED FILE\n"), 2;
    uint32_t capacity = (uint32_t)strtoul(words[1], NULL, 10);
    int producers = atoi(words[2]);
    uint64_t claims = strtoull(words[3], NULL, 10);
    seed = strtoull(words[4], NULL, 10) + 1;
    uint64_t first = seed % 3 == 0 ? (UINT64_C(1) << 40) : seed % 3 * capacity, head, tail;
    if (producers < 1 || producers > MOST) return 2;
    pthread_t threads[MOST];
    ring_record_log logs[MOST + 1];
    if (start(producers, capacity, first, claims, threads) != 0) return 3;
    int failed = read_all(producers);
    for (int i = 0; i < producers; i++) {
        pthread_join(threads[i], NULL);
        failed |= workers[i].failed;
    }
    if (seed % 2 == 0 && !leave_one_open()) failed = 1;
    failed |= read_all(0);
    ring_record_nothing(&shown);
    if (felter_positions(&workers[0].producer, &head, &tail) != FELTER_OK) failed = 1;
    ring_record_positions(&shown, head, tail);
    for (int i = 0; i < producers; i++) {
        logs[i] = workers[i].log;
        felter_free(&workers[i].producer.handle);
    }
    logs[producers] = shown;
    felter_free(&consumer.handle);
    FILE *file = fopen(words[5], "w");
    if (file == NULL || ring_record_write_ring(file, capacity, first, logs, (size_t)producers + 1) != 0 ||
        fclose(file) != 0)
        failed = 1;
    return failed ? 3 : 0;
}
