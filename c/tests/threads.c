/* Producers and a consumer on threads: threads PRODUCERS CAPACITY MESSAGES.
 *
 * Each producer writes its messages in turn by the three ways there are: in one call, by a claim that is filled in two
 * parts, and by a claim that is aborted first. The consumer compares each message whole, in the order of its producer.
 * A one-to-one ring is taken where PRODUCERS is 0. */
#include "check.h"

#include <pthread.h>

#define MOST 8

struct job {
    felter_producer producer;
    uint32_t id;
    uint32_t count;
    size_t most;
    uint64_t contended;
    int tries;
};

/* The n-th message of a producer: its id and number, and then bytes that follow from both. */
static size_t message_of(uint32_t id, uint32_t n, size_t most, uint8_t *body) {
    size_t len = 8 + (size_t)(n * 7 + id) % (most - 7);
    memcpy(body, &id, 4);
    memcpy(body + 4, &n, 4);
    for (size_t i = 8; i < len; i++) body[i] = (uint8_t)(n * 31 + id * 17 + i * 5);
    return len;
}

/* Whether to try again. */
static int again(struct job *job, int32_t code) {
    CHECK(code == FELTER_OK || code == FELTER_CONTENDED || code == FELTER_INSUFFICIENT_CAPACITY);
    if (code == FELTER_OK) job->tries = 0;
    if (code == FELTER_CONTENDED) job->contended++;
    if (code == FELTER_INSUFFICIENT_CAPACITY) rest(&job->tries);
    return code != FELTER_OK;
}

static uint64_t claim(struct job *job, int32_t type_id, size_t len) {
    uint64_t number = 0;
    while (again(job, felter_claim(&job->producer, type_id, len, &number))) {
    }
    return number;
}

static void *produce(void *its) {
    struct job *job = its;
    uint8_t body[512];
    int32_t type_id = 1 + (int32_t)job->id;
    for (uint32_t n = 0; n < job->count; n++) {
        size_t len = message_of(job->id, n, job->most, body);
        if (n % 3 == 0) {
            while (again(job, felter_write(&job->producer, type_id, body, len))) {
            }
            continue;
        }
        if (n % 3 == 1) EXPECT(FELTER_OK, felter_abort(&job->producer, claim(job, type_id, len / 2)));
        uint64_t number = claim(job, type_id, len);
        EXPECT(FELTER_OK, felter_put(&job->producer, number, 5, body + 5, len - 5));
        EXPECT(FELTER_OK, felter_put(&job->producer, number, 0, body, 5));
        EXPECT(FELTER_OK, felter_commit(&job->producer, number));
    }
    return NULL;
}

struct seen {
    uint32_t next[MOST];
    uint64_t messages;
};

static void look(struct seen *seen, uint32_t producers, size_t most, int32_t type_id, const uint8_t *body, size_t len) {
    uint8_t wanted[512];
    uint32_t id = (uint32_t)type_id - 1;
    CHECK(id < producers);
    CHECK(len == message_of(id, seen->next[id], most, wanted));
    CHECK(memcmp(body, wanted, len) == 0);
    seen->next[id]++;
    seen->messages++;
}

int main(int argc, char **argv) {
    CHECK(argc == 4);
    int one_to_one = atoi(argv[1]) == 0;
    uint32_t producers = one_to_one ? 1 : (uint32_t)atoi(argv[1]), capacity = (uint32_t)atoi(argv[2]);
    uint64_t each = strtoull(argv[3], NULL, 10) / producers, wanted = each * producers;
    size_t most = capacity / 8 < 300 ? capacity / 8 : 300;
    static struct job jobs[MOST];
    static struct seen seen;
    static uint8_t buffer[512];
    felter_consumer consumer = FELTER_EMPTY;
    pthread_t threads[MOST];
    int tries = 0;
    CHECK(producers <= MOST);
    if (one_to_one) EXPECT(FELTER_OK, felter_one_to_one_new(capacity, &jobs[0].producer, &consumer));
    else EXPECT(FELTER_OK, felter_many_to_one_new(capacity, &jobs[0].producer, &consumer));
    for (uint32_t i = 0; i < producers; i++) {
        if (i > 0) EXPECT(FELTER_OK, felter_split(&jobs[0].producer, &jobs[i].producer));
        jobs[i].id = i;
        jobs[i].count = (uint32_t)each;
        jobs[i].most = most;
    }
    for (uint32_t i = 0; i < producers; i++) CHECK(pthread_create(&threads[i], NULL, produce, &jobs[i]) == 0);
    while (seen.messages < wanted) {
        size_t len = 0;
        int32_t type_id = 0;
        int32_t code = felter_read(&consumer, &type_id, &len, buffer, sizeof buffer);
        CHECK(code == FELTER_OK || code == FELTER_NO_MESSAGE);
        if (code != FELTER_OK) {
            rest(&tries);
            continue;
        }
        look(&seen, producers, most, type_id, buffer, len);
        tries = 0;
    }
    uint64_t contended = 0;
    for (uint32_t i = 0; i < producers; i++) {
        CHECK(pthread_join(threads[i], NULL) == 0);
        CHECK(seen.next[i] == each);
        contended += jobs[i].contended;
        if (i > 0) EXPECT(FELTER_OK, felter_join(&jobs[0].producer, &jobs[i].producer));
    }
    CHECK(producers > 1 || contended == 0);
    size_t len;
    int32_t type_id;
    EXPECT(FELTER_NO_MESSAGE, felter_read(&consumer, &type_id, &len, buffer, sizeof buffer));
    felter_free(&jobs[0].producer.handle);
    felter_free(&consumer.handle);
    printf("threads: %u producers, %u bytes, %" PRIu64 " messages whole and in order; contended %" PRIu64 "\n",
           producers, capacity, seen.messages, contended);
    return 0;
}
