/* Many claims that are open at the same time: a call puts or settles one of them by about as many instructions as if
 * few were open. Instructions are counted, and not time, so it does not matter how fast or how busy the machine is. */
#define _GNU_SOURCE 1
#include "stepping.h"

enum { FEW = 1000, MANY = 100000, SAMPLES = 250 };

static uint64_t numbers[MANY];
static uint32_t order[MANY];

static uint64_t next_random(void) {
    static uint64_t state = 88172645463325252u;
    state ^= state << 13;
    state ^= state >> 7;
    state ^= state << 17;
    return state;
}

enum kind { OLDEST_FIRST, YOUNGEST_FIRST, RANDOM };

static void put_in_order(enum kind kind, uint32_t count) {
    uint32_t i;
    for (i = 0; i < count; i++) order[i] = kind == YOUNGEST_FIRST ? count - 1 - i : i;
    if (kind != RANDOM) return;
    for (i = count - 1; i > 0; i--) {
        uint32_t other = (uint32_t)(next_random() % (i + 1)), kept = order[i];
        order[i] = order[other];
        order[other] = kept;
    }
}

/* Opens this many claims, each with its own index as type id, by producers in turn that are then joined. */
static void open_claims(felter_producer *producer, uint32_t producers, uint32_t count) {
    felter_producer others[4] = {FELTER_EMPTY, FELTER_EMPTY, FELTER_EMPTY, FELTER_EMPTY};
    uint32_t i;
    for (i = 1; i < producers; i++) EXPECT(FELTER_OK, felter_split(producer, &others[i]));
    for (i = 0; i < count; i++) {
        felter_producer *one = i % producers == 0 ? producer : &others[i % producers];
        EXPECT(FELTER_OK, felter_claim(one, (int32_t)i + 1, 8, &numbers[i]));
    }
    for (i = 1; i < producers; i++) EXPECT(FELTER_OK, felter_join(producer, &others[i]));
}

/* Puts and settles the claim of an index. Every seventh is aborted. */
static void settle(felter_producer *producer, uint32_t index) {
    uint64_t number = numbers[index], body = index;
    EXPECT(FELTER_OK, felter_put(producer, number, 0, &body, sizeof body));
    if (index % 7 == 3) EXPECT(FELTER_OK, felter_abort(producer, number));
    else EXPECT(FELTER_OK, felter_commit(producer, number));
}

/* Does the same, and returns the number of instructions. */
static uint64_t settle_by_steps(felter_producer *producer, uint32_t index) {
    uint64_t number = numbers[index], body = index, steps;
    int32_t code;
    STEP(code, felter_put(producer, number, 0, &body, sizeof body), 0);
    steps = steps_made;
    EXPECT(FELTER_OK, code);
    if (index % 7 == 3) STEP(code, felter_abort(producer, number), 0);
    else STEP(code, felter_commit(producer, number), 0);
    EXPECT(FELTER_OK, code);
    return steps + steps_made;
}

/* Puts and settles this many claims in an order, and returns the mean number of instructions for one of them. The
 * consumer gets those that were not aborted, whole and in the order of the claims. */
static uint64_t settles(enum kind kind, uint32_t producers, uint32_t count) {
    felter_producer producer = FELTER_EMPTY;
    felter_consumer consumer = FELTER_EMPTY;
    uint64_t body = 0, steps = 0;
    int32_t type_id = 0;
    size_t len = 0;
    uint32_t i;
    EXPECT(FELTER_OK, felter_many_to_one_new(4194304, &producer, &consumer));
    open_claims(&producer, producers, count);
    put_in_order(kind, count);
    for (i = 0; i < count; i++) {
        if (i % (count / SAMPLES)) settle(&producer, order[i]);
        else steps += settle_by_steps(&producer, order[i]);
    }
    EXPECT(FELTER_NO_CLAIM, felter_commit(&producer, numbers[count / 2]));
    EXPECT(FELTER_NO_CLAIM, felter_put(&producer, numbers[0], 0, &body, sizeof body));
    for (i = 0; i < count; i++) {
        if (i % 7 == 3) continue;
        EXPECT(FELTER_OK, felter_read(&consumer, &type_id, &len, &body, sizeof body));
        CHECK(type_id == (int32_t)i + 1 && len == 8 && body == i);
    }
    EXPECT(FELTER_NO_MESSAGE, felter_read(&consumer, &type_id, &len, &body, sizeof body));
    felter_free(&producer.handle);
    felter_free(&consumer.handle);
    return steps / SAMPLES;
}

/* With a hundred times as many open claims, one of them takes less than twice as many instructions. */
static void takes_its_share(const char *name, enum kind kind, uint32_t producers) {
    uint64_t few = settles(kind, producers, FEW), many = settles(kind, producers, MANY);
    printf("claims: %s, %d producers: %" PRIu64 " instructions for one of %d, and %" PRIu64 " for one of %d\n", name,
           (int)producers, few, FEW, many, MANY);
    CHECK(few > 0 && many < 2 * few);
}

/* One claim is always open, and each is opened before the one before it is settled. */
static void overlap(void) {
    felter_producer producer = FELTER_EMPTY;
    felter_consumer consumer = FELTER_EMPTY;
    uint64_t number = 0, next = 0, body = 0;
    int32_t type_id = 0;
    size_t len = 0;
    uint32_t i;
    EXPECT(FELTER_OK, felter_one_to_one_new(4096, &producer, &consumer));
    EXPECT(FELTER_OK, felter_claim(&producer, 1, 8, &number));
    for (i = 0; i < MANY; i++) {
        EXPECT(FELTER_OK, felter_claim(&producer, 1, 8, &next));
        EXPECT(FELTER_OK, felter_commit(&producer, number));
        EXPECT(FELTER_NO_CLAIM, felter_commit(&producer, number));
        EXPECT(FELTER_OK, felter_read(&consumer, &type_id, &len, &body, sizeof body));
        number = next;
    }
    felter_free(&producer.handle);
    EXPECT(FELTER_NO_MESSAGE, felter_read(&consumer, &type_id, &len, &body, sizeof body));
    felter_free(&consumer.handle);
}

int main(void) {
    prepare_steps();
    takes_its_share("oldest first", OLDEST_FIRST, 1);
    takes_its_share("youngest first", YOUNGEST_FIRST, 1);
    takes_its_share("in random order", RANDOM, 1);
    takes_its_share("in random order", RANDOM, 4);
    overlap();
    return 0;
}
