/* How rings end that are no conductor's: every code that callers who keep the rules can get, and that each refusal
 * leaves all as it was. */
#include "check.h"

#include <pthread.h>
#include <sched.h>

static void write_one(felter_producer *producer, int32_t type_id) {
    EXPECT(FELTER_OK, felter_write(producer, type_id, BYTES("sixteen bytes...")));
}

static void expect_one(felter_consumer *consumer, int32_t type_id) {
    uint8_t buffer[16];
    int32_t type_read = -7;
    size_t len = 99;
    EXPECT(FELTER_OK, felter_read(consumer, &type_read, &len, buffer, sizeof buffer));
    CHECK(type_read == type_id && len == 16 && memcmp(buffer, "sixteen bytes...", 16) == 0);
}

static void expect_none(felter_consumer *consumer) {
    uint8_t buffer[16];
    int32_t type_id = -7;
    size_t len = 99;
    EXPECT(FELTER_NO_MESSAGE, felter_read(consumer, &type_id, &len, buffer, sizeof buffer));
}

static void close_refuses(felter_consumer *consumer, felter_producer *producer, int32_t code) {
    EXPECT(code, felter_close(consumer, producer));
    EXPECT(code, felter_close(consumer, producer));
}

static void finish_refuses(felter_consumer *consumer, int32_t code) {
    uint64_t left = 77;
    EXPECT(code, felter_finish(consumer, &left));
    EXPECT(code, felter_finish(consumer, &left));
    CHECK(left == 77);
}

static void finishes(felter_consumer *consumer, uint64_t left) {
    uint64_t left_read = 77;
    EXPECT(FELTER_OK, felter_finish(consumer, &left_read));
    CHECK(left_read == left);
    finish_refuses(consumer, FELTER_NO_HANDLE);
    CHECK(consumer->handle.at == NULL);
}

static void make(int many, uint32_t capacity, felter_producer *producer, felter_consumer *consumer) {
    if (many) EXPECT(FELTER_OK, felter_many_to_one_new(capacity, producer, consumer));
    else EXPECT(FELTER_OK, felter_one_to_one_new(capacity, producer, consumer));
}

/* A ring is closed, read on, and finished with what was left. */
static void ends(int many) {
    felter_producer producer = FELTER_EMPTY;
    felter_consumer consumer = FELTER_EMPTY;
    uint8_t buffer[64];
    uint32_t count = 99;
    size_t used = 99;
    make(many, 256, &producer, &consumer);
    for (int32_t i = 1; i <= 3; i++) write_one(&producer, i);
    finish_refuses(&consumer, FELTER_PRODUCERS_OUT);
    EXPECT(FELTER_OK, felter_close(&consumer, &producer));
    EXPECT(FELTER_NO_HANDLE, felter_write(&producer, 4, NULL, 0));
    CHECK(producer.handle.at == NULL);
    close_refuses(&consumer, &producer, FELTER_NO_HANDLE);
    expect_one(&consumer, 1);
    EXPECT(FELTER_OK, felter_set_heartbeat(&consumer, 5));
    finishes(&consumer, 2);
    /* The handles can be filled again. */
    make(many, 128, &producer, &consumer);
    write_one(&producer, 1);
    EXPECT(FELTER_OK, felter_close(&consumer, &producer));
    EXPECT(FELTER_OK, felter_read_batch(&consumer, 9, &count, &used, buffer, sizeof buffer));
    CHECK(count == 1 && used == FELTER_SPAN(16));
    expect_none(&consumer);
    finishes(&consumer, 0);
    /* One that is closed can be freed unfinished. */
    make(many, 128, &producer, &consumer);
    write_one(&producer, 1);
    EXPECT(FELTER_OK, felter_close(&consumer, &producer));
    felter_free(&consumer.handle);
}

/* Padding and what was aborted are no messages that were left. A message of 16 bytes takes 24 of the 128: the sixth
 * comes after padding. */
static void leaves(int many, int reads) {
    felter_producer producer = FELTER_EMPTY;
    felter_consumer consumer = FELTER_EMPTY;
    uint64_t claim = 99, head = 99, tail = 99;
    make(many, 128, &producer, &consumer);
    for (int32_t i = 1; i <= 5; i++) write_one(&producer, i);
    expect_one(&consumer, 1);
    expect_one(&consumer, 2);
    write_one(&producer, 6);
    EXPECT(FELTER_OK, felter_claim(&producer, 7, 5, &claim));
    close_refuses(&consumer, &producer, FELTER_CLAIMS_OPEN);
    EXPECT(FELTER_OK, felter_abort(&producer, claim));
    EXPECT(FELTER_OK, felter_positions(&producer, &head, &tail));
    CHECK(head == 48 && tail == 128 + 24 + 16);
    EXPECT(FELTER_OK, felter_close(&consumer, &producer));
    for (int32_t i = 3; i < 3 + reads; i++) expect_one(&consumer, i);
    if (reads == 4) expect_none(&consumer);
    finishes(&consumer, 4 - (uint64_t)reads);
}

/* A close is refused until every claim is settled, and every producer joined. Both handles go on meanwhile. */
static void waits(void) {
    felter_producer producer = FELTER_EMPTY, other = FELTER_EMPTY;
    felter_consumer consumer = FELTER_EMPTY;
    uint64_t first = 99, second = 99;
    uint32_t shares = 99;
    make(1, 256, &producer, &consumer);
    EXPECT(FELTER_OK, felter_claim(&producer, 1, 16, &first));
    EXPECT(FELTER_OK, felter_split(&producer, &other));
    close_refuses(&consumer, &producer, FELTER_CLAIMS_OPEN);
    EXPECT(FELTER_OK, felter_put(&producer, first, 0, BYTES("sixteen bytes...")));
    EXPECT(FELTER_OK, felter_commit(&producer, first));
    close_refuses(&consumer, &producer, FELTER_PRODUCERS_OUT);
    EXPECT(FELTER_OK, felter_claim(&other, 2, 16, &second));
    close_refuses(&consumer, &producer, FELTER_PRODUCERS_OUT);
    close_refuses(&consumer, &other, FELTER_CLAIMS_OPEN);
    /* Its open claim comes with a producer that is joined. */
    EXPECT(FELTER_OK, felter_join(&producer, &other));
    close_refuses(&consumer, &producer, FELTER_CLAIMS_OPEN);
    EXPECT(FELTER_OK, felter_put(&producer, second, 0, BYTES("sixteen bytes...")));
    EXPECT(FELTER_OK, felter_commit(&producer, second));
    write_one(&producer, 3);
    EXPECT(FELTER_OK, felter_shares(&producer, &shares));
    CHECK(shares == 65536);
    finish_refuses(&consumer, FELTER_PRODUCERS_OUT);
    expect_one(&consumer, 1);
    EXPECT(FELTER_OK, felter_close(&consumer, &producer));
    expect_one(&consumer, 2);
    finishes(&consumer, 1);
}

/* Producers that were freed are not missed: what they committed stays, and what they claimed is aborted. While another
 * one is in a handle, a close is refused. */
static void frees_some(void) {
    felter_producer producer = FELTER_EMPTY, other = FELTER_EMPTY, third = FELTER_EMPTY;
    felter_consumer consumer = FELTER_EMPTY;
    uint64_t claim = 99;
    make(1, 256, &producer, &consumer);
    EXPECT(FELTER_OK, felter_split(&producer, &other));
    EXPECT(FELTER_NO_SHARES, felter_split(&other, &third));
    EXPECT(FELTER_OK, felter_split(&producer, &third));
    write_one(&other, 1);
    EXPECT(FELTER_OK, felter_claim(&other, 2, 16, &claim));
    EXPECT(FELTER_OK, felter_put(&other, claim, 0, BYTES("half")));
    write_one(&producer, 3);
    write_one(&other, 4);
    felter_free(&other.handle);
    close_refuses(&consumer, &producer, FELTER_PRODUCERS_OUT);
    close_refuses(&consumer, &third, FELTER_PRODUCERS_OUT);
    EXPECT(FELTER_OK, felter_claim(&producer, 5, 16, &claim));
    felter_free(&third.handle);
    close_refuses(&consumer, &producer, FELTER_CLAIMS_OPEN);
    finish_refuses(&consumer, FELTER_PRODUCERS_OUT);
    EXPECT(FELTER_OK, felter_abort(&producer, claim));
    expect_one(&consumer, 1);
    EXPECT(FELTER_OK, felter_close(&consumer, &producer));
    CHECK(producer.handle.at == NULL);
    expect_one(&consumer, 3);
    finishes(&consumer, 1);
    /* The first producer, with most of the shares, can be the one that was freed. */
    make(1, 256, &producer, &consumer);
    EXPECT(FELTER_OK, felter_split(&producer, &other));
    felter_free(&producer.handle);
    write_one(&other, 1);
    EXPECT(FELTER_OK, felter_close(&consumer, &other));
    finishes(&consumer, 1);
}

/* A ring whose producers were all freed ends without a close. */
static void frees_all(int many) {
    felter_producer producer = FELTER_EMPTY;
    felter_consumer consumer = FELTER_EMPTY;
    uint64_t claims[3] = {99, 99, 99};
    make(many, 256, &producer, &consumer);
    EXPECT(FELTER_OK, felter_claim(&producer, 1, 16, &claims[0]));
    write_one(&producer, 2);
    EXPECT(FELTER_OK, felter_claim(&producer, 3, 16, &claims[1]));
    EXPECT(FELTER_OK, felter_put(&producer, claims[1], 0, BYTES("sixteen bytes...")));
    EXPECT(FELTER_OK, felter_commit(&producer, claims[1]));
    EXPECT(FELTER_OK, felter_claim(&producer, 4, 16, &claims[2]));
    write_one(&producer, 5);
    finish_refuses(&consumer, FELTER_PRODUCERS_OUT);
    felter_free(&producer.handle);
    expect_one(&consumer, 2);
    finishes(&consumer, 2);
    make(many, 256, &producer, &consumer);
    felter_free(&producer.handle);
    finishes(&consumer, 0);
}

/* Rings of the same capacity and kind are distinguished. All goes on as before, also if both have the same messages. */
static void rings_alike(int many) {
    felter_producer producer = FELTER_EMPTY, other = FELTER_EMPTY;
    felter_consumer consumer = FELTER_EMPTY, of_other = FELTER_EMPTY;
    make(many, 256, &producer, &consumer);
    make(many, 256, &other, &of_other);
    for (int32_t i = 1; i <= 2; i++) {
        write_one(&producer, i);
        write_one(&other, i);
        close_refuses(&consumer, &other, FELTER_OTHER_RING);
        close_refuses(&of_other, &producer, FELTER_OTHER_RING);
    }
    expect_one(&consumer, 1);
    EXPECT(FELTER_OK, felter_close(&consumer, &producer));
    close_refuses(&consumer, &other, FELTER_OTHER_RING);
    EXPECT(FELTER_OK, felter_close(&of_other, &other));
    finishes(&consumer, 1);
    finishes(&of_other, 2);
}

/* Rings of other capacities or of the other kind, and handles of other kinds. */
static void other_rings(void) {
    felter_producer producer = FELTER_EMPTY, other = FELTER_EMPTY, single = FELTER_EMPTY, none = FELTER_EMPTY;
    felter_consumer consumer = FELTER_EMPTY, of_other = FELTER_EMPTY, of_single = FELTER_EMPTY;
    felter_consumer no_consumer = FELTER_EMPTY;
    uint64_t claim = 99;
    make(1, 256, &producer, &consumer);
    make(1, 128, &other, &of_other);
    make(0, 256, &single, &of_single);
    close_refuses(&consumer, &other, FELTER_OTHER_RING);
    close_refuses(&of_other, &producer, FELTER_OTHER_RING);
    close_refuses(&consumer, &single, FELTER_OTHER_RING);
    EXPECT(FELTER_OK, felter_claim(&producer, 3, 16, &claim));
    close_refuses(&of_single, &producer, FELTER_OTHER_RING);
    EXPECT(FELTER_OK, felter_abort(&producer, claim));
    close_refuses(&no_consumer, &producer, FELTER_NO_HANDLE);
    close_refuses(&consumer, &none, FELTER_NO_HANDLE);
    close_refuses(&no_consumer, &none, FELTER_NO_HANDLE);
    close_refuses((felter_consumer *)(void *)&other, &producer, FELTER_WRONG_HANDLE);
    close_refuses(&consumer, (felter_producer *)(void *)&of_other, FELTER_WRONG_HANDLE);
    finish_refuses(&no_consumer, FELTER_NO_HANDLE);
    finish_refuses((felter_consumer *)(void *)&producer, FELTER_WRONG_HANDLE);
    write_one(&producer, 1);
    write_one(&other, 2);
    EXPECT(FELTER_OK, felter_close(&consumer, &producer));
    EXPECT(FELTER_OK, felter_close(&of_other, &other));
    EXPECT(FELTER_OK, felter_close(&of_single, &single));
    expect_one(&consumer, 1);
    finishes(&consumer, 0);
    finishes(&of_other, 1);
    finishes(&of_single, 0);
}

#define EACH 3000

static void *write_all(void *its) {
    felter_producer *producer = its;
    for (int32_t i = 1; i <= EACH;) {
        int32_t code = felter_write(producer, i, BYTES("sixteen bytes..."));
        CHECK(code == FELTER_OK || code == FELTER_CONTENDED || code == FELTER_INSUFFICIENT_CAPACITY);
        if (code == FELTER_OK) i++;
        else sched_yield();
    }
    return NULL;
}

/* Producers that were on threads are joined; what was written is what was read and what was left. */
static void threads(void) {
    felter_producer producers[2] = {FELTER_EMPTY, FELTER_EMPTY};
    felter_consumer consumer = FELTER_EMPTY;
    pthread_t workers[2];
    uint8_t buffer[16];
    int32_t type_id = 0;
    size_t len = 0;
    make(1, 1024, &producers[0], &consumer);
    EXPECT(FELTER_OK, felter_split(&producers[0], &producers[1]));
    for (int i = 0; i < 2; i++) CHECK(pthread_create(&workers[i], NULL, write_all, &producers[i]) == 0);
    /* Seven messages stay: the ring has room for more. */
    for (int n = 0; n < 2 * EACH - 7;) {
        if (felter_read(&consumer, &type_id, &len, buffer, sizeof buffer) == FELTER_OK) n++;
        else sched_yield();
    }
    for (int i = 0; i < 2; i++) CHECK(pthread_join(workers[i], NULL) == 0);
    EXPECT(FELTER_OK, felter_join(&producers[0], &producers[1]));
    EXPECT(FELTER_OK, felter_close(&consumer, &producers[0]));
    finishes(&consumer, 7);
}

int main(void) {
    for (int many = 0; many < 2; many++) {
        ends(many);
        for (int reads = 0; reads <= 4; reads += 2) leaves(many, reads);
        rings_alike(many);
    }
    waits();
    frees_some();
    for (int many = 0; many < 2; many++) frees_all(many);
    other_rings();
    threads();
    puts("closing: each answer as it should be");
    return 0;
}
