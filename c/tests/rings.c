/* Every code of the calls of rings, each brought about, and what stays as it was. */
#include "reading.h"

static void makes(void) {
    felter_producer producer = FELTER_EMPTY;
    felter_consumer consumer = FELTER_EMPTY;
    static const uint32_t bad[] = {0, 1, 64, 100, 129, 192, 33554432, UINT32_MAX};
    for (size_t i = 0; i < sizeof bad / sizeof *bad; i++) {
        EXPECT(FELTER_BAD_CAPACITY, felter_many_to_one_new(bad[i], &producer, &consumer));
        EXPECT(FELTER_BAD_CAPACITY, felter_one_to_one_new(bad[i], &producer, &consumer));
        EXPECT(FELTER_BAD_CAPACITY, felter_many_to_one_new_at(bad[i], 0, &producer, &consumer));
        EXPECT(FELTER_BAD_CAPACITY, felter_one_to_one_new_at(bad[i], 0, &producer, &consumer));
    }
    EXPECT(FELTER_BAD_START, felter_many_to_one_new_at(128, 64, &producer, &consumer));
    EXPECT(FELTER_BAD_START, felter_many_to_one_new_at(128, LAST_POSITION + 128, &producer, &consumer));
    EXPECT(FELTER_BAD_START, felter_one_to_one_new_at(128, 127, &producer, &consumer));
    EXPECT(FELTER_NO_HANDLE, felter_write(&producer, 1, NULL, 0));
    EXPECT(FELTER_OK, felter_many_to_one_new(16777216, &producer, &consumer));
    EXPECT(FELTER_HANDLE_IN_USE, felter_many_to_one_new(128, &producer, &consumer));
    EXPECT(FELTER_HANDLE_IN_USE, felter_one_to_one_new(128, &producer, &consumer));
    felter_free(&producer.handle);
    EXPECT(FELTER_HANDLE_IN_USE, felter_many_to_one_new(128, &producer, &consumer));
    EXPECT(FELTER_NO_HANDLE, felter_write(&producer, 1, NULL, 0));
    felter_free(&consumer.handle);
    felter_free(&consumer.handle);
    EXPECT(FELTER_OK, felter_one_to_one_new_at(128, 1280, &producer, &consumer));
    uint64_t head = 0, tail = 0;
    EXPECT(FELTER_OK, felter_positions(&producer, &head, &tail));
    CHECK(head == 1280 && tail == 1280);
    felter_free(&consumer.handle);
    felter_free(&producer.handle);
}

static void writes(int many) {
    felter_producer producer = FELTER_EMPTY;
    felter_consumer consumer = FELTER_EMPTY;
    uint8_t body[17];
    for (size_t i = 0; i < sizeof body; i++) body[i] = (uint8_t)(200 + i);
    if (many) EXPECT(FELTER_OK, felter_many_to_one_new(128, &producer, &consumer));
    else EXPECT(FELTER_OK, felter_one_to_one_new(128, &producer, &consumer));
    expect_none(&consumer);
    EXPECT(FELTER_BAD_TYPE, felter_write(&producer, 0, body, 8));
    EXPECT(FELTER_BAD_TYPE, felter_write(&producer, -1, body, 8));
    EXPECT(FELTER_BAD_TYPE, felter_write(&producer, INT32_MIN, body, 17));
    EXPECT(FELTER_TOO_LONG, felter_write(&producer, 1, body, 17));
    /* Four records of 24 bytes leave 32; then 24 leave 8. */
    for (int i = 0; i < 5; i++) EXPECT(FELTER_OK, felter_write(&producer, 1 + i, body + i, 12 + (size_t)i % 5));
    EXPECT(FELTER_INSUFFICIENT_CAPACITY, felter_write(&producer, 6, body, 1));
    EXPECT(FELTER_OK, felter_write(&producer, INT32_MAX, NULL, 0));
    EXPECT(FELTER_INSUFFICIENT_CAPACITY, felter_write(&producer, 6, NULL, 0));
    uint64_t head = 9, tail = 9;
    EXPECT(FELTER_OK, felter_positions(&producer, &head, &tail));
    CHECK(head == 0 && tail == 128);
    for (int i = 0; i < 5; i++) expect_message(&consumer, 1 + i, body + i, 12 + (size_t)i % 5);
    expect_message(&consumer, INT32_MAX, NULL, 0);
    expect_none(&consumer);

    EXPECT(FELTER_OK, felter_write(&producer, 3, body, 16));
    uint8_t small[16];
    int32_t type_id = -7;
    size_t len = 0;
    EXPECT(FELTER_SHORT_BUFFER, felter_read(&consumer, &type_id, &len, small, 15));
    CHECK(len == 16);
    EXPECT(FELTER_SHORT_BUFFER, felter_read(&consumer, &type_id, &len, NULL, 0));
    CHECK(len == 16);
    EXPECT(FELTER_OK, felter_read(&consumer, &type_id, &len, small, 16));
    CHECK(type_id == 3 && len == 16 && memcmp(small, body, 16) == 0);
    felter_free(&producer.handle);
    felter_free(&consumer.handle);
}

static void ends(void) {
    felter_producer producer = FELTER_EMPTY;
    felter_consumer consumer = FELTER_EMPTY;
    EXPECT(FELTER_OK, felter_many_to_one_new_at(128, LAST_POSITION - 128, &producer, &consumer));
    for (int i = 0; i < 15; i++) EXPECT(FELTER_OK, felter_write(&producer, 1, NULL, 0));
    EXPECT(FELTER_POSITION_LIMIT, felter_write(&producer, 1, BYTES("12345678")));
    EXPECT(FELTER_OK, felter_write(&producer, 2, NULL, 0));
    EXPECT(FELTER_POSITION_LIMIT, felter_write(&producer, 1, NULL, 0));
    for (int i = 0; i < 15; i++) expect_message(&consumer, 1, NULL, 0);
    expect_message(&consumer, 2, NULL, 0);
    EXPECT(FELTER_POSITION_LIMIT, felter_write(&producer, 1, NULL, 0));
    felter_free(&producer.handle);
    felter_free(&consumer.handle);
}

/* A claim that is open, shown as what it holds. */
static void claims(int many) {
    felter_producer producer = FELTER_EMPTY, other = FELTER_EMPTY;
    felter_consumer consumer = FELTER_EMPTY;
    uint64_t claim = 77;
    if (many) EXPECT(FELTER_OK, felter_many_to_one_new(128, &producer, &consumer));
    else EXPECT(FELTER_OK, felter_one_to_one_new(128, &producer, &consumer));
    if (many) EXPECT(FELTER_OK, felter_split(&producer, &other));
    EXPECT(FELTER_NO_CLAIM, felter_put(&producer, 0, 0, NULL, 0));
    EXPECT(FELTER_NO_CLAIM, felter_commit(&producer, 0));
    EXPECT(FELTER_NO_CLAIM, felter_abort(&producer, 0));
    EXPECT(FELTER_BAD_TYPE, felter_claim(&producer, 0, 1, &claim));
    EXPECT(FELTER_TOO_LONG, felter_claim(&producer, 1, 17, &claim));
    CHECK(claim == 77);
    EXPECT(FELTER_OK, felter_claim(&producer, 7, 10, &claim));
    expect_none(&consumer);
    EXPECT(FELTER_NO_CLAIM, felter_put(&producer, claim + 8, 0, BYTES("abc")));
    EXPECT(FELTER_NO_CLAIM, felter_commit(&producer, claim + 8));
    EXPECT(FELTER_NO_CLAIM, felter_abort(&producer, claim + 8));
    EXPECT(FELTER_PUT_RANGE, felter_put(&producer, claim, 8, BYTES("abc")));
    EXPECT(FELTER_PUT_RANGE, felter_put(&producer, claim, 11, NULL, 0));
    EXPECT(FELTER_PUT_RANGE, felter_put(&producer, claim, SIZE_MAX, BYTES("ab")));
    EXPECT(FELTER_OK, felter_put(&producer, claim, 3, BYTES("xyz")));
    EXPECT(FELTER_OK, felter_put(&producer, claim, 4, BYTES("abcde")));
    EXPECT(FELTER_OK, felter_put(&producer, claim, 10, NULL, 0));
    if (many) {
        EXPECT(FELTER_NO_CLAIM, felter_commit(&other, claim));
        EXPECT(FELTER_OK, felter_write(&other, 9, BYTES("behind")));
        expect_none(&consumer);
    }
    EXPECT(FELTER_OK, felter_commit(&producer, claim));
    EXPECT(FELTER_NO_CLAIM, felter_commit(&producer, claim));
    expect_message(&consumer, 7, (const uint8_t *)"\0\0\0xabcde\0", 10);
    if (many) expect_message(&consumer, 9, BYTES("behind"));
    EXPECT(FELTER_OK, felter_claim(&producer, 8, 16, &claim));
    EXPECT(FELTER_OK, felter_put(&producer, claim, 0, BYTES("never to be seen")));
    EXPECT(FELTER_OK, felter_abort(&producer, claim));
    EXPECT(FELTER_NO_CLAIM, felter_abort(&producer, claim));
    EXPECT(FELTER_OK, felter_write(&producer, 9, BYTES("next")));
    expect_message(&consumer, 9, BYTES("next"));
    expect_none(&consumer);
    if (many) {
        /* A producer that is freed with a claim open does not stop the ring. */
        EXPECT(FELTER_OK, felter_claim(&other, 5, 4, &claim));
        EXPECT(FELTER_OK, felter_write(&producer, 6, BYTES("after")));
        expect_none(&consumer);
        felter_free(&other.handle);
        expect_message(&consumer, 6, BYTES("after"));
    }
    felter_free(&consumer.handle);
    felter_free(&producer.handle);
}

#define OPEN 40

/* Many claims at once, of which each third is aborted, and which are settled in an order of their own. */
static void open_claims(int many) {
    felter_producer producer = FELTER_EMPTY;
    felter_consumer consumer = FELTER_EMPTY;
    uint64_t claims[OPEN], more = 99;
    uint8_t body[16];
    if (many) EXPECT(FELTER_OK, felter_many_to_one_new(1024, &producer, &consumer));
    else EXPECT(FELTER_OK, felter_one_to_one_new(1024, &producer, &consumer));
    for (int turn = 0; turn < 3; turn++) {
        /* Each record takes 24 bytes, but those of no bytes 8. */
        for (uint32_t i = 0; i < OPEN; i++) {
            EXPECT(FELTER_OK, felter_claim(&producer, 1 + (int32_t)i, i % 4 ? 9 + i % 8 : 0, &claims[i]));
            CHECK(i == 0 || claims[i] > claims[i - 1]);
        }
        for (uint32_t at = 0; at < OPEN; at++) {
            uint32_t i = at * 7 % OPEN;
            memset(body, (int)i, sizeof body);
            EXPECT(FELTER_OK, felter_put(&producer, claims[i], 0, body, i % 4 ? 9 + i % 8 : 0));
            EXPECT(FELTER_PUT_RANGE, felter_put(&producer, claims[i], 1, body, 16));
        }
        EXPECT(FELTER_NO_CLAIM, felter_commit(&producer, claims[OPEN - 1] + 1));
        for (uint32_t at = 0; at < OPEN; at++) {
            uint32_t i = (at * 3 + 1) % OPEN;
            if (i % 3) EXPECT(FELTER_OK, felter_commit(&producer, claims[i]));
            else EXPECT(FELTER_OK, felter_abort(&producer, claims[i]));
            EXPECT(FELTER_NO_CLAIM, felter_put(&producer, claims[i], 0, NULL, 0));
            EXPECT(FELTER_NO_CLAIM, felter_commit(&producer, claims[i]));
            EXPECT(FELTER_NO_CLAIM, felter_abort(&producer, claims[i]));
        }
        for (uint32_t i = 0; i < OPEN; i++) {
            memset(body, (int)i, sizeof body);
            if (i % 3) expect_message(&consumer, 1 + (int32_t)i, body, i % 4 ? 9 + i % 8 : 0);
        }
        expect_none(&consumer);
    }
    /* All that are open are aborted where the producer is freed. */
    EXPECT(FELTER_OK, felter_write(&producer, 5, BYTES("first")));
    for (int i = 0; i < 20; i++) EXPECT(FELTER_OK, felter_claim(&producer, 6, (size_t)i % 3, &more));
    EXPECT(FELTER_OK, felter_write(&producer, 7, BYTES("last")));
    expect_message(&consumer, 5, BYTES("first"));
    expect_none(&consumer);
    felter_free(&producer.handle);
    expect_message(&consumer, 7, BYTES("last"));
    expect_none(&consumer);
    felter_free(&consumer.handle);
}

/* Claims that are open where producers are split and joined: they stay, and those of both are then one's. */
static void joined_claims(void) {
    felter_producer producer = FELTER_EMPTY, other = FELTER_EMPTY;
    felter_consumer consumer = FELTER_EMPTY;
    uint64_t claims[4];
    EXPECT(FELTER_OK, felter_many_to_one_new(512, &producer, &consumer));
    EXPECT(FELTER_OK, felter_claim(&producer, 1, 1, &claims[0]));
    EXPECT(FELTER_OK, felter_split(&producer, &other));
    EXPECT(FELTER_NO_CLAIM, felter_commit(&other, claims[0]));
    EXPECT(FELTER_OK, felter_claim(&other, 2, 1, &claims[1]));
    EXPECT(FELTER_OK, felter_claim(&producer, 3, 1, &claims[2]));
    EXPECT(FELTER_OK, felter_claim(&other, 4, 1, &claims[3]));
    EXPECT(FELTER_NO_CLAIM, felter_put(&producer, claims[1], 0, BYTES("b")));
    EXPECT(FELTER_OK, felter_put(&other, claims[3], 0, BYTES("d")));
    EXPECT(FELTER_OK, felter_join(&producer, &other));
    EXPECT(FELTER_NO_HANDLE, felter_commit(&other, claims[1]));
    EXPECT(FELTER_OK, felter_put(&producer, claims[1], 0, BYTES("b")));
    EXPECT(FELTER_OK, felter_put(&producer, claims[0], 0, BYTES("a")));
    for (int i = 3; i >= 0; i--) {
        expect_none(&consumer);
        if (i == 2) EXPECT(FELTER_OK, felter_abort(&producer, claims[i]));
        else EXPECT(FELTER_OK, felter_commit(&producer, claims[i]));
    }
    expect_message(&consumer, 1, BYTES("a"));
    expect_message(&consumer, 2, BYTES("b"));
    expect_message(&consumer, 4, BYTES("d"));
    expect_none(&consumer);
    felter_free(&producer.handle);
    felter_free(&consumer.handle);
}

static uint32_t shares_of(felter_producer *producer) {
    uint32_t shares = 0;
    EXPECT(FELTER_OK, felter_shares(producer, &shares));
    return shares;
}

static void splits(void) {
    felter_producer producer = FELTER_EMPTY, other = FELTER_EMPTY, third = FELTER_EMPTY, fourth = FELTER_EMPTY;
    felter_producer single = FELTER_EMPTY, larger = FELTER_EMPTY, alike = FELTER_EMPTY;
    felter_consumer consumer = FELTER_EMPTY, of_single = FELTER_EMPTY, of_larger = FELTER_EMPTY;
    felter_consumer of_alike = FELTER_EMPTY;
    EXPECT(FELTER_OK, felter_many_to_one_new(128, &producer, &consumer));
    EXPECT(FELTER_OK, felter_many_to_one_new(128, &alike, &of_alike));
    EXPECT(FELTER_OK, felter_many_to_one_new(256, &larger, &of_larger));
    EXPECT(FELTER_OK, felter_one_to_one_new(128, &single, &of_single));
    CHECK(shares_of(&producer) == 65536);
    EXPECT(FELTER_OK, felter_split(&producer, &other));
    CHECK(shares_of(&producer) == 65535 && shares_of(&other) == 1);
    EXPECT(FELTER_HANDLE_IN_USE, felter_split(&producer, &other));
    EXPECT(FELTER_NO_SHARES, felter_split(&other, &third));
    EXPECT(FELTER_NO_HANDLE, felter_split(&third, &fourth));
    EXPECT(FELTER_HANDLE_IN_USE, felter_split(&third, &other));
    EXPECT(FELTER_WRONG_HANDLE, felter_split(&single, &third));
    EXPECT(FELTER_OTHER_RING, felter_join(&producer, &larger));
    EXPECT(FELTER_OTHER_RING, felter_join(&producer, &alike));
    EXPECT(FELTER_OTHER_RING, felter_join(&alike, &other));
    EXPECT(FELTER_NO_HANDLE, felter_join(&producer, &third));
    EXPECT(FELTER_NO_HANDLE, felter_join(&third, &producer));
    EXPECT(FELTER_WRONG_HANDLE, felter_join(&producer, &single));
    EXPECT(FELTER_WRONG_HANDLE, felter_join(&producer, (felter_producer *)(void *)&consumer));
    CHECK(shares_of(&producer) == 65535 && shares_of(&larger) == 65536);
    CHECK(shares_of(&alike) == 65536 && shares_of(&other) == 1);
    EXPECT(FELTER_OK, felter_join(&producer, &other));
    EXPECT(FELTER_NO_HANDLE, felter_write(&other, 1, NULL, 0));
    CHECK(shares_of(&producer) == 65536);
    /* More splits than there are shares, each joined. */
    for (int i = 0; i < 70000; i++) {
        EXPECT(FELTER_OK, felter_split(&producer, &other));
        EXPECT(FELTER_OK, felter_join(&producer, &other));
    }
    EXPECT(FELTER_OK, felter_write(&producer, 4, BYTES("still")));
    expect_message(&consumer, 4, BYTES("still"));
    /* A share is lost with each producer that is freed. */
    for (int i = 0; i < 65535; i++) {
        EXPECT(FELTER_OK, felter_split(&producer, &other));
        felter_free(&other.handle);
    }
    CHECK(shares_of(&producer) == 1);
    EXPECT(FELTER_NO_SHARES, felter_split(&producer, &other));
    EXPECT(FELTER_NO_HANDLE, felter_shares(&other, &(uint32_t){0}));
    felter_free(&producer.handle);
    felter_free(&consumer.handle);
    felter_free(&larger.handle);
    felter_free(&of_larger.handle);
    felter_free(&alike.handle);
    felter_free(&of_alike.handle);
    felter_free(&single.handle);
    felter_free(&of_single.handle);
}

/* Numbers of a caller, also the least and the largest, distinguish rings. The header draws one once. */
static void numbers(void) {
    felter_producer least = FELTER_EMPTY, largest = FELTER_EMPTY, other = FELTER_EMPTY;
    felter_consumer of_least = FELTER_EMPTY, of_largest = FELTER_EMPTY;
    uint64_t before = felter_next_number();
    EXPECT(FELTER_OK, felter_many_to_one_new_numbered(0, 128, &least, &of_least));
    EXPECT(FELTER_OK, felter_many_to_one_new_at_numbered(UINT64_MAX, 128, 256, &largest, &of_largest));
    CHECK(felter_next_number() == before + 1);
    EXPECT(FELTER_OK, felter_split(&least, &other));
    EXPECT(FELTER_OTHER_RING, felter_join(&largest, &other));
    EXPECT(FELTER_OTHER_RING, felter_close(&of_largest, &least));
    EXPECT(FELTER_OTHER_RING, felter_close(&of_least, &largest));
    EXPECT(FELTER_OK, felter_join(&least, &other));
    EXPECT(FELTER_OK, felter_close(&of_least, &least));
    EXPECT(FELTER_OK, felter_close(&of_largest, &largest));
    felter_free(&of_least.handle);
    felter_free(&of_largest.handle);
}

static void looks(void) {
    felter_producer producer = FELTER_EMPTY, none = FELTER_EMPTY;
    felter_consumer consumer = FELTER_EMPTY, no_consumer = FELTER_EMPTY;
    uint64_t number = 99, head = 1, tail = 1;
    uint32_t shares = 7;
    EXPECT(FELTER_OK, felter_many_to_one_new(128, &producer, &consumer));
    for (uint64_t i = 0; i < 3; i++) {
        EXPECT(FELTER_OK, felter_next_id(&producer, &number));
        CHECK(number == i);
    }
    EXPECT(FELTER_OK, felter_heartbeat(&producer, &number));
    CHECK(number == 0);
    EXPECT(FELTER_OK, felter_set_heartbeat(&consumer, 1234567890123));
    EXPECT(FELTER_OK, felter_heartbeat(&producer, &number));
    CHECK(number == 1234567890123);
    EXPECT(FELTER_OK, felter_write(&producer, 1, BYTES("12345")));
    EXPECT(FELTER_OK, felter_positions(&producer, &head, &tail));
    CHECK(head == 0 && tail == 16);
    expect_message(&consumer, 1, BYTES("12345"));
    EXPECT(FELTER_OK, felter_positions(&producer, &head, &tail));
    CHECK(head == 16 && tail == 16);

    felter_producer *wrong = (felter_producer *)(void *)&consumer;
    felter_consumer *wrong_consumer = (felter_consumer *)(void *)&producer;
    uint8_t buffer[8];
    int32_t type_id;
    size_t len = 5;
    number = 42;
    EXPECT(FELTER_WRONG_HANDLE, felter_write(wrong, 1, NULL, 0));
    EXPECT(FELTER_WRONG_HANDLE, felter_claim(wrong, 1, 0, &number));
    EXPECT(FELTER_WRONG_HANDLE, felter_put(wrong, 0, 0, NULL, 0));
    EXPECT(FELTER_WRONG_HANDLE, felter_commit(wrong, 0));
    EXPECT(FELTER_WRONG_HANDLE, felter_abort(wrong, 0));
    EXPECT(FELTER_WRONG_HANDLE, felter_split(wrong, &none));
    EXPECT(FELTER_WRONG_HANDLE, felter_positions(wrong, &head, &tail));
    EXPECT(FELTER_WRONG_HANDLE, felter_next_id(wrong, &number));
    EXPECT(FELTER_WRONG_HANDLE, felter_heartbeat(wrong, &number));
    EXPECT(FELTER_WRONG_HANDLE, felter_shares(wrong, &shares));
    EXPECT(FELTER_WRONG_HANDLE, felter_set_heartbeat(wrong_consumer, 1));
    EXPECT(FELTER_WRONG_HANDLE, felter_read(wrong_consumer, &type_id, &len, buffer, 8));
    EXPECT(FELTER_NO_HANDLE, felter_claim(&none, 1, 0, &number));
    EXPECT(FELTER_NO_HANDLE, felter_put(&none, 0, 0, NULL, 0));
    EXPECT(FELTER_NO_HANDLE, felter_commit(&none, 0));
    EXPECT(FELTER_NO_HANDLE, felter_abort(&none, 0));
    EXPECT(FELTER_NO_HANDLE, felter_positions(&none, &head, &tail));
    EXPECT(FELTER_NO_HANDLE, felter_next_id(&none, &number));
    EXPECT(FELTER_NO_HANDLE, felter_heartbeat(&none, &number));
    EXPECT(FELTER_NO_HANDLE, felter_shares(&none, &shares));
    EXPECT(FELTER_NO_HANDLE, felter_set_heartbeat(&no_consumer, 1));
    EXPECT(FELTER_NO_HANDLE, felter_read(&no_consumer, &type_id, &len, buffer, 8));
    CHECK(number == 42 && shares == 7 && len == 5 && head == 16 && tail == 16);
    /* The handles are as they were. */
    EXPECT(FELTER_OK, felter_write(&producer, 8, BYTES("same")));
    expect_message(&consumer, 8, BYTES("same"));
    felter_free(&producer.handle);
    felter_free(&consumer.handle);
}

int main(void) {
    CHECK(sizeof(felter_handle) == sizeof(void *));
    makes();
    for (int many = 0; many < 2; many++) {
        writes(many);
        claims(many);
        open_claims(many);
    }
    ends();
    joined_claims();
    splits();
    numbers();
    looks();
    puts("rings: each answer as it should be");
    return 0;
}
