/* Batches of messages that are read and written, and what stays in the ring. */
#include "reading.h"

/* The messages of a turn: the i-th has the type id 10 + i, and as many bytes i. */
static const size_t lens[] = {5, 0, 16, 8, 1};
#define EACH 5

static void write_turn(felter_producer *producer) {
    uint8_t body[16];
    for (uint32_t i = 0; i < EACH; i++) {
        memset(body, (int)i, sizeof body);
        EXPECT(FELTER_OK, felter_write(producer, 10 + (int32_t)i, body, lens[i]));
    }
}

/* Reads the messages of a turn from one to another, each by a call of its own. */
static void expect_singly(felter_consumer *consumer, uint32_t from, uint32_t to) {
    uint8_t body[16];
    for (uint32_t i = from; i < to; i++) {
        memset(body, (int)i, sizeof body);
        expect_message(consumer, 10 + (int32_t)i, body, lens[i]);
    }
}

/* Reads a batch from a message of a turn on, compares it, and says after which message it ends. */
static uint32_t expect_batch(felter_consumer *consumer, uint32_t limit, size_t room, uint32_t from) {
    uint64_t words[64];
    uint8_t *buffer = (uint8_t *)words;
    uint32_t count = 999;
    size_t used = 9999, at = 0;
    CHECK(room < sizeof words);
    memset(words, 0xEE, sizeof words);
    EXPECT(FELTER_OK, felter_read_batch(consumer, limit, &count, &used, buffer, room));
    CHECK(count > 0 && count <= limit && from + count <= EACH && used <= room);
    for (uint32_t i = from; i < from + count; i++) {
        const felter_record *record = (const felter_record *)(const void *)(buffer + at);
        CHECK(record->type_id == 10 + (int32_t)i && record->len == lens[i]);
        for (size_t k = 0; k < lens[i]; k++) CHECK(buffer[at + sizeof *record + k] == (uint8_t)i);
        at += FELTER_SPAN(record->len);
    }
    CHECK(at == used && buffer[used] == 0xEE);
    return from + count;
}

/* Messages in batches: as many as the limit and the room let through, and the others stay. */
static void batches(int many) {
    felter_producer producer = FELTER_EMPTY;
    felter_consumer consumer = FELTER_EMPTY;
    uint8_t small[32] = {5};
    uint32_t count = 999;
    size_t used = 9999;
    if (many) EXPECT(FELTER_OK, felter_many_to_one_new(1024, &producer, &consumer));
    else EXPECT(FELTER_OK, felter_one_to_one_new(1024, &producer, &consumer));
    EXPECT(FELTER_NO_MESSAGE, felter_read_batch(&consumer, 9, &count, &used, small, sizeof small));
    write_turn(&producer);
    EXPECT(FELTER_NO_MESSAGE, felter_read_batch(&consumer, 0, &count, &used, small, sizeof small));
    EXPECT(FELTER_SHORT_BUFFER, felter_read_batch(&consumer, 9, &count, &used, small, 23));
    EXPECT(FELTER_SHORT_BUFFER, felter_read_batch(&consumer, 9, &count, &used, NULL, 0));
    CHECK(count == 999 && used == 9999 && small[0] == 5);
    /* The records take 24, 16, 32, 24 and 24 bytes. */
    CHECK(expect_batch(&consumer, 9, 71, 0) == 2);
    EXPECT(FELTER_SHORT_BUFFER, felter_read_batch(&consumer, 9, &count, &used, small, 31));
    CHECK(expect_batch(&consumer, 1, 500, 2) == 3);
    CHECK(expect_batch(&consumer, 9, 48, 3) == 5);
    expect_none(&consumer);
    /* A turn that crosses the end of the ring's buffer comes in parts. */
    for (int turn = 0; turn < 40; turn++) {
        write_turn(&producer);
        if (turn % 3 == 0) expect_singly(&consumer, 0, EACH);
        else for (uint32_t at = 0; at < EACH;) at = expect_batch(&consumer, EACH, 400, at);
        EXPECT(FELTER_NO_MESSAGE, felter_read_batch(&consumer, 9, &count, &used, small, sizeof small));
    }
    EXPECT(FELTER_WRONG_HANDLE,
           felter_read_batch((felter_consumer *)(void *)&producer, 9, &count, &used, small, sizeof small));
    felter_free(&producer.handle);
    felter_free(&consumer.handle);
    EXPECT(FELTER_NO_HANDLE, felter_read_batch(&consumer, 9, &count, &used, small, sizeof small));
}

/* Batches that are written: what a batch read left, and bytes that are no batch. */
static void written_batches(void) {
    felter_producer producer = FELTER_EMPTY, second = FELTER_EMPTY;
    felter_consumer consumer = FELTER_EMPTY, sink = FELTER_EMPTY;
    uint64_t words[64];
    uint32_t count, written = 9;
    size_t used;
    EXPECT(FELTER_OK, felter_many_to_one_new(1024, &producer, &consumer));
    EXPECT(FELTER_OK, felter_one_to_one_new(128, &second, &sink));
    write_turn(&producer);
    EXPECT(FELTER_OK, felter_read_batch(&consumer, EACH, &count, &used, words, sizeof words));
    CHECK(count == EACH);
    EXPECT(FELTER_OK, felter_write_batch(&producer, words, used, &written));
    CHECK(written == EACH);
    expect_singly(&consumer, 0, EACH);
    expect_none(&consumer);
    /* The last record's padding may be missing, and not its bytes. */
    EXPECT(FELTER_OK, felter_write_batch(&producer, words, used - 7, &written));
    CHECK(written == EACH);
    expect_singly(&consumer, 0, EACH);
    /* If one record is refused, no message is written. */
    EXPECT(FELTER_PUT_RANGE, felter_write_batch(&producer, words, used - 8, &written));
    CHECK(written == 0);
    written = 9;
    EXPECT(FELTER_PUT_RANGE, felter_write_batch(&producer, words, 15, &written));
    CHECK(written == 0);
    EXPECT(FELTER_OK, felter_write_batch(&producer, NULL, 0, &written));
    CHECK(written == 0);
    words[1] = (uint64_t)1 << 40;
    EXPECT(FELTER_BAD_TYPE, felter_write_batch(&producer, words, used, &written));
    words[1] = 10;
    /* The second message begins at the fourth word. The first record that is refused decides. */
    words[3] = UINT64_MAX;
    EXPECT(FELTER_PUT_RANGE, felter_write_batch(&producer, words, used, &written));
    words[3] = 0;
    words[4] = 0;
    EXPECT(FELTER_BAD_TYPE, felter_write_batch(&producer, words, used - 8, &written));
    words[4] = (uint64_t)-11;
    EXPECT(FELTER_BAD_TYPE, felter_write_batch(&producer, words, used, &written));
    words[4] = 11;
    CHECK(written == 0);
    expect_none(&consumer);
    /* They take 16, 8, 24, 16 and 16 bytes. */
    EXPECT(FELTER_OK, felter_write_batch(&second, words, used, &written));
    EXPECT(FELTER_INSUFFICIENT_CAPACITY, felter_write_batch(&second, words, used, &written));
    CHECK(written == 3);
    felter_free(&producer.handle);
    felter_free(&consumer.handle);
    felter_free(&second.handle);
    felter_free(&sink.handle);
    written = 9;
    EXPECT(FELTER_NO_HANDLE, felter_write_batch(&producer, words, used, &written));
    EXPECT(FELTER_OK, felter_many_to_one_new(1024, &producer, &consumer));
    EXPECT(FELTER_WRONG_HANDLE, felter_write_batch((felter_producer *)(void *)&consumer, words, used, &written));
    CHECK(written == 9);
    felter_free(&producer.handle);
    felter_free(&consumer.handle);
}

/* The i-th of many messages has the type id i + 1, and i % 33 bytes. */
static size_t lay_many(uint8_t *buffer, uint32_t count) {
    size_t at = 0;
    for (uint32_t i = 0; i < count; i++) {
        felter_record record = {i % 33, i + 1};
        memcpy(buffer + at, &record, sizeof record);
        memset(buffer + at + sizeof record, (int)i, record.len);
        at += FELTER_SPAN(record.len);
    }
    return at;
}

/* Many messages by one call, beside an open claim, and up to the end of the room. */
static void many_at_once(int many) {
    static uint8_t records[1 << 15];
    felter_producer producer = FELTER_EMPTY;
    felter_consumer consumer = FELTER_EMPTY;
    uint8_t body[32];
    uint64_t claim, head, tail, longer = 257;
    uint32_t written = 9;
    size_t used = lay_many(records, 500);
    if (many) EXPECT(FELTER_OK, felter_many_to_one_new(2048, &producer, &consumer));
    else EXPECT(FELTER_OK, felter_one_to_one_new(2048, &producer, &consumer));
    /* One record in the last place is too long. */
    memset(records + used, 0, 300);
    memcpy(records + used, &longer, sizeof longer);
    records[used + 8] = 1;
    EXPECT(FELTER_TOO_LONG, felter_write_batch(&producer, records, used + FELTER_SPAN(longer), &written));
    CHECK(written == 0);
    expect_none(&consumer);
    EXPECT(FELTER_OK, felter_claim(&producer, 1000, 1, &claim));
    for (size_t at = 0, from = 0; at < used; from += written) {
        int32_t code = felter_write_batch(&producer, records + at, used - at, &written);
        CHECK(code == FELTER_OK || code == FELTER_INSUFFICIENT_CAPACITY);
        CHECK(written > 0 && (code == FELTER_OK) == (from + written == 500));
        if (from == 0) {
            CHECK(written > 64);
            expect_none(&consumer);
            EXPECT(FELTER_OK, felter_commit(&producer, claim));
            expect_message(&consumer, 1000, (const uint8_t[1]){0}, 1);
        }
        EXPECT(FELTER_OK, felter_positions(&producer, &head, &tail));
        CHECK(tail - head <= 2048);
        for (size_t i = from; i < from + written; i++) {
            memset(body, (int)i, sizeof body);
            expect_message(&consumer, (int32_t)i + 1, body, i % 33);
            at += FELTER_SPAN(i % 33);
        }
        expect_none(&consumer);
    }
    felter_free(&producer.handle);
    felter_free(&consumer.handle);
}

int main(void) {
    for (int many = 0; many < 2; many++) batches(many);
    written_batches();
    for (int many = 0; many < 2; many++) many_at_once(many);
    puts("batches: each answer as it should be");
    return 0;
}
