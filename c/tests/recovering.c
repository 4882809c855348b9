/* What is recovered from the memory of a ring: which messages come and how they are laid, buffers that are too short,
 * each kind of damage with its code and its text, memory that is no image, and a new ring that goes on with the
 * messages. The expected messages are those that the test itself wrote and did not read. */
#include "reading.h"

#define MOST 4096
#define FILLED 0xa7

/* The kinds of marks, after that of a committed record, which is 0. */
enum kind { PADDING = 1, OPEN, ABORTED };

/* A ring in memory, and the messages that are expected to be recovered. */
#define ALIGNED __attribute__((aligned(64)))

static unsigned char memory[896 + 2 * MOST + 8] ALIGNED, copy[896 + 2 * MOST + 8] ALIGNED;
static felter_producer producer;
static felter_consumer consumer;
static size_t length;
static uint32_t capacity;

struct expected {
    int32_t type_id;
    uint8_t body[MOST / 8];
    size_t len;
};
static struct expected expected[MOST / 8];
static uint32_t wanted;

static void begin(int is_one, uint32_t bytes) {
    capacity = bytes;
    wanted = 0;
    memset(memory, FILLED, sizeof memory);
    EXPECT(FELTER_OK, felter_ring_memory(capacity, &length));
    EXPECT(FELTER_OK, is_one ? felter_one_to_one_new_in(memory, length, capacity, &producer, &consumer)
                             : felter_many_to_one_new_in(memory, length, capacity, &producer, &consumer));
}

static void end(void) {
    felter_free(&producer.handle);
    felter_free(&consumer.handle);
}

static void expect_back(int32_t type_id, const void *body, size_t len) {
    struct expected *it = &expected[wanted++];
    it->type_id = type_id;
    it->len = len;
    if (len) memcpy(it->body, body, len);
}

static void write_one(int32_t type_id, const void *body, size_t len) {
    EXPECT(FELTER_OK, felter_write(&producer, type_id, body, len));
    expect_back(type_id, body, len);
}

/* The first message that was expected comes no more. */
static void read_one(void) {
    expect_message(&consumer, expected[0].type_id, expected[0].body, expected[0].len);
    memmove(expected, expected + 1, --wanted * sizeof *expected);
}

/* How many bytes the expected messages take in a buffer. */
static size_t size_wanted(void) {
    size_t size = 0;
    for (uint32_t k = 0; k < wanted; k++) size += 16 + (expected[k].len + 7) / 8 * 8;
    return size;
}

static int is_filled(const uint8_t *from, size_t size) {
    for (size_t k = 0; k < size; k++)
        if (from[k] != FILLED) return 0;
    return 1;
}

/* Expects the messages in a buffer, in their order. */
static void expect_laid(const uint8_t *buffer) {
    for (uint32_t k = 0; k < wanted; k++) {
        felter_record record;
        memcpy(&record, buffer, sizeof record);
        CHECK(record.len == expected[k].len && record.type_id == expected[k].type_id);
        CHECK(memcmp(buffer + sizeof record, expected[k].body, expected[k].len) == 0);
        buffer += FELTER_SPAN(expected[k].len);
    }
}

/* Expects that the messages are recovered from an image, if the buffer has exactly the room for them, and more. */
static void expect_recovered_from(const unsigned char *image, size_t bytes, uint64_t open) {
    static uint8_t buffer[2 * MOST + 16], finding[128];
    size_t size = size_wanted(), used = 7;
    uint64_t open_claims = 7;
    uint32_t count = 7;
    CHECK(size <= 2 * (size_t)capacity);
    for (size_t room = size; room <= size + 16; room += 8) {
        memset(buffer, FILLED, sizeof buffer);
        EXPECT(FELTER_OK, felter_recover(image, bytes, &open_claims, &count, &used, buffer, room));
        CHECK(open_claims == open && count == wanted && used == size);
        expect_laid(buffer);
        CHECK(is_filled(buffer + size, sizeof buffer - size));
    }
    for (size_t room = size; room > 0 && room > size - 9; room--) {
        memset(buffer, FILLED, sizeof buffer);
        count = 7, used = 7, open_claims = 7;
        EXPECT(FELTER_SHORT_BUFFER, felter_recover(image, bytes, &open_claims, &count, &used, buffer, room - 1));
        CHECK(open_claims == open && count == wanted && used == size && is_filled(buffer, sizeof buffer));
    }
    /* (the length alone) */
    EXPECT(size ? FELTER_SHORT_BUFFER : FELTER_OK, felter_recover(image, bytes, &open_claims, &count, &used, NULL, 0));
    CHECK(used == size && count == wanted);
    EXPECT(FELTER_OK, felter_finding(image, bytes, &used, (char *)finding, sizeof finding));
    CHECK(used == 0 && finding[0] == 0);
}

/* Expects the same from the memory itself and from a copy, which may be longer. The memory stays as it was. */
static void expect_recovered(uint64_t open) {
    memcpy(copy + 8, memory, length);
    expect_recovered_from(copy + 8, length, open);
    expect_recovered_from(memory, length + 8, open);
    CHECK(memcmp(copy + 8, memory, length) == 0);
}

/* What comes, and what does not ------------------------------------------------------------------------------------ */

static void messages(int is_one, uint32_t bytes) {
    int32_t type_id;
    size_t len;
    uint8_t buffer[16];
    begin(is_one, bytes);
    expect_recovered(0);
    write_one(7, "first", 5);
    write_one(2147483647, NULL, 0);
    write_one(1, "eight...", 8);
    expect_recovered(0);
    read_one();
    expect_recovered(0);
    /* A message that was shown and not taken comes again. */
    EXPECT(FELTER_OK, felter_peek(&consumer, &type_id, &len, buffer, sizeof buffer));
    expect_recovered(0);
    EXPECT(FELTER_OK, felter_take(&consumer));
    memmove(expected, expected + 1, --wanted * sizeof *expected);
    expect_recovered(0);
    read_one();
    expect_recovered(0);
    end();
    expect_recovered(0);
}

static void claims(int is_one) {
    uint64_t one, two, three;
    begin(is_one, 1024);
    EXPECT(FELTER_OK, felter_claim(&producer, 3, 6, &one));
    EXPECT(FELTER_OK, felter_put(&producer, one, 0, "opened", 6));
    EXPECT(FELTER_OK, felter_claim(&producer, 4, 6, &two));
    EXPECT(FELTER_OK, felter_claim(&producer, 5, 0, &three));
    expect_recovered(3);
    EXPECT(FELTER_OK, felter_abort(&producer, three));
    expect_recovered(2);
    /* Messages after an open claim come too. */
    write_one(6, "after", 5);
    expect_recovered(2);
    EXPECT(FELTER_OK, felter_commit(&producer, two));
    expected[1] = expected[0];
    wanted = 0;
    expect_back(4, "\0\0\0\0\0\0", 6);
    wanted = 2;
    expect_recovered(1);
    end();
    /* (the producer aborted its last claim) */
    expect_recovered(0);
}

/* The ring goes round many times, with padding and with bodies of each length. */
static void turns(int is_one, uint32_t bytes) {
    uint8_t body[MOST / 8];
    begin(is_one, bytes);
    for (uint32_t k = 0; k < 3 * bytes / 8; k++) {
        size_t len = k * 5 % (bytes / 8 + 1);
        for (size_t at = 0; at < len; at++) body[at] = (uint8_t)(k * 7 + at);
        while (felter_write(&producer, 1 + (int32_t)k, body, len) != FELTER_OK) read_one();
        expect_back(1 + (int32_t)k, body, len);
        if (k % 3 == 0) expect_recovered(0);
    }
    end();
}

/* No messages take more bytes than empty ones. A new ring has room for all of them. */
static void full(uint32_t bytes) {
    static uint8_t buffer[2 * MOST];
    uint64_t open_claims;
    uint32_t count, written = 0;
    size_t used;
    begin(0, bytes);
    for (uint32_t k = 0; k < bytes / 8; k++) write_one(1 + (int32_t)k, NULL, 0);
    CHECK(size_wanted() == 2 * (size_t)bytes);
    expect_recovered(0);
    EXPECT(FELTER_OK, felter_recover(memory, length, &open_claims, &count, &used, buffer, sizeof buffer));
    end();
    EXPECT(FELTER_OK, felter_many_to_one_new_in(memory, length, bytes, &producer, &consumer));
    EXPECT(FELTER_OK, felter_write_batch(&producer, buffer, used, &written));
    CHECK(written == count);
    expect_recovered(0);
    while (wanted) read_one();
    expect_none(&consumer);
    end();
}

/* The marks of a batch --------------------------------------------------------------------------------------------- */

static uint64_t loaded(size_t at) {
    uint64_t value;
    memcpy(&value, memory + at, 8);
    return value;
}

/* The three records of a batch have one mark, which is the end of the last one. A read that stops after the first
 * record leaves a mark for the others. */
static void one_mark(int is_one) {
    const size_t words = 128;
    struct { felter_record record; uint8_t body[8]; } batch[3];
    uint32_t written = 0;
    uint8_t body[8];
    int32_t type_id;
    size_t len;
    memset(batch, 0, sizeof batch);
    for (int k = 0; k < 3; k++) {
        batch[k].record.len = sizeof batch[k].body;
        batch[k].record.type_id = k + 1;
    }
    begin(is_one, 512);
    EXPECT(FELTER_OK, felter_write_batch(&producer, batch, sizeof batch, &written));
    CHECK(written == 3);
    CHECK(loaded(words) == 48 && loaded(words + 16) == 0 && loaded(words + 32) == 0);
    EXPECT(FELTER_OK, felter_read(&consumer, &type_id, &len, body, sizeof body));
    CHECK(type_id == 1 && loaded(words + 16) == 48 && loaded(words + 32) == 0);
    end();
}

/* Damage ----------------------------------------------------------------------------------------------------------- */

static void store(size_t at, uint64_t value) {
    memcpy(memory + at, &value, 8);
}

/* Expects a code and its text, and that nothing else is written. */
static void expect_finding(int32_t code, const unsigned char *image, size_t bytes, const char *text) {
    static uint8_t buffer[2 * MOST];
    char finding[128];
    uint64_t open_claims = 5;
    uint32_t count = 6;
    size_t used = 7, len = 8, size = strlen(text);
    memset(buffer, FILLED, sizeof buffer);
    EXPECT(code, felter_recover(image, bytes, &open_claims, &count, &used, buffer, sizeof buffer));
    CHECK(open_claims == 5 && count == 6 && used == 7 && is_filled(buffer, sizeof buffer));
    memset(finding, FILLED, sizeof finding);
    EXPECT(FELTER_SHORT_BUFFER, felter_finding(image, bytes, &len, finding, size));
    CHECK(len == size && is_filled((uint8_t *)finding, sizeof finding));
    EXPECT(FELTER_OK, felter_finding(image, bytes, &len, finding, size + 1));
    CHECK(len == size && strcmp(finding, text) == 0);
    CHECK(is_filled((uint8_t *)finding + size + 1, sizeof finding - size - 1));
}

/* Puts a word into the image, expects a finding, and puts the old word back. */
static void damaged(size_t at, uint64_t value, int32_t code, const char *text) {
    uint64_t before;
    memcpy(&before, memory + at, 8);
    store(at, value);
    expect_finding(code, memory, length, text);
    store(at, before);
    expect_recovered(0);
}

static uint64_t header(int32_t len, int32_t type_id) {
    return (uint64_t)(uint32_t)type_id << 32 | (uint32_t)len;
}

#define LENGTH_TEXT "a header has a length that no record has there: byte "
#define TYPE_TEXT "a header has a type id that no record has: byte "

static void damage(void) {
    const size_t words = 128, tail = 128 + 256 + 128, head = 128 + 256 + 384, slots = 128 + 256 + 768;
    begin(0, 256);
    /* Records at 0, 16 and 40. The tail is 56. The first one is read, so the head is 16. */
    write_one(7, "first", 5);
    write_one(8, "the second", 10);
    write_one(9, "last", 4);
    read_one();
    expect_recovered(0);
    damaged(head, 12, FELTER_UNALIGNED_POSITION, "the head or the tail is not a multiple of 8: head 12, tail 56");
    damaged(tail, 57, FELTER_UNALIGNED_POSITION, "the head or the tail is not a multiple of 8: head 16, tail 57");
    damaged(tail, 8, FELTER_TAIL_BEFORE_HEAD, "the tail is before the head: head 16, tail 8");
    damaged(tail, 280, FELTER_TAIL_TOO_FAR,
            "the tail is more than the capacity after the head: head 16, tail 280");
    damaged(tail, (uint64_t)-8, FELTER_TAIL_TOO_FAR,
            "the tail is more than the capacity after the head: head 16, tail 18446744073709551608");
    /* (marks that make no sense: an end in its own header, and a kind above 3) */
    damaged(words + 16, 16 + 1, FELTER_BAD_HEADER_LENGTH, LENGTH_TEXT "16 of the buffer, length 1");
    damaged(words + 16, 40 + 4, FELTER_BAD_HEADER_LENGTH, LENGTH_TEXT "16 of the buffer, length 1");
    damaged(words + 16, 40 + 7, FELTER_BAD_HEADER_LENGTH, LENGTH_TEXT "16 of the buffer, length 1");
    /* (a run of two records that would end inside the second one) */
    damaged(words + 16, 48, FELTER_BAD_HEADER_LENGTH, LENGTH_TEXT "40 of the buffer, length 1");
    /* (an end that the slot's header does not have, and an end above the tail) */
    damaged(words + 16, 32 + ABORTED, FELTER_BAD_HEADER_LENGTH, LENGTH_TEXT "16 of the buffer, length 1");
    damaged(words + 16, (uint64_t)-8, FELTER_BAD_HEADER_LENGTH, LENGTH_TEXT "16 of the buffer, length 1");
    damaged(slots + 16, header(7, 8), FELTER_BAD_HEADER_LENGTH, LENGTH_TEXT "16 of the buffer, length 7");
    damaged(slots + 16, header(-18, 8), FELTER_BAD_HEADER_LENGTH, LENGTH_TEXT "16 of the buffer, length 1");
    damaged(slots + 40, header(17, 9), FELTER_BAD_HEADER_LENGTH, LENGTH_TEXT "40 of the buffer, length 1");
    /* (longer than a message, across the tail, inside another record: there a mark has the end of the run, or none) */
    damaged(words + 16, 64 + OPEN, FELTER_BAD_HEADER_LENGTH, LENGTH_TEXT "16 of the buffer, length -48");
    damaged(words + 40, 64 + OPEN, FELTER_BAD_HEADER_LENGTH, LENGTH_TEXT "40 of the buffer, length -24");
    damaged(words + 40, 64 + PADDING, FELTER_BAD_HEADER_LENGTH, LENGTH_TEXT "40 of the buffer, length 24");
    damaged(words + 16, 48 + PADDING, FELTER_BAD_HEADER_LENGTH, LENGTH_TEXT "40 of the buffer, length 12");
    damaged(words + 24, 32 + OPEN, FELTER_BAD_HEADER_LENGTH, LENGTH_TEXT "24 of the buffer, length 1");
    damaged(slots + 16, header(18, 0), FELTER_BAD_HEADER_TYPE, TYPE_TEXT "16 of the buffer, type id 0");
    damaged(slots + 40, header(12, -3), FELTER_BAD_HEADER_TYPE, TYPE_TEXT "40 of the buffer, type id -3");
    /* (what is outside of the head and the tail is not looked at) */
    store(words, 256 + 5);
    store(words + 56, (uint64_t)-1);
    store(slots, header(3, -9));
    store(slots + 56, header(3, -9));
    expect_recovered(0);
    end();
}

/* Memory that is no image ------------------------------------------------------------------------------------------ */

#define NO_IMAGE "the memory is not the image of a ring"

static void no_images(void) {
    static unsigned char other[8192] ALIGNED;
    felter_transmitter transmitter = FELTER_EMPTY;
    felter_counters all = FELTER_EMPTY;
    size_t bytes;
    begin(1, 256);
    write_one(7, "first", 5);
    /* Each word of the header, and each length that is too short. */
    for (size_t at = 0; at < 64; at += 8) {
        uint64_t before;
        memcpy(&before, memory + at, 8);
        for (uint64_t k = 0; k < 64; k++) {
            store(at, before ^ (uint64_t)1 << k);
            expect_finding(FELTER_NO_IMAGE, memory, length, NO_IMAGE);
        }
        store(at, before);
    }
    for (bytes = 0; bytes < length; bytes++) expect_finding(FELTER_NO_IMAGE, memory, bytes, NO_IMAGE);
    expect_finding(FELTER_NO_IMAGE, NULL, 0, NO_IMAGE);
    expect_recovered(0);
    for (size_t at = 1; at < 8; at++) {
        memcpy(copy + at, memory, length);
        expect_finding(FELTER_BAD_MEMORY, copy + at, length,
                       "the memory is too short, does not begin at a multiple of 64 (to recover: of 8), or is in use");
    }
    end();
    memset(other, 0, sizeof other);
    expect_finding(FELTER_NO_IMAGE, other, sizeof other, NO_IMAGE);
    EXPECT(FELTER_OK, felter_board_new_in(other, sizeof other, 1024, &transmitter));
    expect_finding(FELTER_NO_IMAGE, other, sizeof other, NO_IMAGE);
    felter_free(&transmitter.handle);
    EXPECT(FELTER_OK, felter_counters_new_in(other, sizeof other, 8, 0, &all));
    expect_finding(FELTER_NO_IMAGE, other, sizeof other, NO_IMAGE);
    felter_free(&all.handle);
}

/* The words and the slots without an image ------------------------------------------------------------------------- */

static void words(void) {
    static uint64_t its[128 / 8 + 96], slots[128 / 8 + 1];
    uint64_t place = 3, open_claims = 5;
    int64_t found = 4;
    uint32_t count = 6;
    size_t used = 7;
    uint8_t buffer[256];
    const size_t tail = 16 + 16, head = 16 + 48;
    for (size_t k = 0; k < 112; k++)
        EXPECT(FELTER_NO_IMAGE, felter_recover_words(its, k, slots, 16, &place, &found, &open_claims, &count, &used,
                                                     buffer, sizeof buffer));
    for (size_t k = 0; k <= 17; k++)
        if (k != 16)
            EXPECT(FELTER_NO_IMAGE, felter_recover_words(its, 112, slots, k, &place, &found, &open_claims, &count,
                                                         &used, buffer, sizeof buffer));
    its[head] = 1, its[tail] = (uint64_t)-1;
    EXPECT(FELTER_UNALIGNED_POSITION, felter_recover_words(its, 112, slots, 16, &place, &found, &open_claims, &count,
                                                           &used, buffer, sizeof buffer));
    CHECK(place == 1 && found == -1);
    its[head] = 16, its[tail] = 8;
    EXPECT(FELTER_TAIL_BEFORE_HEAD, felter_recover_words(its, 112, slots, 16, &place, &found, &open_claims, &count,
                                                         &used, buffer, sizeof buffer));
    CHECK(place == 16 && found == 8);
    its[head] = 8, its[tail] = 8 + 128 + 8;
    EXPECT(FELTER_TAIL_TOO_FAR, felter_recover_words(its, 112, slots, 16, &place, &found, &open_claims, &count, &used,
                                                     buffer, sizeof buffer));
    CHECK(place == 8 && found == 144 && open_claims == 5 && count == 6 && used == 7);
    place = 1, found = -1;
    its[head] = 0, its[tail] = 24, its[0] = 8, slots[0] = header(8, 2147483647), its[1] = 24 + OPEN;
    EXPECT(FELTER_OK, felter_recover_words(its, 112, slots, 16, &place, &found, &open_claims, &count, &used, buffer,
                                           sizeof buffer));
    CHECK(place == 1 && found == -1 && open_claims == 1 && count == 1 && used == 16);
    its[1] = 112 + OPEN;
    EXPECT(FELTER_BAD_HEADER_LENGTH, felter_recover_words(its, 112, slots, 16, &place, &found, &open_claims, &count,
                                                          &used, buffer, sizeof buffer));
    CHECK(place == 8 && found == -104 && open_claims == 1 && count == 1 && used == 16);
    its[1] = 24, slots[1] = header(9, -7);
    EXPECT(FELTER_BAD_HEADER_TYPE, felter_recover_words(its, 112, slots, 16, &place, &found, &open_claims, &count,
                                                        &used, buffer, sizeof buffer));
    CHECK(place == 8 && found == -7);
}

int main(void) {
    for (int is_one = 0; is_one < 2; is_one++) {
        for (uint32_t bytes = 128; bytes <= MOST; bytes *= 2) messages(is_one, bytes);
        claims(is_one);
        one_mark(is_one);
        turns(is_one, 128);
        turns(is_one, 512);
    }
    for (uint32_t bytes = 128; bytes <= MOST; bytes *= 2) full(bytes);
    damage();
    no_images();
    words();
    printf("recovering: all messages, and no others\n");
    return 0;
}
