/* A controlled read: a message is seen before it is taken. */
#include "check.h"

static felter_producer producer = FELTER_EMPTY;
static felter_consumer consumer = FELTER_EMPTY;

/* Peeks twice, and gets the same message each time, whole. */
static void shows(int32_t type_id, const char *body) {
    int i;
    for (i = 0; i < 2; i++) {
        int32_t found = 0;
        size_t len = 0;
        uint8_t buffer[64];
        memset(buffer, 0xEE, sizeof buffer);
        EXPECT(FELTER_OK, felter_peek(&consumer, &found, &len, buffer, sizeof buffer));
        CHECK(found == type_id && len == strlen(body) && memcmp(buffer, body, len) == 0);
        for (; len < sizeof buffer; len++) CHECK(buffer[len] == 0xEE);
    }
}

static void head_is(uint64_t wanted) {
    uint64_t head = 77, tail = 77;
    EXPECT(FELTER_OK, felter_positions(&producer, &head, &tail));
    CHECK(head == wanted);
}

static void shows_nothing(void) {
    int32_t type_id = 77;
    size_t len = 77;
    uint8_t buffer[8];
    EXPECT(FELTER_NO_MESSAGE, felter_peek(&consumer, &type_id, &len, buffer, sizeof buffer));
    EXPECT(FELTER_NO_MESSAGE, felter_take(&consumer));
    CHECK(type_id == 77 && len == 77);
}

static void stays_until_taken(void) {
    int32_t type_id = 0;
    size_t len = 0;
    uint8_t buffer[64];
    shows_nothing();
    EXPECT(FELTER_OK, felter_write(&producer, 5, "first", 5));
    EXPECT(FELTER_OK, felter_write(&producer, 6, "second one", 10));
    EXPECT(FELTER_OK, felter_write(&producer, 7, "", 0));
    shows(5, "first");
    head_is(0);
    EXPECT(FELTER_OK, felter_take(&consumer));
    head_is(16);
    EXPECT(FELTER_SHORT_BUFFER, felter_peek(&consumer, &type_id, &len, buffer, 9));
    CHECK(type_id == 6 && len == 10);
    shows(6, "second one");
    EXPECT(FELTER_OK, felter_read(&consumer, &type_id, &len, buffer, sizeof buffer));
    CHECK(type_id == 6 && len == 10);
    head_is(40);
    shows(7, "");
    EXPECT(FELTER_OK, felter_take(&consumer));
    head_is(48);
    shows_nothing();
}

/* An aborted record, padding at the end of the buffer, and an open claim. */
static void passes_what_is_none(void) {
    uint64_t claim = 0;
    uint32_t i;
    for (i = 0; i < 40; i++) {
        EXPECT(FELTER_OK, felter_claim(&producer, 3, 7, &claim));
        EXPECT(FELTER_OK, felter_put(&producer, claim, 0, "claimed", 7));
        shows_nothing();
        EXPECT(FELTER_OK, felter_write(&producer, 4, "after the claim", 15));
        shows_nothing();
        if (i % 2 == 0) {
            EXPECT(FELTER_OK, felter_abort(&producer, claim));
        } else {
            EXPECT(FELTER_OK, felter_commit(&producer, claim));
            shows(3, "claimed");
            EXPECT(FELTER_OK, felter_take(&consumer));
        }
        shows(4, "after the claim");
        EXPECT(FELTER_OK, felter_take(&consumer));
        shows_nothing();
    }
}

enum action { ABORT, BREAK, COMMIT, CONTINUE };

/* What Agrona's controlled read does, by the two calls. */
static uint32_t controlled_read(enum action (*show)(int32_t type_id)) {
    uint32_t taken = 0;
    int32_t type_id = 0;
    size_t len = 0;
    uint8_t buffer[64];
    while (felter_peek(&consumer, &type_id, &len, buffer, sizeof buffer) == FELTER_OK) {
        enum action action = show(type_id);
        if (action == ABORT) break;
        EXPECT(FELTER_OK, felter_take(&consumer));
        taken++;
        if (action == BREAK) break;
    }
    return taken;
}

static enum action abort_at_three(int32_t type_id) { return type_id == 3 ? ABORT : CONTINUE; }
static enum action break_at_two(int32_t type_id) { return type_id == 2 ? BREAK : COMMIT; }
static enum action go_on(int32_t type_id) { return type_id % 2 ? COMMIT : CONTINUE; }

static void each_action(void) {
    int32_t i;
    for (i = 1; i <= 5; i++) EXPECT(FELTER_OK, felter_write(&producer, i, "body", 4));
    CHECK(controlled_read(break_at_two) == 2);
    CHECK(controlled_read(abort_at_three) == 0);
    shows(3, "body");
    CHECK(controlled_read(go_on) == 3);
    CHECK(controlled_read(go_on) == 0);
}

static void refuses(void) {
    int32_t type_id = 77;
    size_t len = 77;
    felter_consumer none = FELTER_EMPTY, *wrong = (felter_consumer *)&producer;
    EXPECT(FELTER_NO_HANDLE, felter_peek(&none, &type_id, &len, NULL, 0));
    EXPECT(FELTER_NO_HANDLE, felter_take(&none));
    EXPECT(FELTER_WRONG_HANDLE, felter_peek(wrong, &type_id, &len, NULL, 0));
    EXPECT(FELTER_WRONG_HANDLE, felter_take(wrong));
    CHECK(type_id == 77 && len == 77);
}

int main(void) {
    EXPECT(FELTER_OK, felter_one_to_one_new(512, &producer, &consumer));
    stays_until_taken();
    refuses();
    passes_what_is_none();
    each_action();
    felter_free(&producer.handle);
    felter_free(&consumer.handle);
    return 0;
}
