/* What a consumer has before it: a message, nothing, or a claim that holds it up. */
#include "check.h"

static felter_producer producer = FELTER_EMPTY;
static felter_consumer consumer = FELTER_EMPTY;

static void stands(int32_t wanted, uint64_t place) {
    int32_t found = 77;
    uint64_t head = 77;
    EXPECT(FELTER_OK, felter_standing(&producer, &consumer, &found, &head));
    CHECK(found == wanted && head == place);
}

static void reads(int32_t wanted, const char *body) {
    int32_t type_id = 0;
    size_t len = 0;
    uint8_t buffer[64];
    EXPECT(FELTER_OK, felter_read(&consumer, &type_id, &len, buffer, sizeof buffer));
    CHECK(type_id == wanted && len == strlen(body) && memcmp(buffer, body, len) == 0);
}

/* Each of them, and a message of no bytes, which stays too. */
static void each(void) {
    uint64_t claim = 0;
    stands(FELTER_FOUND_NONE, 0);
    EXPECT(FELTER_OK, felter_claim(&producer, 1, 5, &claim));
    stands(FELTER_FOUND_CLAIM, 0);
    EXPECT(FELTER_OK, felter_write(&producer, 2, "", 0));
    stands(FELTER_FOUND_CLAIM, 0);
    EXPECT(FELTER_OK, felter_put(&producer, claim, 0, "claim", 5));
    EXPECT(FELTER_OK, felter_commit(&producer, claim));
    stands(FELTER_FOUND_MESSAGE, 0);
    stands(FELTER_FOUND_MESSAGE, 0);
    reads(1, "claim");
    stands(FELTER_FOUND_MESSAGE, 16);
    reads(2, "");
    stands(FELTER_FOUND_NONE, 24);
}

/* An aborted record, and padding at the end of the buffer, are passed, which is a change. */
static void passes(void) {
    uint64_t claim = 0;
    int i;
    EXPECT(FELTER_OK, felter_claim(&producer, 1, 8, &claim));
    EXPECT(FELTER_OK, felter_abort(&producer, claim));
    stands(FELTER_FOUND_CHANGE, 40);
    stands(FELTER_FOUND_NONE, 40);
    for (i = 0; i < 9; i++) {
        EXPECT(FELTER_OK, felter_write(&producer, 1, "thirty-nine bytes of a body, and no more", 39));
        reads(1, "thirty-nine bytes of a body, and no mor");
    }
    stands(FELTER_FOUND_NONE, 472);
    /* 40 bytes are left up to the end of the buffer, which are padding before this one. */
    EXPECT(FELTER_OK, felter_claim(&producer, 1, 40, &claim));
    CHECK(claim == 512);
    stands(FELTER_FOUND_CHANGE, 512);
    stands(FELTER_FOUND_CLAIM, 512);
    EXPECT(FELTER_OK, felter_abort(&producer, claim));
    stands(FELTER_FOUND_CHANGE, 560);
    stands(FELTER_FOUND_NONE, 560);
}

static void refuses(void) {
    int32_t found = 77;
    uint64_t head = 77;
    felter_producer none = FELTER_EMPTY;
    felter_consumer nobody = FELTER_EMPTY;
    EXPECT(FELTER_NO_HANDLE, felter_standing(&none, &consumer, &found, &head));
    EXPECT(FELTER_NO_HANDLE, felter_standing(&producer, &nobody, &found, &head));
    EXPECT(FELTER_NO_HANDLE, felter_standing(NULL, &consumer, &found, &head));
    EXPECT(FELTER_NULL_POINTER, felter_standing(&producer, &consumer, NULL, &head));
    EXPECT(FELTER_NULL_POINTER, felter_standing(&producer, &consumer, &found, NULL));
    CHECK(found == 77 && head == 77);
}

int main(void) {
    EXPECT(FELTER_OK, felter_one_to_one_new(512, &producer, &consumer));
    each();
    passes();
    refuses();
    felter_free(&producer.handle);
    felter_free(&consumer.handle);
    return 0;
}
