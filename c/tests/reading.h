/* Reads that tests of rings share. Each compares the whole message, or expects that there is no message. */
#ifndef READING_H
#define READING_H

#include "check.h"

/* Reads one message, and compares all of it. */
static inline void expect_message(felter_consumer *consumer, int32_t type_id, const uint8_t *body, size_t len) {
    uint8_t buffer[512];
    int32_t type_read = -7;
    size_t len_read = 99999;
    memset(buffer, 0xEE, sizeof buffer);
    EXPECT(FELTER_OK, felter_read(consumer, &type_read, &len_read, buffer, sizeof buffer));
    CHECK(type_read == type_id);
    CHECK(len_read == len);
    CHECK(len == 0 || memcmp(buffer, body, len) == 0);
    CHECK(buffer[len] == 0xEE);
}

static inline void expect_none(felter_consumer *consumer) {
    uint8_t buffer[8] = {5};
    int32_t type_id = -7;
    size_t len = 7;
    EXPECT(FELTER_NO_MESSAGE, felter_read(consumer, &type_id, &len, buffer, sizeof buffer));
    CHECK(type_id == -7 && len == 7 && buffer[0] == 5);
}

#endif
