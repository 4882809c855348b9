/* What all rings have: where a record goes, and what handlers are. */
#ifndef TWINS_ROOM_H
#define TWINS_ROOM_H

#include "steps.h"

/* What a handler of a controlled read returns. */
enum action { ACT_ABORT, ACT_BREAK, ACT_COMMIT, ACT_CONTINUE };

typedef void (*handler)(void *with, int32_t type, const uint8_t *body, uint32_t len);
typedef enum action (*controller)(void *with, int32_t type, const uint8_t *body, uint32_t len);

/* A message of a batch. */
struct message {
    const uint8_t *body;
    uint32_t len;
    int32_t type;
};

/* What a record would take: the padding before it and its span, from a tail on. */
struct room {
    uint64_t tail, padding, span;
};

static inline uint64_t end_of(const struct room *room) {
    return room->tail + room->padding + room->span;
}

static inline struct room room_at(uint64_t capacity, uint64_t tail, uint32_t len) {
    uint64_t to_end = capacity - (tail & (capacity - 1));
    uint64_t span = span_of(HEADER + (uint64_t)len);
    return (struct room){tail, span > to_end ? to_end : 0, span};
}

static inline int test_message(uint64_t capacity, int32_t type, uint32_t len) {
    if (type < 1) return BAD_TYPE;
    return len > capacity / 8 ? TOO_LONG : 0;
}

#endif
