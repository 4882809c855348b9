/* The broadcast buffer. */
#ifndef TWINS_BOARD_H
#define TWINS_BOARD_H

#include "steps.h"

#include <stdbool.h>

struct board {
    uint8_t *words; /* the buffer and the trailer */
    uint64_t capacity;
    _Alignas(APART) uint64_t own_tail; /* of the transmitter */
};

/* What one receiver has seen, and its copy of the last message. */
struct receiver {
    const uint8_t *words;
    uint8_t *copy;
    uint64_t capacity, place, lapped;
    int32_t type;
    uint32_t len;
};

enum reception { NOTHING, COPIED, LAPPED };

static inline void board_open(struct board *board, uint64_t capacity, uint64_t start) {
    board->words = zeroed(capacity + BOARD_TRAILER);
    board->capacity = capacity;
    board->own_tail = start;
    for (int field = BOARD_INTENT; field <= BOARD_LATEST; field += 8)
        memcpy(board->words + capacity + field, &start, 8);
}

static inline void board_close(struct board *board) {
    free(board->words);
}

/* Transmits a message: 0, or a refusal. It never waits for a receiver. */
static inline int board_transmit(struct board *board, int32_t type, const uint8_t *body, uint32_t len) {
    uint64_t capacity = board->capacity, index = board->own_tail & (capacity - 1), to_end = capacity - index;
    uint64_t span = span_of(HEADER + (uint64_t)len), padding = span > to_end ? to_end : 0;
    if (type < 1) return BAD_TYPE;
    if (len > capacity / 8) return TOO_LONG;
    uint64_t place = board->own_tail + padding, end = place + span;
    if (end > LAST_POSITION) return POSITION_LIMIT;
    uint8_t *trailer = board->words + capacity;
    store(trailer + BOARD_INTENT, end);
    before_bodies();
    if (padding) {
        store_copied(board->words + index, (int32_t)padding, PADDING);
        index = 0;
    }
    put_copy(board->words + index + HEADER, body, len);
    store_copied(board->words + index, (int32_t)(HEADER + len), type);
    store(trailer + BOARD_LATEST, place);
    store(trailer + BOARD_TAIL, end);
    board->own_tail = end;
    return 0;
}

/* A receiver that begins with the latest record. */
static inline void receiver_open(struct receiver *receiver, const struct board *board) {
    memset(receiver, 0, sizeof *receiver);
    receiver->words = board->words;
    receiver->capacity = board->capacity;
    receiver->copy = zeroed(board->capacity / 8 + 8);
    receiver->place = load(board->words + board->capacity + BOARD_LATEST);
}

static inline void receiver_close(struct receiver *receiver) {
    free(receiver->copy);
}

/* Whether what was loaded from a place was whole. */
static inline bool was_whole(const struct receiver *receiver, uint64_t place) {
    before_check();
    return load(receiver->words + receiver->capacity + BOARD_INTENT) < place + receiver->capacity;
}

static inline enum reception go_on_with_latest(struct receiver *receiver) {
    receiver->lapped++;
    receiver->place = load(receiver->words + receiver->capacity + BOARD_LATEST);
    return LAPPED;
}

/* Copies the next message, if there is one that was not overwritten. */
static inline enum reception board_receive(struct receiver *receiver) {
    uint64_t place = receiver->place, capacity = receiver->capacity;
    if (load(receiver->words + capacity + BOARD_TAIL) <= place) return NOTHING;
    const uint8_t *at = receiver->words + (place & (capacity - 1));
    struct header header = load_copied(at);
    if (!was_whole(receiver, place)) return go_on_with_latest(receiver);
    if (header.type == PADDING) {
        place += (uint64_t)header.length;
        at = receiver->words;
        header = load_copied(at);
        if (!was_whole(receiver, place)) return go_on_with_latest(receiver);
    }
    receiver->len = (uint32_t)header.length - HEADER;
    receiver->type = header.type;
    get_copy(at + HEADER, receiver->copy, receiver->len);
    if (!was_whole(receiver, place)) return go_on_with_latest(receiver);
    receiver->place = place + span_of((uint32_t)header.length);
    return COPIED;
}

#endif
