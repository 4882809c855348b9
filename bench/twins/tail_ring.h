/* The ring of `ta`, for one producer and one consumer. The store of the tail publishes. Each side keeps the position of
 * the other that it loaded last, and loads it again only if there is no room or no message by that. Nothing is cleared.
 * This is what rtrb and most such queues do. There are no claims, since the tail publishes records in their order. */
#ifndef TWINS_TAIL_RING_H
#define TWINS_TAIL_RING_H

#include "room.h"

struct ring {
    uint8_t *words; /* the buffer and the trailer */
    uint64_t capacity;
    _Alignas(APART) uint64_t own_tail, known_head; /* of the producer */
    _Alignas(APART) uint64_t own_head, known_tail; /* of the consumer */
};

static inline void ring_open(struct ring *ring, uint64_t capacity, uint64_t start) {
    ring->words = zeroed(capacity + RING_TRAILER);
    ring->capacity = capacity;
    ring->own_tail = ring->own_head = ring->known_tail = ring->known_head = start;
    memcpy(ring->words + capacity + RING_TAIL, &start, 8);
    memcpy(ring->words + capacity + RING_HEAD, &start, 8);
}

static inline void ring_close(struct ring *ring) {
    free(ring->words);
}

static inline uint8_t *in_trailer(const struct ring *ring, int field) {
    return ring->words + ring->capacity + field;
}

/* Tests whether there is room up to an end. */
static inline int find_room(struct ring *ring, uint64_t end) {
    if (end > LAST_POSITION) return POSITION_LIMIT;
    if (end <= ring->known_head + ring->capacity) return 0;
    ring->known_head = load(in_trailer(ring, RING_HEAD));
    return end <= ring->known_head + ring->capacity ? 0 : INSUFFICIENT_CAPACITY;
}

static inline void lay_header(uint8_t *at, uint64_t length, int32_t type) {
    uint64_t word = header_word((int32_t)length, type);
    memcpy(at, &word, 8);
}

/* Lays a record and its padding, which the consumer does not see yet. */
static inline void lay_record(struct ring *ring, const struct room *room, const struct message *message) {
    uint8_t *at = ring->words + (room->tail & (ring->capacity - 1));
    if (room->padding) {
        lay_header(at, room->padding, PADDING);
        at = ring->words;
    }
    lay_header(at, HEADER + message->len, message->type);
    put_body(at + HEADER, message->body, message->len);
}

/* Writes all messages of a batch and publishes them by one store: how many, or a refusal, and then none is written. */
static inline int32_t ring_write_batch(struct ring *ring, bool is_for_one, const struct message *messages,
                                       uint32_t count) {
    (void)is_for_one;
    uint64_t end = ring->own_tail;
    for (uint32_t k = 0; k < count; k++) {
        int refusal = test_message(ring->capacity, messages[k].type, messages[k].len);
        if (refusal) return refusal;
        struct room room = room_at(ring->capacity, end, messages[k].len);
        end = end_of(&room);
    }
    int refusal = find_room(ring, end);
    if (refusal) return refusal;
    uint64_t at = ring->own_tail;
    for (uint32_t k = 0; k < count; k++) {
        struct room room = room_at(ring->capacity, at, messages[k].len);
        lay_record(ring, &room, &messages[k]);
        at = end_of(&room);
    }
    ring->own_tail = end;
    store(in_trailer(ring, RING_TAIL), end);
    return (int32_t)count;
}

/* Writes a message: 0, or a refusal. */
static inline int ring_write(struct ring *ring, bool is_for_one, int32_t type, const uint8_t *body, uint32_t len) {
    int32_t written = ring_write_batch(ring, is_for_one, &(struct message){body, len, type}, 1);
    return written < 0 ? written : 0;
}

/* Gives what is before a place back to the producer. */
static inline void give_back(struct ring *ring, uint64_t place) {
    if (place == ring->own_head) return;
    ring->own_head = place;
    store(in_trailer(ring, RING_HEAD), place);
}

/* Whether a record is at a place. */
static inline bool is_published(struct ring *ring, uint64_t place) {
    if (place < ring->known_tail) return true;
    ring->known_tail = load(in_trailer(ring, RING_TAIL));
    return place < ring->known_tail;
}

/* Reads at most `limit` messages, each as the handler says, and returns how many. */
static inline uint32_t ring_controlled_read(struct ring *ring, uint32_t limit, controller on, void *with) {
    uint64_t place = ring->own_head;
    uint32_t messages = 0;
    enum action action = ACT_CONTINUE;
    while (messages < limit && action != ACT_BREAK && is_published(ring, place)) {
        const uint8_t *at = ring->words + (place & (ring->capacity - 1));
        struct header header = header_of(word_at(at));
        if (header.type != PADDING) {
            action = on(with, header.type, at + HEADER, (uint32_t)header.length - HEADER);
            if (action == ACT_ABORT) break;
            messages++;
        }
        place += span_of((uint32_t)header.length);
        if (action == ACT_COMMIT) give_back(ring, place);
    }
    give_back(ring, place);
    return messages;
}

struct plain_handler {
    handler on;
    void *with;
};

static inline enum action go_on(void *with, int32_t type, const uint8_t *body, uint32_t len) {
    struct plain_handler *plain = with;
    plain->on(plain->with, type, body, len);
    return ACT_CONTINUE;
}

/* Reads at most `limit` messages, and returns how many. */
static inline uint32_t ring_read(struct ring *ring, uint32_t limit, handler on, void *with) {
    struct plain_handler plain = {on, with};
    return ring_controlled_read(ring, limit, go_on, &plain);
}

static inline uint64_t next_correlation_id(struct ring *ring) {
    return __atomic_fetch_add((uint64_t *)in_trailer(ring, RING_CORRELATION), 1, __ATOMIC_SEQ_CST);
}

#endif
