/* The many-to-one and the one-to-one ring; of `ta` its own. */
#ifndef TWINS_RING_H
#define TWINS_RING_H

#if defined TWIN_TA
#include "tail_ring.h"
#else

#include "room.h"

struct ring {
    uint8_t *words;   /* the buffer and the trailer */
    uint8_t *slots;   /* the headers and the bodies: the same, or a block of their own */
    uint8_t *scratch; /* the consumer's copy of a body */
    uint64_t capacity;
    _Alignas(APART) uint64_t own_tail; /* of the producer of a one-to-one ring */
    _Alignas(APART) uint64_t own_head, run; /* of the consumer: its head, and the end of the run that it found last */
};

static inline void ring_open(struct ring *ring, uint64_t capacity, uint64_t start) {
    memset(ring, 0, sizeof *ring);
    ring->words = zeroed(capacity + RING_TRAILER);
    ring->slots = HAS_MARKS ? zeroed(capacity) : ring->words;
    ring->scratch = zeroed(capacity / 8 + 8);
    ring->capacity = capacity;
    ring->own_tail = ring->own_head = start;
    static const int positions[] = {RING_TAIL, RING_CACHED_HEAD, RING_HEAD};
    for (int k = 0; k < 3; k++) memcpy(ring->words + capacity + positions[k], &start, 8);
}

static inline void ring_close(struct ring *ring) {
    free(ring->words);
    if (HAS_MARKS) free(ring->slots);
    free(ring->scratch);
}

static inline uint8_t *in_trailer(const struct ring *ring, int field) {
    return ring->words + ring->capacity + field;
}

/* Tests whether a record fits. Sums are compared and no differences, since a head may be beyond a tail that was loaded
 * long before it; then the tail is no longer the ring's, and the exchange that follows fails. */
static inline int find_room(const struct ring *ring, const struct room *room) {
    if (end_of(room) > LAST_POSITION) return POSITION_LIMIT;
    if (end_of(room) <= load(in_trailer(ring, RING_CACHED_HEAD)) + ring->capacity) return 0;
    uint64_t head = load(in_trailer(ring, RING_HEAD));
    if (end_of(room) > head + ring->capacity) return INSUFFICIENT_CAPACITY;
    store(in_trailer(ring, RING_CACHED_HEAD), head);
    return 0;
}

/* Moves the tail of a ring of many producers past a record: 0, or a refusal. */
static inline int take_room_of_many(struct ring *ring, uint32_t len, struct room *room) {
    uint8_t *word = in_trailer(ring, RING_TAIL);
    for (;;) {
        *room = room_at(ring->capacity, load(word), len);
        int refusal = find_room(ring, room);
        if (refusal) return refusal;
        uint64_t tail = room->tail;
        if (__atomic_compare_exchange_n((uint64_t *)word, &tail, end_of(room), 0, __ATOMIC_SEQ_CST, __ATOMIC_SEQ_CST))
            return 0;
    }
}

/* The same of a ring of one producer, which alone moves the tail. */
static inline int take_room_of_one(struct ring *ring, uint32_t len, struct room *room) {
    *room = room_at(ring->capacity, ring->own_tail, len);
    int refusal = find_room(ring, room);
    if (refusal) return refusal;
    ring->own_tail = end_of(room);
    store(in_trailer(ring, RING_TAIL), ring->own_tail);
    return 0;
}

static inline uint64_t index_of(const struct ring *ring, uint64_t place) {
    return place & (ring->capacity - 1);
}

/* Takes room for a record, and stores the padding before it: the place of the record, or a refusal. */
static inline int64_t take_room(struct ring *ring, bool is_for_one, int32_t type, uint32_t len) {
    struct room room;
    int refusal = test_message(ring->capacity, type, len);
    if (refusal) return refusal;
    refusal = is_for_one ? take_room_of_one(ring, len, &room) : take_room_of_many(ring, len, &room);
    if (refusal) return refusal;
    if (room.padding) store_padding(ring->words + index_of(ring, room.tail), room.tail, room.padding);
    return (int64_t)(room.tail + room.padding);
}

/* Claims a record: its place, or a refusal. */
static inline int64_t ring_claim(struct ring *ring, bool is_for_one, int32_t type, uint32_t len) {
    int64_t place = take_room(ring, is_for_one, type, len);
    if (place < 0) return place;
    uint64_t index = index_of(ring, (uint64_t)place);
    open_record(ring->words + index, ring->slots + index, (uint64_t)place, type, len);
    return place;
}

/* The bytes of a claim. */
static inline uint8_t *claimed_body(const struct ring *ring, int64_t place) {
    return ring->slots + index_of(ring, (uint64_t)place) + HEADER;
}

static inline void ring_commit(struct ring *ring, int64_t place, int32_t type, uint32_t len) {
    commit_record(ring->words + index_of(ring, (uint64_t)place), (uint64_t)place, type, len);
}

static inline void ring_abort(struct ring *ring, int64_t place, uint32_t len) {
    abort_record(ring->words + index_of(ring, (uint64_t)place), (uint64_t)place, len);
}

/* Writes a message: 0, or a refusal. */
static inline int ring_write(struct ring *ring, bool is_for_one, int32_t type, const uint8_t *body, uint32_t len) {
    int64_t place = take_room(ring, is_for_one, type, len);
    if (place < 0) return (int)place;
    uint64_t index = index_of(ring, (uint64_t)place);
    write_record(ring->words + index, ring->slots + index, (uint64_t)place, type, body, len);
    return 0;
}

#if HAS_BATCHES
#include "runs.h"
#endif

/* Gives what was passed back to the producers. */
static inline void give_back(struct ring *ring, uint64_t index, uint64_t bytes) {
    clear_block(ring->words + index, bytes);
    ring->own_head += bytes;
    leave_run(ring->words + index_of(ring, ring->own_head), ring->own_head, ring->run);
    store(in_trailer(ring, RING_HEAD), ring->own_head);
}

static inline const uint8_t *body_at(const struct ring *ring, uint64_t index, uint32_t len) {
    return show_body(ring->slots + index + HEADER, ring->scratch, len);
}

/* Reads at most `limit` messages, up to the end of the buffer, and returns how many. */
static inline uint32_t ring_read(struct ring *ring, uint32_t limit, handler on, void *with) {
    uint64_t start = ring->own_head, index = index_of(ring, start), block = ring->capacity - index, bytes = 0;
    uint32_t messages = 0;
    while (bytes < block && messages < limit) {
        uint64_t at = index + bytes;
        struct header header = load_record(ring->words + at, ring->slots + at, start + bytes, &ring->run);
        if (header.length <= 0) break;
        if (header.type != PADDING) {
            uint32_t len = (uint32_t)header.length - HEADER;
            on(with, header.type, body_at(ring, at, len), len);
            messages++;
        }
        bytes += span_of((uint32_t)header.length);
    }
    if (bytes) give_back(ring, index, bytes);
    return messages;
}

/* The same with a handler that returns an action for each message. */
static inline uint32_t ring_controlled_read(struct ring *ring, uint32_t limit, controller on, void *with) {
    uint64_t start = ring->own_head, index = index_of(ring, start), block = ring->capacity - index;
    uint64_t bytes = 0, given = 0;
    uint32_t messages = 0;
    enum action action = ACT_CONTINUE;
    while (bytes < block && messages < limit && action != ACT_BREAK) {
        uint64_t at = index + bytes;
        struct header header = load_record(ring->words + at, ring->slots + at, start + bytes, &ring->run);
        if (header.length <= 0) break;
        if (header.type != PADDING) {
            uint32_t len = (uint32_t)header.length - HEADER;
            action = on(with, header.type, body_at(ring, at, len), len);
            if (action == ACT_ABORT) break;
            messages++;
        }
        bytes += span_of((uint32_t)header.length);
        if (action == ACT_COMMIT) {
            give_back(ring, index + given, bytes - given);
            given = bytes;
        }
    }
    if (bytes > given) give_back(ring, index + given, bytes - given);
    return messages;
}

static inline uint64_t next_correlation_id(struct ring *ring) {
    return __atomic_fetch_add((uint64_t *)in_trailer(ring, RING_CORRELATION), 1, __ATOMIC_SEQ_CST);
}

#endif
#endif
