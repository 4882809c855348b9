/* Batches of `pb`: records that are next to one another are a run, which one move of the tail and one mark publish. */
#ifndef TWINS_RUNS_H
#define TWINS_RUNS_H

/* The room of the first messages of a batch that are a run at a tail, and how many these are. A run does not go beyond
 * the end of the buffer, and is no longer than the record of the longest message. */
static inline struct room run_at(const struct ring *ring, uint64_t tail, const struct message *messages,
                                 uint32_t *count) {
    uint64_t to_end = ring->capacity - index_of(ring, tail), most = ring->capacity / 8 + HEADER;
    uint64_t limit = to_end < most ? to_end : most;
    struct room run = {tail, 0, 0};
    for (uint32_t k = 0; k < *count; k++) {
        uint64_t span = span_of(HEADER + (uint64_t)messages[k].len);
        if (run.span + span > limit) {
            *count = k;
            break;
        }
        run.span += span;
    }
    return run;
}

/* Moves the tail past a run. Returns how many messages it has, or 0 if no two of them fit. */
static inline uint32_t take_run(struct ring *ring, bool is_for_one, const struct message *messages, uint32_t most,
                                struct room *run) {
    uint8_t *word = in_trailer(ring, RING_TAIL);
    for (;;) {
        uint32_t count = most;
        *run = run_at(ring, is_for_one ? ring->own_tail : load(word), messages, &count);
        if (count < 2 || find_room(ring, run)) return 0;
        uint64_t tail = run->tail;
        if (is_for_one) {
            ring->own_tail = end_of(run);
            store(word, ring->own_tail);
            return count;
        }
        if (__atomic_compare_exchange_n((uint64_t *)word, &tail, end_of(run), 0, __ATOMIC_SEQ_CST, __ATOMIC_SEQ_CST))
            return count;
    }
}

/* Writes the first messages of a batch as a run, or the first one alone: how many, or a refusal. */
static inline int32_t write_some(struct ring *ring, bool is_for_one, const struct message *messages, uint32_t most) {
    struct room run;
    uint32_t count = take_run(ring, is_for_one, messages, most, &run);
    if (count == 0) {
        int refusal = ring_write(ring, is_for_one, messages->type, messages->body, messages->len);
        return refusal ? refusal : 1;
    }
    uint64_t first = index_of(ring, run.tail);
    uint8_t *slot = ring->slots + first;
    for (uint32_t k = 0; k < count; k++) {
        lay_header(slot, messages[k].type, messages[k].len);
        put_body(slot + HEADER, messages[k].body, messages[k].len);
        slot += span_of(HEADER + (uint64_t)messages[k].len);
    }
    store_mark(ring->words + first, end_of(&run), KIND_COMMITTED);
    return (int32_t)count;
}

/* Writes the messages of a batch, as many as there is room for: how many, or a refusal if none. */
static inline int32_t ring_write_batch(struct ring *ring, bool is_for_one, const struct message *messages,
                                       uint32_t count) {
    for (uint32_t k = 0; k < count; k++) {
        int refusal = test_message(ring->capacity, messages[k].type, messages[k].len);
        if (refusal) return refusal;
    }
    uint32_t written = 0;
    while (written < count) {
        int32_t some = write_some(ring, is_for_one, messages + written, count - written);
        if (some < 0) return written ? (int32_t)written : some;
        written += (uint32_t)some;
    }
    return (int32_t)written;
}

#endif
