/* The records of a ring whose words have headers, as in Agrona's layout: `ar` and `sc`. The functions are those of
 * steps.h. A record has no slot of its own, and its header does not depend on its place. */
#ifndef TWINS_HEADERS_H
#define TWINS_HEADERS_H

#define HAS_MARKS 0

static inline struct header load_record(const uint8_t *word, const uint8_t *slot, uint64_t place, uint64_t *run) {
    (void)slot, (void)place, (void)run;
    return load_header(word);
}

static inline void leave_run(uint8_t *word, uint64_t place, uint64_t run) {
    (void)word, (void)place, (void)run;
}

static inline void store_padding(uint8_t *word, uint64_t place, uint64_t bytes) {
    (void)place;
    settle_header(word, (int32_t)bytes, PADDING);
}

static inline void open_record(uint8_t *word, uint8_t *slot, uint64_t place, int32_t type, uint32_t len) {
    (void)slot, (void)place;
    open_header(word, (int32_t)(HEADER + len), type);
}

static inline void commit_record(uint8_t *word, uint64_t place, int32_t type, uint32_t len) {
    (void)place;
    settle_header(word, (int32_t)(HEADER + len), type);
}

static inline void abort_record(uint8_t *word, uint64_t place, uint32_t len) {
    (void)place;
    settle_header(word, (int32_t)(HEADER + len), PADDING);
}

static inline void write_record(uint8_t *word, uint8_t *slot, uint64_t place, int32_t type, const uint8_t *body,
                                uint32_t len) {
    open_record(word, slot, place, type, len);
    put_body(slot + HEADER, body, len);
    commit_record(word, place, type, len);
}

#endif
