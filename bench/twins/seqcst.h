/* Steps that are sequentially consistent, each on one word: all steps of `sc`, and those of `pb` on words. */
#ifndef TWINS_SEQCST_H
#define TWINS_SEQCST_H

#include "layout.h"

static inline uint64_t load(const uint8_t *word) {
    return __atomic_load_n((const uint64_t *)word, __ATOMIC_SEQ_CST);
}

static inline void store(uint8_t *word, uint64_t value) {
    __atomic_store_n((uint64_t *)word, value, __ATOMIC_SEQ_CST);
}

static inline struct header load_header(const uint8_t *at) {
    return header_of(load(at));
}

static inline void open_header(uint8_t *at, int32_t length, int32_t type) {
    store(at, header_word(-length, type));
}

static inline void settle_header(uint8_t *at, int32_t length, int32_t type) {
    store(at, header_word(length, type));
}

/* Bytes into words, one store each. The last word has zeros after the last byte. */
static inline void put_words(uint8_t *to, const uint8_t *body, uint32_t len) {
    uint32_t k = 0;
    for (; k + 8 <= len; k += 8) store(to + k, word_at(body + k));
    if (k < len) {
        uint64_t last = 0;
        for (uint32_t byte = 0; k + byte < len; byte++) last |= (uint64_t)body[k + byte] << 8 * byte;
        store(to + k, last);
    }
}

/* Words into bytes, one load each. The copy has room for whole words. */
static inline void get_words(const uint8_t *from, uint8_t *copy, uint32_t len) {
    for (uint32_t k = 0; k < len; k += 8) {
        uint64_t word = load(from + k);
        memcpy(copy + k, &word, 8);
    }
}

static inline void put_copy(uint8_t *to, const uint8_t *body, uint32_t len) {
    put_words(to, body, len);
}

static inline void get_copy(const uint8_t *from, uint8_t *copy, uint32_t len) {
    get_words(from, copy, len);
}

static inline struct header load_copied(const uint8_t *at) {
    return load_header(at);
}

static inline void store_copied(uint8_t *at, int32_t length, int32_t type) {
    settle_header(at, length, type);
}

static inline void before_bodies(void) {
}

static inline void before_check(void) {
}

#endif
