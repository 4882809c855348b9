/* Random calls that recover the messages of a ring from its memory. */
#include "calls_rings.h"

/* How many bytes the messages of the ring take in a buffer, how many they are, and how many claims are open. */
struct sizes {
    size_t used;
    uint32_t count;
    uint64_t open;
};

static struct sizes sizes_of(struct ring *ring) {
    struct sizes sizes = {0, 0, 0};
    for (uint32_t k = 0; k < ring->model.records.count; k++) {
        struct record *record = model_at(&ring->model.records, k);
        sizes.open += record->state == OPEN;
        if (record->state != COMMITTED) continue;
        sizes.used += FELTER_SPAN(record->len);
        sizes.count++;
    }
    return sizes;
}

/* Compares a buffer with the committed messages. Only its first bytes were written. */
static void compare(struct ring *ring, const uint8_t *buffer, size_t used, size_t room) {
    size_t at = 0;
    for (uint32_t k = 0; k < ring->model.records.count; k++) {
        struct record *it = model_at(&ring->model.records, k);
        felter_record record;
        if (it->state != COMMITTED) continue;
        memcpy(&record, buffer + at, sizeof record);
        CHECK(record.len == it->len && record.type_id == it->type_id);
        CHECK(!it->len || memcmp(buffer + at + sizeof record, model_body(&ring->model.records, it), it->len) == 0);
        at += FELTER_SPAN(record.len);
    }
    CHECK(at == used);
    for (; at < room; at++) CHECK(buffer[at] == 0xa5);
}

static size_t length_of(const struct ring *ring) {
    return 896 + 2 * (size_t)ring->model.records.capacity;
}

/* The same by the image and by its words and slots. */
static int32_t recover_by(const struct ring *ring, int32_t wanted, uint64_t *open, uint32_t *count, size_t *used,
                          uint8_t *buffer, size_t room) {
    size_t capacity = ring->model.records.capacity;
    uint64_t place = UNTOUCHED;
    int64_t found = UNTOUCHED;
    if (once_in(2)) return CALL(wanted, felter_recover(ring->image, length_of(ring), open, count, used, buffer, room));
    const uint64_t *words = (const uint64_t *)(const void *)(ring->image + 128);
    const uint64_t *slots = (const uint64_t *)(const void *)(ring->image + 896 + capacity);
    int32_t code = CALL(wanted, felter_recover_words(words, capacity / 8 + 96, slots, capacity / 8, &place, &found,
                                                     open, count, used, buffer, room));
    CHECK(place == UNTOUCHED && found == UNTOUCHED);
    return code;
}

/* A damaged copy gives no more than the buffer has room for, and the same finding as in words. */
static void recover_damaged(const struct ring *ring) {
    size_t length = length_of(ring), used = UNTOUCHED, len = UNTOUCHED, room = (size_t)pick(length);
    uint8_t *copy = input(length), *buffer = output(room);
    uint64_t open = UNTOUCHED;
    uint32_t count = UNTOUCHED;
    char text[128] = "none";
    memcpy(copy, ring->image, length);
    for (uint64_t k = pick(4); k < 4; k++) copy[pick(length)] = (uint8_t)ONE_OF(0, 1, 8, 255, pick(256));
    int32_t code = felter_recover(copy, length, &open, &count, &used, buffer, room);
    CHECK(felter_finding(copy, length, &len, text, sizeof text) == FELTER_OK && len == strlen(text));
    bool is_sound = code == FELTER_OK || code == FELTER_SHORT_BUFFER;
    CHECK(is_sound || (code >= FELTER_NO_IMAGE && code <= FELTER_BAD_HEADER_TYPE));
    if (is_sound) {
        CHECK(len == 0 && (used <= room) == (code == FELTER_OK) && used <= 2 * (size_t)ring->model.records.capacity);
    } else {
        CHECK(strncmp(text, felter_text(code), strlen(felter_text(code))) == 0);
        CHECK(open == UNTOUCHED && count == UNTOUCHED && used == UNTOUCHED);
    }
    for (size_t at = code ? 0 : used; at < room; at++) CHECK(buffer[at] == 0xa5);
}

void ring_recover(struct ring *ring) {
    struct sizes its = sizes_of(ring);
    size_t most = 2 * (size_t)ring->model.records.capacity, used = UNTOUCHED;
    size_t room = (size_t)ONE_OF(most, its.used, its.used ? its.used - 1 : 0, pick(most + 1));
    uint64_t open = UNTOUCHED;
    uint32_t count = UNTOUCHED;
    uint8_t *buffer = output(room);
    int32_t wanted = room < its.used ? FELTER_SHORT_BUFFER : FELTER_OK;
    recover_by(ring, wanted, &open, &count, &used, buffer, room);
    CHECK(open == its.open && count == its.count && used == its.used && used <= most);
    if (wanted == FELTER_OK) compare(ring, buffer, used, room);
    for (size_t at = 0; wanted && at < room; at++) CHECK(buffer[at] == 0xa5);
    recover_damaged(ring);
}
