/* Random calls of the consumer of a ring. */
#include "calls_rings.h"

/* The head may have passed what no message is of; the model follows it. */
void ring_look_at_positions(struct ring *ring) {
    int at = ring_some_producer(ring);
    uint64_t head = UNTOUCHED, tail = UNTOUCHED;
    if (at < 0) return;
    if (CALL(FELTER_OK, felter_positions(&ring->producers[at], &head, &tail))) return;
    CHECK(tail == ring->model.records.tail);
    CHECK(model_pass(&ring->model, head));
}

/* Passes a message that was read. */
static void take(struct ring *ring, const struct record *record) {
    uint64_t place = record->place, end = place + record->span;
    CHECK(model_pass(&ring->model, place));
    model_at(&ring->model.records, 0)->state = ABORTED;
    CHECK(model_pass(&ring->model, end));
}

/* Reads the next message, or looks at it, and then it stays. */
void ring_read_one(struct ring *ring, bool stays) {
    struct record *next = model_next(&ring->model);
    size_t most = ring->model.records.capacity / 8, its = next ? next->len : 0;
    size_t room = (size_t)ONE_OF(most, most, its, its + 1, its ? its - 1 : 0, pick(most + 1)), len = UNTOUCHED;
    int32_t type_id = UNTOUCHED;
    uint8_t *buffer = output(room);
    int32_t wanted = !next ? FELTER_NO_MESSAGE : room < its ? FELTER_SHORT_BUFFER : FELTER_OK;
    int32_t code = stays ? CALL(wanted, felter_peek(&ring->consumer, &type_id, &len, buffer, room))
                         : CALL(wanted, felter_read(&ring->consumer, &type_id, &len, buffer, room));
    if (code == FELTER_SHORT_BUFFER) CHECK(len == its && type_id == next->type_id);
    if (code == FELTER_NO_MESSAGE) CHECK(len == UNTOUCHED && type_id == UNTOUCHED);
    if (code == FELTER_OK) {
        CHECK(type_id == next->type_id && len == its);
        CHECK(!len || memcmp(buffer, model_body(&ring->model.records, next), len) == 0);
        for (size_t k = len; k < room; k++) CHECK(buffer[k] == 0xa5);
        if (!stays) take(ring, next);
    }
    ring_look_at_positions(ring);
}

void ring_take_one(struct ring *ring) {
    struct record *next = model_next(&ring->model);
    int32_t code = CALL(next ? FELTER_OK : FELTER_NO_MESSAGE, felter_take(&ring->consumer));
    if (code == FELTER_OK) take(ring, next);
    ring_look_at_positions(ring);
}

/* What the consumer has before it. It passes what no message is of, which is a change. */
void ring_look_ahead(struct ring *ring, int at) {
    uint64_t before = UNTOUCHED, head = UNTOUCHED, claimed = UNTOUCHED;
    int32_t found = UNTOUCHED;
    if (CALL(FELTER_OK, felter_positions(&ring->producers[at], &before, &claimed))) return;
    if (CALL(FELTER_OK, felter_standing(&ring->producers[at], &ring->consumer, &found, &head))) return;
    CHECK(model_pass(&ring->model, head));
    struct record *next = model_next(&ring->model);
    struct record *first = ring->model.records.count ? model_at(&ring->model.records, 0) : NULL;
    int32_t wanted = next          ? FELTER_FOUND_MESSAGE
        : head != before           ? FELTER_FOUND_CHANGE
        : head == claimed          ? FELTER_FOUND_NONE
                                   : FELTER_FOUND_CLAIM;
    CHECK(found == wanted);
    if (found == FELTER_FOUND_CLAIM) CHECK(first && first->state == OPEN && first->place == head);
}

void ring_read_batch(struct ring *ring) {
    struct record *next = model_next(&ring->model);
    uint32_t limit = (uint32_t)ONE_OF(0, 1, 2, 5, UINT32_MAX), count = UNTOUCHED;
    size_t most = FELTER_SPAN(ring->model.records.capacity / 8), its = next ? FELTER_SPAN(next->len) : 0;
    size_t room = (size_t)ONE_OF(most, 4 * most, its, its ? its - 1 : 0, pick(2 * most)), used = UNTOUCHED, at = 0;
    uint8_t *buffer = output(room);
    int32_t wanted = !next || !limit ? FELTER_NO_MESSAGE : room < its ? FELTER_SHORT_BUFFER : FELTER_OK;
    int32_t code = CALL(wanted, felter_read_batch(&ring->consumer, limit, &count, &used, buffer, room));
    if (code) CHECK(count == UNTOUCHED && used == UNTOUCHED);
    else CHECK(count >= 1 && count <= limit && used <= room);
    for (uint32_t k = 0; !code && k < count; k++) {
        felter_record record;
        next = model_next(&ring->model);
        CHECK(next && at + sizeof record <= used);
        memcpy(&record, buffer + at, sizeof record);
        CHECK(record.len == next->len && record.type_id == next->type_id && at + FELTER_SPAN(record.len) <= used);
        const uint8_t *body = model_body(&ring->model.records, next);
        CHECK(!record.len || memcmp(buffer + at + sizeof record, body, next->len) == 0);
        at += FELTER_SPAN(record.len);
        take(ring, next);
    }
    if (!code) CHECK(at == used);
    ring_look_at_positions(ring);
}
