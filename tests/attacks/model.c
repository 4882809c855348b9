#include "model.h"

#include <string.h>

/* Records ---------------------------------------------------------------------------------------------------------- */

int32_t model_capacity(uint32_t capacity, uint32_t least, uint64_t start) {
    if (capacity < least || capacity > 1u << 24 || (capacity & (capacity - 1))) return FELTER_BAD_CAPACITY;
    return start % capacity || start > LAST ? FELTER_BAD_START : FELTER_OK;
}

static void open_records(struct records *records, uint32_t capacity, uint64_t start) {
    records->capacity = capacity;
    records->first = records->count = 0;
    records->tail = start;
}

struct record *model_at(struct records *records, uint32_t k) {
    return &records->of[(records->first + k) % MAX_RECORDS];
}

uint8_t *model_body(struct records *records, const struct record *record) {
    return records->bodies + record->place % records->capacity;
}

/* Where the record of a message goes. */
static int32_t place_of(const struct records *records, int32_t type_id, size_t len, uint64_t *place, uint64_t *end) {
    if (type_id < 1) return FELTER_BAD_TYPE;
    if (len > records->capacity / 8) return FELTER_TOO_LONG;
    uint64_t span = (8 + len + 7) / 8 * 8, to_end = records->capacity - records->tail % records->capacity;
    *place = records->tail + (span > to_end ? to_end : 0);
    *end = *place + span;
    return *end > LAST ? FELTER_POSITION_LIMIT : FELTER_OK;
}

/* Appends a record, and before it the padding that it needs. */
static struct record *append(struct records *records, uint64_t place, uint64_t end, int32_t type_id, size_t len) {
    if (place > records->tail)
        *model_at(records, records->count++) =
            (struct record){records->tail, place - records->tail, PADDED, 0, 0, 0};
    struct record *record = model_at(records, records->count++);
    *record = (struct record){place, end - place, OPEN, type_id, (uint32_t)len, 0};
    records->tail = end;
    return record;
}

static void drop_first(struct records *records) {
    records->first = (records->first + 1) % MAX_RECORDS;
    records->count--;
}

/* Rings ------------------------------------------------------------------------------------------------------------ */

void model_ring_open(struct model_ring *ring, uint32_t capacity, uint64_t start) {
    open_records(&ring->records, capacity, start);
    ring->head = start;
    ring->drawn = ring->heartbeat = 0;
}

int32_t model_claim(struct model_ring *ring, int32_t type_id, size_t len, struct record **claimed) {
    uint64_t place, end;
    int32_t code = place_of(&ring->records, type_id, len, &place, &end);
    if (code) return code;
    if (end > ring->head + ring->records.capacity) return FELTER_INSUFFICIENT_CAPACITY;
    *claimed = append(&ring->records, place, end, type_id, len);
    memset(model_body(&ring->records, *claimed), 0, len);
    return FELTER_OK;
}

struct record *model_find(struct model_ring *ring, int owner, uint64_t place) {
    for (uint32_t k = 0; k < ring->records.count; k++) {
        struct record *record = model_at(&ring->records, k);
        if (record->state == OPEN && record->owner == owner && record->place == place) return record;
    }
    return NULL;
}

struct record *model_next(struct model_ring *ring) {
    for (uint32_t k = 0; k < ring->records.count; k++) {
        struct record *record = model_at(&ring->records, k);
        if (record->state == COMMITTED) return record;
        if (record->state == OPEN) return NULL;
    }
    return NULL;
}

bool model_pass(struct model_ring *ring, uint64_t head) {
    while (ring->head < head && ring->records.count) {
        struct record *record = model_at(&ring->records, 0);
        if (record->state == OPEN || record->state == COMMITTED) return false;
        ring->head = record->place + record->span;
        drop_first(&ring->records);
    }
    return ring->head == head;
}

uint64_t model_left(struct model_ring *ring) {
    uint64_t left = 0;
    for (uint32_t k = 0; k < ring->records.count; k++) left += model_at(&ring->records, k)->state == COMMITTED;
    return left;
}

/* Broadcast buffers ------------------------------------------------------------------------------------------------ */

void model_board_open(struct model_board *board, uint32_t capacity, uint64_t start) {
    open_records(&board->records, capacity, start);
    board->latest = start;
}

bool model_is_whole(const struct model_board *board, uint64_t place) {
    return board->records.tail < place + board->records.capacity;
}

int32_t model_transmit(struct model_board *board, int32_t type_id, const uint8_t *body, size_t len) {
    uint64_t place, end;
    int32_t code = place_of(&board->records, type_id, len, &place, &end);
    if (code) return code;
    struct record *record = append(&board->records, place, end, type_id, len);
    record->state = COMMITTED;
    if (len) memcpy(model_body(&board->records, record), body, len);
    board->latest = place;
    while (board->records.count && !model_is_whole(board, model_at(&board->records, 0)->place))
        drop_first(&board->records);
    return FELTER_OK;
}

int32_t model_receive(struct model_board *board, struct model_receiver *receiver, struct record **found) {
    if (board->records.tail <= receiver->place) return FELTER_NO_MESSAGE;
    if (!model_is_whole(board, receiver->place)) {
        receiver->lapped++;
        receiver->lap_place = receiver->place;
        receiver->lap_intent = board->records.tail;
        receiver->place = board->latest;
        return FELTER_LAPPED;
    }
    for (uint32_t k = 0; k < board->records.count; k++) {
        struct record *record = model_at(&board->records, k);
        if (record->place < receiver->place || record->state == PADDED) continue;
        receiver->place = record->place + record->span;
        *found = record;
        return FELTER_OK;
    }
    return FELTER_NO_MESSAGE;
}

/* Counters --------------------------------------------------------------------------------------------------------- */

void model_counters_open(struct model_counters *counters, uint32_t count, uint32_t reuse_ms) {
    memset(counters, 0, sizeof *counters);
    counters->count = count;
    counters->reuse_ms = reuse_ms;
}

/* The first freed id that is due, otherwise the lowest unused one. */
static bool take_id(struct model_counters *counters, uint64_t now, uint32_t *id) {
    for (uint32_t k = 0; k < counters->waiting; k++) {
        if (counters->of[counters->freed[k]].due > now) continue;
        *id = counters->freed[k];
        counters->waiting--;
        memmove(&counters->freed[k], &counters->freed[k + 1], (counters->waiting - k) * sizeof counters->freed[0]);
        return true;
    }
    for (*id = 0; *id < counters->count; ++*id)
        if (!counters->of[*id].was_used) return true;
    return false;
}

int32_t model_allocate(struct model_counters *counters, uint64_t now, const struct description *of, uint32_t *id) {
    if (of->key_len > MAX_KEY) return FELTER_KEY_TOO_LONG;
    if (of->label_len > MAX_LABEL) return FELTER_LABEL_TOO_LONG;
    for (uint32_t k = 0; k < of->label_len; k++)
        if (of->label[k] > 127) return FELTER_LABEL_NOT_ASCII;
    if (!take_id(counters, now, id)) return FELTER_NO_FREE_COUNTER;
    struct model_counter *counter = &counters->of[*id];
    memset(counter, 0, sizeof *counter);
    counter->was_used = counter->is_used = true;
    counter->type_id = of->type_id;
    if (of->key_len) memcpy(counter->key, of->key, of->key_len);
    if (of->label_len) memcpy(counter->label, of->label, of->label_len);
    counter->label_len = of->label_len;
    counter->registration = of->registration;
    counter->owner = of->owner;
    return FELTER_OK;
}

int32_t model_used(const struct model_counters *counters, uint32_t id) {
    if (id >= counters->count) return FELTER_BAD_ID;
    return counters->of[id].is_used ? FELTER_OK : FELTER_NOT_ALLOCATED;
}

void model_free(struct model_counters *counters, uint64_t now, uint32_t id) {
    counters->of[id].is_used = false;
    counters->of[id].due = now + counters->reuse_ms;
    counters->freed[counters->waiting++] = id;
}

int32_t model_state(const struct model_counters *counters, uint32_t id) {
    return !counters->of[id].was_used ? 0 : counters->of[id].is_used ? 1 : -1;
}

uint64_t model_deadline(const struct model_counters *counters, uint32_t id) {
    return !counters->of[id].was_used ? 0 : counters->of[id].is_used ? INT64_MAX : counters->of[id].due;
}

uint32_t model_available(const struct model_counters *counters, uint64_t now) {
    uint32_t available = 0;
    for (uint32_t id = 0; id < counters->count; id++)
        available += !counters->of[id].is_used && model_deadline(counters, id) <= now;
    return available;
}

uint32_t model_close_owner(struct model_counters *counters, uint64_t now, uint64_t owner) {
    uint32_t closed = 0;
    for (uint32_t id = 0; id < counters->count; id++) {
        if (!counters->of[id].is_used || counters->of[id].owner != owner) continue;
        model_free(counters, now, id);
        closed++;
    }
    return closed;
}
