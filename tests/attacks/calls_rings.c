/* Random calls of rings of both kinds. */
#include "calls_rings.h"

#define RINGS 2

static struct ring rings[RINGS];
static const felter_producer no_producer = FELTER_EMPTY;

/* Which producers there are; a ring is gone with its last handle. */
int ring_some_producer(const struct ring *ring) {
    int all = 0, found[PRODUCERS];
    for (int k = 0; k < PRODUCERS; k++)
        if (ring->has[k]) found[all++] = k;
    return all ? found[pick((uint64_t)all)] : -1;
}

static int no_producer_at(const struct ring *ring) {
    for (int k = 0; k < PRODUCERS; k++)
        if (!ring->has[k]) return k;
    return -1;
}

/* Whether another producer is in a handle: only then a close misses shares. */
static bool has_another(const struct ring *ring, int at) {
    for (int k = 0; k < PRODUCERS; k++)
        if (k != at && ring->has[k]) return true;
    return false;
}

static void look_whether_gone(struct ring *ring) {
    bool is_there = ring->has_consumer;
    for (int k = 0; k < PRODUCERS; k++) is_there |= ring->has[k];
    ring->is_there = is_there;
}

/* Makes a ring by one of the eight calls that do. */
static int32_t make_by(struct ring *ring, int32_t wanted, bool is_one, bool is_at, uint32_t capacity, uint64_t start) {
    felter_producer *producer = &ring->producers[0];
    felter_consumer *consumer = &ring->consumer;
    if (once_in(2)) {
        uint64_t number = some_number();
        if (is_one && is_at)
            return CALL(wanted, felter_one_to_one_new_at_numbered(number, capacity, start, producer, consumer));
        if (is_one) return CALL(wanted, felter_one_to_one_new_numbered(number, capacity, producer, consumer));
        if (is_at)
            return CALL(wanted, felter_many_to_one_new_at_numbered(number, capacity, start, producer, consumer));
        return CALL(wanted, felter_many_to_one_new_numbered(number, capacity, producer, consumer));
    }
    if (is_one && is_at) return CALL(wanted, felter_one_to_one_new_at(capacity, start, producer, consumer));
    if (is_one) return CALL(wanted, felter_one_to_one_new(capacity, producer, consumer));
    if (is_at) return CALL(wanted, felter_many_to_one_new_at(capacity, start, producer, consumer));
    return CALL(wanted, felter_many_to_one_new(capacity, producer, consumer));
}

/* Makes a ring in memory that is passed. */
static int32_t make_in(struct ring *ring, int32_t wanted, bool is_one, uint32_t capacity) {
    felter_producer *to = &ring->producers[0];
    felter_consumer *by = &ring->consumer;
    size_t needed = 4096;
    CALL(wanted, felter_ring_memory(capacity, &needed));
    CHECK(needed == (wanted ? 4096 : 896 + 2 * (size_t)capacity));
    struct lent in = lend_memory(RING_MEMORY + (int)(ring - rings), needed);
    /* (NULL comes first) */
    if (wanted == FELTER_OK || !in.at) wanted = in.code;
    bool is_numbered = once_in(2);
    uint64_t number = some_number();
    int32_t code = is_one
        ? is_numbered ? CALL(wanted, felter_one_to_one_new_in_numbered(number, in.at, in.length, capacity, to, by))
                      : CALL(wanted, felter_one_to_one_new_in(in.at, in.length, capacity, to, by))
        : is_numbered ? CALL(wanted, felter_many_to_one_new_in_numbered(number, in.at, in.length, capacity, to, by))
                      : CALL(wanted, felter_many_to_one_new_in(in.at, in.length, capacity, to, by));
    check_memory(&in, code);
    ring->image = in.at;
    return code;
}

static void make(struct ring *ring) {
    bool is_one = once_in(3), is_in = once_in(3), is_at = !is_in && once_in(2);
    uint32_t capacity = (uint32_t)ONE_OF(128, 128, 256, 1024, 8192, 16384, 0, 64, 100);
    uint64_t start = is_at ? some_start(capacity) : 0;
    int32_t wanted = model_capacity(capacity, 128, start);
    felter_producer *producer = &ring->producers[0];
    ring->image = NULL;
    int32_t code = is_in ? make_in(ring, wanted, is_one, capacity)
                         : make_by(ring, wanted, is_one, is_at, capacity, start);
    CHECK((code == FELTER_OK) == (producer->handle.at != NULL));
    CHECK((code == FELTER_OK) == (ring->consumer.handle.at != NULL));
    if (code) return;
    ring->is_there = ring->has_consumer = ring->has[0] = true;
    ring->is_one = is_one;
    ring->has_closed = false;
    ring->shares[0] = ALL_SHARES;
    model_ring_open(&ring->model, capacity, start);
    CALL(FELTER_HANDLE_IN_USE, felter_many_to_one_new(128, producer, &ring->consumer));
}

static size_t some_len(const struct ring *ring) {
    uint32_t most = ring->model.records.capacity / 8;
    return (size_t)ONE_OF(0, 1, 8, pick(most + 1), pick(most + 1), most, most + 1);
}

static int32_t some_type(void) {
    return once_in(30) ? -(int32_t)pick(3) : (int32_t)ONE_OF(1, 7, INT32_MAX);
}

static void write_message(struct ring *ring, int at) {
    size_t len = some_len(ring);
    int32_t type_id = some_type();
    uint8_t *body = input(len);
    struct record *record = NULL;
    uint32_t count = ring->model.records.count;
    uint64_t tail = ring->model.records.tail;
    int32_t wanted = model_claim(&ring->model, type_id, len, &record);
    int32_t code = CALL(wanted, felter_write(&ring->producers[at], type_id, len || once_in(2) ? body : NULL, len));
    if (wanted) return;
    if (code) { /* refused memory: nothing was claimed */
        ring->model.records.count = count;
        ring->model.records.tail = tail;
        return;
    }
    if (len) memcpy(model_body(&ring->model.records, record), body, len);
    record->state = COMMITTED;
}

static void claim(struct ring *ring, int at) {
    size_t len = once_in(20) ? SIZE_MAX : some_len(ring);
    int32_t type_id = some_type();
    struct record *record = NULL;
    uint32_t count = ring->model.records.count;
    uint64_t tail = ring->model.records.tail, number = UNTOUCHED;
    int32_t wanted = model_claim(&ring->model, type_id, len, &record);
    int32_t code = CALL(wanted, felter_claim(&ring->producers[at], type_id, len, &number));
    CHECK(code || number == record->place);
    CHECK(!code || number == UNTOUCHED);
    if (!wanted && code) {
        ring->model.records.count = count;
        ring->model.records.tail = tail;
    } else if (!code) {
        record->owner = at;
    }
}

/* The place of an open claim of a producer, or nearly so. */
static uint64_t some_claim(struct ring *ring, int at) {
    for (uint32_t k = 0; k < ring->model.records.count; k++) {
        struct record *record = model_at(&ring->model.records, k);
        if (record->state == OPEN && record->owner == at && !once_in(3)) return record->place;
    }
    return ONE_OF(ring->model.head, ring->model.records.tail, UINT64_MAX, 0);
}

static void put(struct ring *ring, int at) {
    uint64_t number = some_claim(ring, at);
    struct record *record = model_find(&ring->model, at, number);
    size_t most = record ? record->len : 16, len = (size_t)ONE_OF(0, 1, 8, pick(most + 1), most, most + 1);
    size_t offset = (size_t)ONE_OF(0, 1, pick(most + 1), most, most + 1, SIZE_MAX);
    uint8_t *bytes = input(len);
    int32_t wanted = !record ? FELTER_NO_CLAIM
        : offset > record->len || len > record->len - offset ? FELTER_PUT_RANGE
                                                             : FELTER_OK;
    if (CALL(wanted, felter_put(&ring->producers[at], number, offset, bytes, len)) == FELTER_OK && len)
        memcpy(model_body(&ring->model.records, record) + offset, bytes, len);
}

static void settle(struct ring *ring, int at) {
    uint64_t number = some_claim(ring, at);
    struct record *record = model_find(&ring->model, at, number);
    bool is_commit = !once_in(3);
    int32_t wanted = record ? FELTER_OK : FELTER_NO_CLAIM;
    int32_t code = is_commit ? CALL(wanted, felter_commit(&ring->producers[at], number))
                             : CALL(wanted, felter_abort(&ring->producers[at], number));
    if (code == FELTER_OK) record->state = is_commit ? COMMITTED : ABORTED;
}

static void split(struct ring *ring, int at) {
    int to = no_producer_at(ring);
    if (to < 0) return;
    int32_t wanted = ring->is_one ? FELTER_WRONG_HANDLE : ring->shares[at] < 2 ? FELTER_NO_SHARES : FELTER_OK;
    if (CALL(wanted, felter_split(&ring->producers[at], &ring->producers[to]))) return;
    ring->has[to] = true;
    ring->shares[to] = 1;
    ring->shares[at]--;
}

static void join(struct ring *ring, int at) {
    struct ring *of = once_in(4) ? &rings[pick(RINGS)] : ring;
    int other = ring_some_producer(of);
    if (other < 0 || (of == ring && other == at)) return;
    int32_t wanted = ring->is_one || of->is_one ? FELTER_WRONG_HANDLE : of == ring ? FELTER_OK : FELTER_OTHER_RING;
    if (CALL(wanted, felter_join(&ring->producers[at], &of->producers[other]))) return;
    CHECK(of->producers[other].handle.at == NULL);
    ring->has[other] = false;
    ring->shares[at] += ring->shares[other];
    for (uint32_t k = 0; k < ring->model.records.count; k++) {
        struct record *record = model_at(&ring->model.records, k);
        if (record->owner == other) record->owner = at;
    }
}

static void look_at_words(struct ring *ring, int at) {
    uint64_t id = UNTOUCHED, heartbeat = UNTOUCHED;
    uint32_t shares = UNTOUCHED;
    if (CALL(FELTER_OK, felter_next_id(&ring->producers[at], &id)) == FELTER_OK) CHECK(id == ring->model.drawn++);
    if (ring->has_consumer && once_in(2)) {
        uint64_t value = ONE_OF(0, 1, 1 + pick(1000), UINT64_MAX);
        if (CALL(FELTER_OK, felter_set_heartbeat(&ring->consumer, value)) == FELTER_OK) ring->model.heartbeat = value;
    }
    if (CALL(FELTER_OK, felter_heartbeat(&ring->producers[at], &heartbeat)) == FELTER_OK)
        CHECK(heartbeat == ring->model.heartbeat);
    if (CALL(FELTER_OK, felter_shares(&ring->producers[at], &shares)) == FELTER_OK) CHECK(shares == ring->shares[at]);
}

/* Puts a record into a batch, and returns the code of its test. If it is cut, its bytes reach beyond the batch. */
static int32_t lay(struct ring *ring, uint8_t *records, size_t *bytes, bool is_cut) {
    felter_record head = {some_len(ring), some_type()};
    const uint8_t *body = input(head.len);
    memcpy(records + *bytes, &head, sizeof head);
    if (head.len) memcpy(records + *bytes + sizeof head, body, head.len);
    *bytes += is_cut ? sizeof head - 1 : FELTER_SPAN(head.len);
    if (is_cut) return FELTER_PUT_RANGE;
    if (head.type_id < 1) return FELTER_BAD_TYPE;
    return head.len > ring->model.records.capacity / 8 ? FELTER_TOO_LONG : FELTER_OK;
}

/* Claims and commits in the model what is written of a batch of good records, and returns the code. */
static int32_t model_batch(struct ring *ring, const uint8_t *records, size_t bytes, uint32_t *count) {
    for (size_t from = 0; from < bytes; ++*count) {
        struct record *record = NULL;
        felter_record head;
        memcpy(&head, records + from, sizeof head);
        int32_t code = model_claim(&ring->model, (int32_t)head.type_id, head.len, &record);
        if (code) return code;
        if (head.len) memcpy(model_body(&ring->model.records, record), records + from + sizeof head, head.len);
        record->state = COMMITTED;
        from += FELTER_SPAN(head.len);
    }
    return FELTER_OK;
}

/* Writes a batch, of which the last record may reach beyond its bytes. If one record is refused, none is written. */
static void write_batch(struct ring *ring, int at) {
    static uint8_t records[1 << 14];
    size_t bytes = 0;
    uint32_t count = 0, written = UNTOUCHED;
    int32_t wanted = FELTER_OK;
    bool is_cut = false;
    for (uint64_t left = pick(5); left && !is_cut; left--) {
        is_cut = once_in(10);
        int32_t code = lay(ring, records, &bytes, is_cut);
        if (!wanted) wanted = code;
    }
    if (!wanted) wanted = model_batch(ring, records, bytes, &count);
    CALL(wanted, felter_write_batch(&ring->producers[at], records, bytes, &written));
    CHECK(written == count);
}

static bool has_open(struct ring *ring, int at) {
    for (uint32_t k = 0; k < ring->model.records.count; k++) {
        struct record *record = model_at(&ring->model.records, k);
        if (record->state == OPEN && record->owner == at) return true;
    }
    return false;
}

static void close_ring(struct ring *ring) {
    struct ring *of = once_in(4) ? &rings[pick(RINGS)] : ring;
    int at = ring_some_producer(of);
    if (at < 0) return;
    int32_t wanted = of != ring || ring->has_closed ? FELTER_OTHER_RING
        : has_open(ring, at)                        ? FELTER_CLAIMS_OPEN
        : has_another(ring, at)                     ? FELTER_PRODUCERS_OUT
                                                    : FELTER_OK;
    if (CALL(wanted, felter_close(&ring->consumer, &of->producers[at]))) return;
    CHECK(of->producers[at].handle.at == NULL);
    ring->has[at] = false;
    ring->has_closed = true;
}

static void finish(struct ring *ring) {
    uint64_t left = UNTOUCHED;
    int32_t wanted = !ring->has_closed && has_another(ring, -1) ? FELTER_PRODUCERS_OUT : FELTER_OK;
    if (CALL(wanted, felter_finish(&ring->consumer, &left))) return;
    CHECK(ring->consumer.handle.at == NULL && left == model_left(&ring->model));
    ring->has_consumer = false;
    look_whether_gone(ring);
}

static void free_producer(struct ring *ring, int at) {
    CALL(FELTER_OK, (felter_free(&ring->producers[at].handle), FELTER_OK));
    CHECK(ring->producers[at].handle.at == NULL);
    ring->has[at] = false;
    for (uint32_t k = 0; k < ring->model.records.count; k++) {
        struct record *record = model_at(&ring->model.records, k);
        if (record->state == OPEN && record->owner == at) record->state = ABORTED;
    }
    look_whether_gone(ring);
}

static void free_consumer(struct ring *ring) {
    CALL(FELTER_OK, (felter_free(&ring->consumer.handle), FELTER_OK));
    CHECK(ring->consumer.handle.at == NULL);
    ring->has_consumer = false;
    look_whether_gone(ring);
}

/* Handles that are empty, or of another kind. */
static void misuse(struct ring *ring) {
    felter_producer none = no_producer;
    felter_consumer nobody = FELTER_EMPTY;
    uint64_t number = UNTOUCHED;
    size_t len = UNTOUCHED;
    int32_t type_id = UNTOUCHED;
    CALL(FELTER_NO_HANDLE, felter_write(&none, 1, NULL, 0));
    CALL(FELTER_NO_HANDLE, felter_claim(&none, 1, 0, &number));
    CALL(FELTER_NO_HANDLE, felter_write(NULL, 1, NULL, 0));
    CALL(FELTER_NULL_POINTER, felter_write(&none, 1, NULL, 1));
    CALL(FELTER_NULL_POINTER, felter_claim(&none, 1, 0, NULL));
    CALL(FELTER_NO_HANDLE, felter_read(&nobody, &type_id, &len, NULL, 0));
    CALL(FELTER_NO_HANDLE, felter_peek(&nobody, &type_id, &len, NULL, 0));
    CALL(FELTER_NO_HANDLE, felter_take(&nobody));
    CALL(FELTER_NO_HANDLE, felter_write_batch(&none, NULL, 0, &(uint32_t){0}));
    CHECK(felter_version() == FELTER_VERSION_NUMBER && strlen(felter_text((int32_t)pick(119))) > 0);
    felter_free(&none.handle);
    if (ring->has_consumer) {
        CALL(FELTER_WRONG_HANDLE, felter_write((felter_producer *)&ring->consumer, 1, NULL, 0));
        CALL(FELTER_WRONG_HANDLE, felter_counter_set((felter_counters *)&ring->consumer, 0, 1));
    }
    int at = ring_some_producer(ring);
    felter_consumer *wrong = at < 0 ? NULL : (felter_consumer *)&ring->producers[at];
    if (wrong) CALL(FELTER_WRONG_HANDLE, felter_read(wrong, &type_id, &len, NULL, 0));
    CHECK(number == UNTOUCHED && len == UNTOUCHED && type_id == UNTOUCHED);
}

void ring_step(void) {
    struct ring *ring = &rings[pick(RINGS)];
    if (!ring->is_there) {
        make(ring);
        return;
    }
    int at = ring_some_producer(ring);
    if (ring->image && once_in(8)) ring_recover(ring);
    if (at >= 0 && once_in(20)) look_at_sizes(&ring->producers[at].handle, ring->model.records.capacity);
    if (at >= 0 && ring->has_consumer && once_in(20)) ring_look_ahead(ring, at);
    if (at >= 0) switch (pick(24)) {
        case 0: case 1: case 2: case 3: case 4: case 5: case 6: write_message(ring, at); break;
        case 7: case 8: case 9: claim(ring, at); break;
        case 10: case 11: put(ring, at); break;
        case 12: case 13: case 14: settle(ring, at); break;
        case 15: split(ring, at); break;
        case 16: join(ring, at); break;
        case 17: look_at_words(ring, at); break;
        case 18: ring_look_at_positions(ring); break;
        case 19: misuse(ring); break;
        case 20: if (once_in(4)) free_producer(ring, at); break;
        case 21: write_batch(ring, at); break;
        default: break;
        }
    if (ring->has_consumer) switch (pick(14)) {
        case 0: case 1: case 2: ring_read_one(ring, false); break;
        case 3: ring_read_one(ring, true); break;
        case 10: ring_take_one(ring); break;
        case 11: look_at_sizes(&ring->consumer.handle, ring->model.records.capacity); break;
        case 4: case 5: case 6: ring_read_batch(ring); break;
        case 7: if (once_in(8)) close_ring(ring); break;
        case 8: if (once_in(4)) finish(ring); break;
        case 9: if (once_in(40)) free_consumer(ring); break;
        default: break;
        }
}

void ring_end(void) {
    for (int k = 0; k < RINGS; k++) {
        struct ring *ring = &rings[k];
        bool is_consumer_first = once_in(2);
        if (ring->has_consumer && is_consumer_first) free_consumer(ring);
        for (int at = 0; at < PRODUCERS; at++)
            if (ring->has[at]) free_producer(ring, at);
        if (ring->has_consumer) free_consumer(ring);
    }
}
