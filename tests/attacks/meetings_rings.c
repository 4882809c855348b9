/* Producers that write and claim, a consumer that reads in every way, stores heartbeats and asks what is before it, and
 * a thread that only asks: for positions, heartbeats and correlation ids. Producers are split off, joined and freed
 * while the ring is in use. What must hold is in "The ring" of FORMATS.md, in MODEL.md and in felter.h. */
#include "meetings.h"

#define SENDERS 3
#define ASKER SENDERS /* a worker that sends nothing */
#define MESSAGES 1500
#define MAX_IDS (1 << 16)

static struct {
    felter_producer asks; /* of the consumer's thread; the first producer */
    felter_consumer consumer;
    struct office office;
    bool is_one;
    uint32_t capacity, senders;
    size_t most;
    _Atomic uint64_t head, tail;      /* the greatest that any thread knows */
    _Atomic uint64_t greatest, drawn; /* one more than the greatest correlation id, and how many were drawn */
    atomic_uint busy;                 /* senders that have not sent all */
    _Atomic uint64_t held;            /* one more than the place of a claim that is open until the consumer is there */
    struct story beats;
    atomic_bool is_drawn[MAX_IDS];
} ring;

static struct sender {
    struct worker worker;
    uint32_t lane;
    _Atomic uint64_t sent; /* how many messages were committed */
    atomic_bool has_begun; /* something that is not settled yet */
    struct view view;
    uint64_t loads;
} senders[SENDERS + 1];

static struct {
    uint64_t next[SENDERS], read, controlled, asked, dice;
    uint64_t passed; /* a position that the head has reached: what was taken is before it */
    int32_t stays;   /* the type id of a message that was looked at and not taken, or 0 */
} reading;

/* Questions -------------------------------------------------------------------------------------------------------- */

static uint64_t span_of(size_t len) { return 8 + (len + 7) / 8 * 8; }

/* Whether a message has room: it crosses no end of the buffer. */
static bool fits(uint64_t head, uint64_t tail, size_t len) {
    uint64_t span = span_of(len), to_end = ring.capacity - tail % ring.capacity;
    return tail + span + (span > to_end ? to_end : 0) <= head + ring.capacity;
}

/* The head and the tail: they never fall, the head is not beyond the tail, and what is between a head and a tail that
 * was loaded before it is at most the capacity. */
static uint64_t ask_positions(felter_producer *by) {
    uint64_t least_head = atomic_load(&ring.head), least_tail = atomic_load(&ring.tail), head = 0, tail = 0;
    CHECK(felter_positions(by, &head, &tail) == FELTER_OK);
    CHECK(head >= least_head && tail >= least_tail && head <= tail && head % 8 == 0 && tail % 8 == 0);
    CHECK(least_tail <= head + ring.capacity);
    /* (the one producer of a ring moves the tail itself, and so it was this tail when the head was loaded) */
    CHECK(!ring.is_one || tail <= head + ring.capacity);
    raise_to(&ring.head, head);
    raise_to(&ring.tail, tail);
    return head;
}

/* An id that no other call draws, greater than all that were drawn before. */
static void draw_id(felter_producer *by) {
    uint64_t least = atomic_load(&ring.greatest), id = 0;
    if (least + SENDERS + 2 >= MAX_IDS) return;
    CHECK(felter_next_id(by, &id) == FELTER_OK && id >= least && id < MAX_IDS);
    CHECK(!atomic_exchange(&ring.is_drawn[id], true));
    raise_to(&ring.greatest, id + 1);
    atomic_fetch_add(&ring.drawn, 1);
}

static void ask(struct sender *it) {
    felter_producer *by = &it->worker.its.producer;
    uint64_t way = pick(&it->worker.dice, 4), done = atomic_load(&ring.beats.done), value = 0;
    if (way == 0) {
        draw_id(by);
    } else if (way == 1) {
        CHECK(felter_heartbeat(by, &value) == FELTER_OK);
        check_load(&ring.beats, &it->view, done, 0, value);
    } else {
        ask_positions(by);
    }
    it->loads++;
}

/* Senders ---------------------------------------------------------------------------------------------------------- */

static bool is_done(int32_t code) {
    CHECK(code == FELTER_OK || code == FELTER_INSUFFICIENT_CAPACITY || (code == FELTER_CONTENDED && !ring.is_one));
    return code == FELTER_OK;
}

/* Writes a message. If the ring is full, and the tail has not moved, there was no room at the head loaded before. */
static bool write_one(struct sender *it, const uint8_t *body, size_t len) {
    felter_producer *by = &it->worker.its.producer;
    uint64_t head = 0, tail = 0, later, its_tail = 0;
    bool looks = once_in(&it->worker.dice, 4);
    if (looks) CHECK(felter_positions(by, &head, &tail) == FELTER_OK);
    int32_t code = felter_write(by, 1 + (int32_t)it->lane, body, len);
    if (looks && code == FELTER_INSUFFICIENT_CAPACITY) {
        CHECK(felter_positions(by, &later, &its_tail) == FELTER_OK);
        CHECK(tail != its_tail || !fits(head, tail, len));
    }
    return is_done(code);
}

/* Waits with an open claim until the consumer has said that it came up to it. */
static void hold(uint64_t place) {
    uint64_t none = 0;
    if (ring.is_one || !atomic_compare_exchange_strong(&ring.held, &none, place + 1)) return;
    while (atomic_load(&ring.held) == place + 1) sched_yield();
}

/* Claims room between the positions that are loaded before and after, and commits the message or not. */
static bool claim_one(struct sender *it, const uint8_t *body, size_t len) {
    felter_producer *by = &it->worker.its.producer;
    uint64_t place = 0, least = atomic_load(&ring.tail), end;
    if (!is_done(felter_claim(by, 1 + (int32_t)it->lane, len, &place))) return false;
    end = place + span_of(len);
    CHECK(place >= least && place % 8 == 0);
    raise_to(&ring.tail, end);
    /* (an open claim is between head and tail) */
    CHECK(ask_positions(by) <= place && end <= atomic_load(&ring.head) + ring.capacity);
    if (once_in(&it->worker.dice, 16)) hold(place);
    stall(&it->worker.dice);
    if (once_in(&it->worker.dice, 4)) {
        CHECK(felter_abort(by, place) == FELTER_OK);
        return false;
    }
    CHECK(felter_put(by, place, 0, body, len) == FELTER_OK && felter_commit(by, place) == FELTER_OK);
    return true;
}

static void send_one(struct sender *it) {
    uint8_t body[MAX_CAPACITY / 8];
    uint64_t number = atomic_load(&it->sent);
    size_t len = len_of(it->lane, number, ring.most);
    fill(body, it->lane, number, len);
    atomic_store(&it->has_begun, true);
    bool is_sent = once_in(&it->worker.dice, 3) ? claim_one(it, body, len) : write_one(it, body, len);
    if (is_sent) atomic_store(&it->sent, number + 1);
    atomic_store(&it->has_begun, false);
    if (!is_sent) sched_yield();
}

static void use_producer(struct worker *worker) {
    struct sender *it = (struct sender *)worker;
    /* (a ring of one producer keeps it to the end) */
    uint64_t most = ring.is_one ? UINT64_MAX : 1 + pick(&worker->dice, MESSAGES);
    bool is_asker = it == &senders[ASKER];
    for (uint64_t turns = 0; turns < most && atomic_load(&ring.busy); turns++) {
        if (!is_asker && atomic_load(&it->sent) < MESSAGES) {
            send_one(it);
            if (atomic_load(&it->sent) == MESSAGES) atomic_fetch_sub(&ring.busy, 1);
        }
        if (is_asker || once_in(&worker->dice, 2)) ask(it);
        stall(&worker->dice);
    }
}

/* The consumer ----------------------------------------------------------------------------------------------------- */

/* Whether a message is there for certain: one was committed that was not read yet, and then, in each lane, all that had
 * begun was settled. So no claim before that message is open. (A message may be read before its sender counts it.) */
static bool has_message(void) {
    bool has_one = reading.stays;
    for (uint32_t lane = 0; lane < ring.senders; lane++)
        has_one |= atomic_load(&senders[lane].sent) > reading.next[lane];
    for (uint32_t lane = 0; lane < ring.senders; lane++)
        if (!reading.stays && atomic_load(&senders[lane].has_begun)) return false;
    return has_one;
}

/* The next message of its lane. */
static void check_message(int64_t type_id, const uint8_t *body, size_t len) {
    uint32_t lane = (uint32_t)(type_id - 1);
    CHECK(lane < ring.senders && reading.next[lane] < MESSAGES && (!reading.stays || reading.stays == type_id));
    CHECK(len == len_of(lane, reading.next[lane], ring.most) && is_message(body, lane, reading.next[lane], len));
}

/* A message was taken, so the head is beyond it. */
static void taken(int64_t type_id, size_t len) {
    reading.next[type_id - 1]++;
    reading.read++;
    reading.stays = 0;
    raise_to(&ring.head, reading.passed += span_of(len));
}

static bool read_one(void) {
    uint8_t buffer[MAX_CAPACITY / 8];
    bool must = has_message();
    int32_t type_id = 0, code;
    size_t len = 0;
    code = felter_read(&ring.consumer, &type_id, &len, buffer, ring.most);
    CHECK(code == FELTER_OK || (code == FELTER_NO_MESSAGE && !must));
    if (code) return false;
    check_message(type_id, buffer, len);
    taken(type_id, len);
    return true;
}

static bool read_batch(void) {
    static uint8_t buffer[4 * (MAX_CAPACITY / 8 + 16)] __attribute__((aligned(8)));
    bool must = has_message();
    uint32_t count = 0;
    size_t used = 0, at = 0;
    int32_t code = felter_read_batch(&ring.consumer, 1 + (uint32_t)pick(&reading.dice, 20), &count, &used, buffer,
                                     sizeof buffer);
    CHECK((code == FELTER_OK && count) || (code == FELTER_NO_MESSAGE && !must));
    for (uint32_t k = 0; code == FELTER_OK && k < count; k++) {
        const felter_record *record = (const void *)(buffer + at);
        check_message(record->type_id, buffer + at + sizeof *record, record->len);
        taken(record->type_id, record->len);
        at += FELTER_SPAN(record->len);
    }
    CHECK(at == used);
    return code == FELTER_OK;
}

/* A controlled read: the message is looked at, more than once, and taken or not. A take moves the head. */
static bool control(void) {
    uint8_t buffer[MAX_CAPACITY / 8];
    bool must = has_message();
    int32_t type_id = 0, code;
    size_t len = 0;
    do {
        code = felter_peek(&ring.consumer, &type_id, &len, buffer, ring.most);
        CHECK(code == FELTER_OK || (code == FELTER_NO_MESSAGE && !must));
        if (code) return false;
        check_message(type_id, buffer, len);
        reading.stays = type_id;
        must = true;
        stall(&reading.dice);
    } while (once_in(&reading.dice, 3));
    reading.controlled++;
    if (once_in(&reading.dice, 4)) return true;
    uint64_t before = ring.is_one ? 0 : ask_positions(&ring.asks);
    CHECK(felter_take(&ring.consumer) == FELTER_OK);
    taken(type_id, len);
    CHECK(ring.is_one || ask_positions(&ring.asks) >= before + span_of(len));
    return true;
}

/* An open claim is before the consumer, which passes it by no call; its producer waits to learn that. */
static void stop_before_claim(uint64_t place) {
    uint8_t buffer[MAX_CAPACITY / 8];
    uint64_t head = 0;
    uint32_t count;
    int32_t type_id, found = -1;
    size_t len;
    CHECK(felter_read(&ring.consumer, &type_id, &len, buffer, ring.most) == FELTER_NO_MESSAGE);
    CHECK(felter_peek(&ring.consumer, &type_id, &len, buffer, ring.most) == FELTER_NO_MESSAGE);
    CHECK(felter_read_batch(&ring.consumer, 9, &count, &len, buffer, ring.most) == FELTER_NO_MESSAGE);
    CHECK(felter_take(&ring.consumer) == FELTER_NO_MESSAGE);
    CHECK(felter_standing(&ring.asks, &ring.consumer, &found, &head) == FELTER_OK);
    CHECK(found == FELTER_FOUND_CLAIM && head == place);
    atomic_store(&ring.held, 0);
}

/* Asks what is before the consumer, which alone moves the head. */
static void ask_standing(void) {
    uint64_t held = atomic_load(&ring.held), head = 0;
    int32_t found = -1;
    bool must = has_message();
    CHECK(felter_standing(&ring.asks, &ring.consumer, &found, &head) == FELTER_OK);
    CHECK(found >= FELTER_FOUND_MESSAGE && found <= FELTER_FOUND_CHANGE);
    CHECK(!must || found == FELTER_FOUND_MESSAGE || found == FELTER_FOUND_CHANGE);
    CHECK(ask_positions(&ring.asks) == head);
    if (found == FELTER_FOUND_MESSAGE) CHECK(once_in(&reading.dice, 2) ? read_one() : control());
    else if (found == FELTER_FOUND_CLAIM && held == head + 1) stop_before_claim(head);
    reading.asked++;
}

static void beat(void) {
    if (is_full(&ring.beats)) return;
    uint64_t value = once_in(&reading.dice, 3) ? pick(&reading.dice, 3) : pick(&reading.dice, UINT64_MAX);
    will_write(&ring.beats, 0, value);
    CHECK(felter_set_heartbeat(&ring.consumer, value) == FELTER_OK);
    has_written(&ring.beats);
}

/* Gives each thread without a producer one that is split off, and joins those that came back. */
static void attend(void) {
    for (uint32_t k = 0; k <= SENDERS; k++) {
        felter_producer one = FELTER_EMPTY;
        struct worker *worker = &senders[k].worker;
        if (ring.is_one || (k >= ring.senders && k != ASKER)) continue;
        if (take_back(worker, &one.handle)) {
            CHECK(felter_join(&ring.asks, &one) == FELTER_OK);
            has_joined(&ring.office);
        }
        if (!is_idle(worker)) continue;
        CHECK(felter_split(&ring.asks, &one) == FELTER_OK);
        give(worker, &one.handle, 0);
    }
}

static void consume(void) {
    while (atomic_load(&ring.busy)) {
        uint64_t way = pick(&reading.dice, 16);
        bool found = true;
        if (way == 0) attend();
        if (way < 3) beat();
        if (way < 6) found = read_batch();
        else if (way < 9) found = control();
        else if (way < 11 && !ring.is_one) ask_standing();
        else found = read_one();
        if (!found) sched_yield();
        stall(&reading.dice);
    }
}

/* Rounds ----------------------------------------------------------------------------------------------------------- */

/* Tries to end the ring by the last producer that came back, or without one if all were freed. */
static int32_t try_to_end(uint64_t *left) {
    int32_t code = FELTER_OK;
    for (uint32_t k = 0; k <= SENDERS; k++) {
        felter_producer one = FELTER_EMPTY;
        if (!take_back(&senders[k].worker, &one.handle)) continue;
        if (ring.asks.handle.at) CHECK(felter_join(&ring.asks, &one) == FELTER_OK);
        else ring.asks = one;
        has_joined(&ring.office);
    }
    bool may_refuse = !all_gone(&ring.office), is_closed = ring.asks.handle.at != NULL;
    if (is_closed) code = felter_close(&ring.consumer, &ring.asks);
    if (code == FELTER_OK && is_closed && once_in(&reading.dice, 2)) while (read_one()) continue;
    if (code == FELTER_OK) code = felter_finish(&ring.consumer, left);
    CHECK(code == FELTER_OK || (code == FELTER_PRODUCERS_OUT && may_refuse));
    return code;
}

/* Ends the ring while producers are freed. What was sent was read, or is left. */
static void end_ring(void) {
    uint64_t left = 0, sent = 0;
    if (!ring.is_one && once_in(&reading.dice, 2)) felter_free(&ring.asks.handle);
    while (try_to_end(&left)) sched_yield();
    CHECK(all_leave(&ring.office) && !ring.consumer.handle.at && !ring.asks.handle.at);
    for (uint32_t k = 0; k <= SENDERS; k++) {
        pthread_join(senders[k].worker.thread, NULL);
        sent += atomic_load(&senders[k].sent);
        totals.loads += senders[k].loads;
    }
    CHECK(all_gone(&ring.office) && left == sent - reading.read);
    /* All ids up to the greatest one were drawn. */
    CHECK(atomic_load(&ring.drawn) == atomic_load(&ring.greatest));
}

/* Makes the ring in memory that the ring before it had, if it was there. */
static int32_t open_in(felter_producer *by, felter_consumer *to) {
    static uint8_t memory[128 + 2 * (128 << 7) + 768] __attribute__((aligned(64)));
    return ring.is_one ? felter_one_to_one_new_in(memory, sizeof memory, ring.capacity, by, to)
                       : felter_many_to_one_new_in(memory, sizeof memory, ring.capacity, by, to);
}

static void open_ring(uint64_t *dice) {
    uint64_t starts[] = {0, 0, 5, 77}, start = starts[pick(dice, 4)];
    felter_producer *by = &ring.asks;
    felter_consumer *to = &ring.consumer;
    int32_t code;
    ring.is_one = once_in(dice, 3);
    ring.capacity = 128u << pick(dice, 8);
    ring.most = ring.capacity / 8;
    ring.senders = ring.is_one ? 1 : 1 + (uint32_t)pick(dice, SENDERS);
    ring.busy = ring.senders;
    ring.head = ring.tail = reading.passed = start *= ring.capacity;
    if (!start && once_in(dice, 2)) code = open_in(by, to);
    else if (ring.is_one) code = start ? felter_one_to_one_new_at(ring.capacity, start, by, to)
                                       : felter_one_to_one_new(ring.capacity, by, to);
    else code = start ? felter_many_to_one_new_at(ring.capacity, start, by, to)
                      : felter_many_to_one_new(ring.capacity, by, to);
    CHECK(code == FELTER_OK);
}

void meet_at_ring(uint64_t *dice) {
    memset(&ring, 0, sizeof ring);
    memset(senders, 0, sizeof senders);
    memset(&reading, 0, sizeof reading);
    reading.dice = pick(dice, UINT64_MAX);
    open_ring(dice);
    for (uint32_t k = 0; k <= SENDERS; k++) {
        senders[k].lane = k;
        start(&senders[k].worker, &ring.office, pick(dice, UINT64_MAX), use_producer);
    }
    if (ring.is_one) give(&senders[0].worker, &ring.asks.handle, 0);
    else attend();
    consume();
    atomic_store(&ring.office.is_over, true);
    end_ring();
    totals.messages += reading.read;
    totals.controlled += reading.controlled;
    totals.asked += reading.asked;
}
