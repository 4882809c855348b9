/* A conductor and, on other threads, its clients, readers and receivers, which are made, used, given back and freed
 * while it works. What it does is in "Commands and replies" of FORMATS.md and in MODEL.md. */
#include "meetings_house.h"

struct house house;

/* A receiver on the conductor's own thread gets the replies that the last call transmitted, and no more. */
static void witness(uint64_t messages) {
    static uint8_t buffer[MAX_CAPACITY];
    uint64_t lapped = 0;
    size_t len = 0, room = house.board / 8;
    int32_t kind = 0;
    for (; messages; messages--) {
        CHECK(house.applied < ALL_COMMANDS);
        struct reply *reply = &house.order[house.applied++];
        CHECK(felter_receive(&house.witness, &reply->kind, &len, &lapped, buffer, room) == FELTER_OK);
        decode(reply, buffer, len);
        reply->now = house.now;
        CHECK(reply->id < MAX_IDS && !atomic_exchange(&house.is_replied[reply->id], true));
    }
    CHECK(felter_receive(&house.witness, &kind, &len, &lapped, buffer, room) == FELTER_NO_MESSAGE);
}

/* Whether a command is there for certain: one was sent that was not applied, and nothing is being sent. (A command may
 * be applied before its client counts it, and then this does not know.) */
static bool has_command(void) {
    uint64_t sent = 0;
    for (int k = 0; k < CALLERS; k++) sent += atomic_load(&house.callers[k].sent);
    if (sent <= house.applied) return false;
    for (int k = 0; k < CALLERS; k++)
        if (atomic_load(&house.callers[k].has_begun)) return false;
    return true;
}

/* Applies some commands: whether no further one was there. */
static bool work(uint64_t *dice) {
    /* (the witness has room for the replies) */
    uint32_t most = house.board / 32 < 64 ? house.board / 32 : 64, limit = 1 + (uint32_t)pick(dice, most);
    uint64_t messages = 0;
    int32_t stopped = -1;
    bool must = has_command();
    atomic_store(&house.may, house.applied + limit);
    CHECK(felter_conductor_work(&house.conductor, house.now, limit, &messages, &stopped) == FELTER_OK);
    CHECK(messages <= limit && (stopped == FELTER_STOP_LIMIT) == (messages == limit));
    CHECK(stopped >= FELTER_STOP_LIMIT && stopped <= FELTER_STOP_UNPUBLISHED);
    CHECK(!must || messages || stopped == FELTER_STOP_BLOCK);
    witness(messages);
    atomic_store(&house.done, house.applied);
    return stopped == FELTER_STOP_UNPUBLISHED;
}

static void beat(uint64_t *dice) {
    if (is_full(&house.beats)) return;
    uint64_t value = once_in(dice, 3) ? pick(dice, 3) : pick(dice, UINT64_MAX);
    will_write(&house.beats, 0, value);
    CHECK(felter_conductor_set_heartbeat(&house.conductor, value) == FELTER_OK);
    has_written(&house.beats);
}

static void take_all_back(void) {
    felter_client client = FELTER_EMPTY;
    felter_receiver receiver = FELTER_EMPTY;
    felter_reader reader = FELTER_EMPTY;
    for (int k = 0; k < CALLERS; k++) {
        if (!take_back(&house.callers[k].worker, &client.handle)) continue;
        CHECK(felter_conductor_join(&house.conductor, &client) == FELTER_OK);
        has_joined(&house.office);
    }
    for (int k = 0; k < WATCHERS; k++) {
        if (!take_back(&house.watchers[k].worker, &reader.handle)) continue;
        CHECK(felter_conductor_join_reader(&house.conductor, &reader) == FELTER_OK);
        has_joined(&house.office);
    }
    if (!take_back(&house.listener.worker, &receiver.handle)) return;
    CHECK(felter_conductor_join_receiver(&house.conductor, &receiver) == FELTER_OK);
    has_joined(&house.office);
}

static void give_all(void) {
    felter_client client = FELTER_EMPTY;
    felter_receiver receiver = FELTER_EMPTY;
    felter_reader reader = FELTER_EMPTY;
    for (int k = 0; k < CALLERS; k++) {
        if (!is_idle(&house.callers[k].worker)) continue;
        CHECK(felter_conductor_client(&house.conductor, &client) == FELTER_OK);
        give(&house.callers[k].worker, &client.handle, 0);
    }
    for (int k = 0; k < WATCHERS; k++) {
        if (!is_idle(&house.watchers[k].worker)) continue;
        CHECK(felter_conductor_reader(&house.conductor, &reader) == FELTER_OK);
        give(&house.watchers[k].worker, &reader.handle, 0);
    }
    if (!is_idle(&house.listener.worker)) return;
    CHECK(felter_conductor_subscribe(&house.conductor, &receiver) == FELTER_OK);
    give(&house.listener.worker, &receiver.handle, house.applied);
}

/* Works until all commands were sent and none is left. */
static void conduct(uint64_t *dice) {
    for (;;) {
        bool is_last = atomic_load(&house.busy) == 0;
        if (once_in(dice, 4)) house.now += pick(dice, 3);
        if (once_in(dice, 4)) beat(dice);
        if (once_in(dice, 16)) {
            take_all_back();
            give_all();
        }
        if (!work(dice)) continue;
        if (is_last) return;
        sched_yield();
        stall(dice);
    }
}

/* Leaves two commands in the ring, and finishes while handles are freed. */
static void finish(void) {
    uint64_t id = 0, received = 0, left = 0;
    felter_client last = FELTER_EMPTY;
    CHECK(felter_conductor_join_receiver(&house.conductor, &house.witness) == FELTER_OK);
    CHECK(felter_conductor_client(&house.conductor, &last) == FELTER_OK);
    CHECK(felter_send_close_owner(&last, 1, &id) == FELTER_OK && id >= atomic_load(&house.greatest));
    CHECK(felter_send_free(&last, 0, &id) == FELTER_OK);
    CHECK(felter_conductor_join(&house.conductor, &last) == FELTER_OK);
    for (;;) {
        take_all_back();
        bool may_refuse = !all_gone(&house.office);
        int32_t code = felter_conductor_finish(&house.conductor, &received, &left);
        if (code == FELTER_OK) break;
        CHECK(code == FELTER_PRODUCERS_OUT || code == FELTER_RECEIVERS_OUT || code == FELTER_IN_USE);
        CHECK(may_refuse);
        sched_yield();
    }
    CHECK(all_leave(&house.office) && received == house.applied && left == 2);
}

static void open_house(uint64_t *dice) {
    uint32_t capacity = 256u << pick(dice, 6);
    house.most = capacity / 8;
    house.is_whole = once_in(dice, 2);
    house.board = house.is_whole ? 65536 : 256u << pick(dice, 3);
    house.counters = 1 + (uint32_t)pick(dice, WORDS);
    house.reuse_ms = (uint32_t)pick(dice, 2) * 5;
    house.busy = CALLERS;
    CHECK(felter_conductor_new(capacity, house.board, house.counters, house.reuse_ms, &house.conductor) == FELTER_OK);
    CHECK(felter_conductor_subscribe(&house.conductor, &house.witness) == FELTER_OK);
}

void meet_at_conductor(uint64_t *dice) {
    memset(&house, 0, sizeof house);
    open_house(dice);
    for (uint32_t k = 0; k < CALLERS; k++) {
        house.callers[k].name = k;
        house.callers[k].most = COMMANDS;
        start(&house.callers[k].worker, &house.office, pick(dice, UINT64_MAX), call);
    }
    for (int k = 0; k < WATCHERS; k++) start(&house.watchers[k].worker, &house.office, pick(dice, UINT64_MAX), watch);
    start(&house.listener.worker, &house.office, pick(dice, UINT64_MAX), listen_on);
    give_all();
    conduct(dice);
    for (uint32_t id = 0; id < house.counters; id++)
        house.codes[id] = felter_conductor_value(&house.conductor, id, &house.values[id]);
    atomic_store(&house.office.is_over, true);
    finish();
    for (int k = 0; k < CALLERS; k++) pthread_join(house.callers[k].worker.thread, NULL);
    for (int k = 0; k < WATCHERS; k++) pthread_join(house.watchers[k].worker.thread, NULL);
    pthread_join(house.listener.worker.thread, NULL);
    CHECK(all_gone(&house.office));
    check_house();
}
