/* The threads that meet a conductor: clients, readers of values, and a receiver of the replies. */
#include "meetings_house.h"

#include <time.h>

const uint8_t command_bytes[MAX_LABEL + 1] = "any text";

/* Clients ---------------------------------------------------------------------------------------------------------- */

/* A command of any kind, also one that will be refused. It is short enough for the ring. */
static struct command some_command(struct caller *it) {
    static const uint32_t keys[] = {0, 3, MAX_KEY, MAX_KEY + 1}, labels[] = {0, 9, MAX_LABEL, MAX_LABEL + 1};
    uint64_t *dice = &it->worker.dice;
    struct command one = {.kind = (enum kind)pick(dice, 4), .caller = it->name, .turn = (uint32_t)it->sent};
    size_t room = house.most < 520 ? house.most : 520;
    one.counter = (uint32_t)pick(dice, house.counters + once_in(dice, 8));
    one.owner = pick(dice, CALLERS + 1);
    one.value = once_in(dice, 3) ? (int64_t)pick(dice, 3) : (int64_t)pick(dice, UINT64_MAX);
    one.key_len = keys[pick(dice, 4)];
    one.label_len = labels[pick(dice, 4)];
    if (28 + one.key_len + one.label_len > room) one.key_len = one.label_len = 0;
    return one;
}

static int32_t send(felter_client *client, const struct command *it, uint64_t *id) {
    const uint8_t *key = command_bytes, *label = command_bytes;
    switch (it->kind) {
    case ALLOCATE:
        return it->owner ? felter_send_allocate_owned(client, 1, it->owner, key, it->key_len, label, it->label_len, id)
                         : felter_send_allocate(client, 1, key, it->key_len, label, it->label_len, id);
    case FREE: return felter_send_free(client, it->counter, id);
    case SET: return felter_send_set(client, it->counter, it->value, id);
    default: return felter_send_close_owner(client, it->owner, id);
    }
}

/* Sends a command with an id that no other command has, and that is greater than those which were drawn before. */
static void send_one(struct caller *it) {
    struct command one = some_command(it);
    uint64_t least = atomic_load(&house.greatest), id = 0;
    atomic_store(&it->has_begun, true);
    int32_t code = send(&it->worker.its.client, &one, &id);
    if (code == FELTER_OK) {
        uint32_t place = it->name * COMMANDS + one.turn;
        CHECK(id >= least && id < MAX_IDS && !atomic_exchange(&house.places[id], place + 1));
        raise_to(&house.greatest, id + 1);
        house.commands[place] = one;
        it->flights[(it->first + it->flying++) % FLIGHTS] = id;
        atomic_store(&it->sent, one.turn + 1);
    }
    atomic_store(&it->has_begun, false);
    CHECK(code == FELTER_OK || code == FELTER_CONTENDED || code == FELTER_INSUFFICIENT_CAPACITY);
    /* (each try draws an id, and they are to last for the round) */
    if (code) nanosleep(&(struct timespec){0, 20000}, NULL);
    if (id > MAX_IDS / 2) it->most = atomic_load(&it->sent);
}

/* Polls for the reply to the oldest command: the replies to one client come in the order of its commands. */
static void poll_one(struct caller *it) {
    uint64_t id = it->flights[it->first % FLIGHTS], lapped = 0;
    bool is_replied = atomic_load(&house.is_replied[id]);
    int32_t kind = 0;
    int64_t number = 0;
    int32_t code = felter_poll(&it->worker.its.client, id, &kind, &number, &lapped);
    if (code == FELTER_OK) {
        struct command *its = &house.commands[house.places[id] - 1];
        its->is_known = true;
        its->reply = kind;
        its->number = number;
        it->first++;
        it->flying--;
        it->replies++;
    } else if (code == FELTER_LAPPED) {
        CHECK(!house.is_whole && lapped == ++it->laps);
        it->flying = 0;
        it->all_laps++;
    } else {
        CHECK(code == FELTER_OTHER_REPLY || (code == FELTER_NO_MESSAGE && !is_replied));
        if (code == FELTER_NO_MESSAGE) sched_yield();
    }
}

static void look_at_heartbeat(struct caller *it) {
    uint64_t done = atomic_load(&house.beats.done), value = 0;
    CHECK(felter_client_heartbeat(&it->worker.its.client, &value) == FELTER_OK);
    check_load(&house.beats, &it->view, done, 0, value);
}

/* Sends some commands, and polls for their replies, or leaves without the last ones. */
void call(struct worker *worker) {
    struct caller *it = (struct caller *)worker;
    uint64_t until = it->sent + 1 + pick(&worker->dice, COMMANDS / 2);
    it->flying = 0;
    it->laps = 0;
    for (;;) {
        bool may_send = it->sent < until && it->sent < it->most;
        if (!may_send && (!it->flying || once_in(&worker->dice, 200))) break;
        if (may_send && it->flying < FLIGHTS && once_in(&worker->dice, 2)) send_one(it);
        else if (it->flying) poll_one(it);
        if (once_in(&worker->dice, 8)) look_at_heartbeat(it);
        stall(&worker->dice);
    }
    if (it->sent < it->most || it->is_done) return;
    it->is_done = true;
    atomic_fetch_sub(&house.busy, 1);
}

/* Readers and receivers -------------------------------------------------------------------------------------------- */

void watch(struct worker *worker) {
    struct watcher *it = (struct watcher *)worker;
    uint64_t tries = 1 + pick(&worker->dice, 4000);
    for (; tries && it->count < MAX_LOADS && !atomic_load(&worker->office->is_over); tries--) {
        struct load *load = &it->loads[it->count++];
        load->word = (uint32_t)pick(&worker->dice, house.counters);
        load->done = atomic_load(&house.done);
        CHECK(felter_reader_value(&worker->its.reader, load->word, &load->value) == FELTER_OK);
        load->may = atomic_load(&house.may);
        stall(&worker->dice);
    }
}

void decode(struct reply *reply, const uint8_t *body, size_t len) {
    uint32_t number = 0;
    CHECK(len == (reply->kind == FELTER_REPLY_DONE ? 8 : 12));
    memcpy(&reply->id, body, 8);
    memcpy(&number, body + 8, len - 8);
    reply->number = number;
}

void listen_on(struct worker *worker) {
    struct listener *it = (struct listener *)worker;
    uint8_t buffer[MAX_CAPACITY];
    uint64_t tries = 1 + pick(&worker->dice, 2000), laps = 0, lapped = 0;
    size_t len = 0, room = house.board / 8;
    for (it->sessions++; tries && it->count < MAX_COPIES && !atomic_load(&worker->office->is_over); tries--) {
        struct reply reply = {.number = 0};
        int32_t code = felter_receive(&worker->its.receiver, &reply.kind, &len, &lapped, buffer, room);
        if (code == FELTER_OK) {
            decode(&reply, buffer, len);
            it->copies[it->count++] = (struct copy){it->sessions, worker->tag, laps, reply};
        } else if (code == FELTER_LAPPED) {
            CHECK(!house.is_whole && lapped == ++laps);
            it->all_laps++;
        } else {
            CHECK(code == FELTER_NO_MESSAGE);
            sched_yield();
        }
        stall(&worker->dice);
    }
}
