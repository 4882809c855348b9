/* Random calls of a conductor, its clients, receivers of its replies, and readers of its counters' values. */
#include "calls.h"

#define CLIENTS 3
#define MAX_SENT 520
#define REPLY_LEN 12

enum command { ALLOCATE = 1, FREE = 2, SET = 3, ALLOCATE_OWNED = 4, CLOSE = 5 };

/* What a seat is: a receiver gets all replies and sends nothing, a reader loads values. */
enum kind { CLIENT, RECEIVER, READER };

struct client {
    bool is_there;
    enum kind kind;
    felter_client client;
    felter_receiver receiver;
    felter_reader reader;
    struct model_receiver model;
    uint64_t sent; /* the correlation id of its last command */
};

static struct {
    bool is_there, has_conductor;
    felter_conductor conductor;
    struct client clients[CLIENTS];
    struct model_ring ring;
    struct model_board board;
    struct model_counters counters;
    uint64_t received;
    uint32_t ring_shares, board_shares; /* that are with clients and receivers, or lost */
} its;

static void look_whether_gone(void) {
    bool is_there = its.has_conductor;
    for (int k = 0; k < CLIENTS; k++) is_there |= its.clients[k].is_there;
    its.is_there = is_there;
}

static void make(void) {
    uint32_t capacity = (uint32_t)ONE_OF(128, 256, 1024, 8192, 16384, 100);
    uint32_t replies = (uint32_t)ONE_OF(256, 512, 4096, 128);
    uint32_t count = (uint32_t)ONE_OF(1, 3, MAX_COUNTERS, 0), reuse_ms = (uint32_t)ONE_OF(0, 50);
    int32_t wanted = model_capacity(capacity, 128, 0);
    if (!wanted) wanted = model_capacity(replies, 256, 0);
    if (!wanted && count == 0) wanted = FELTER_BAD_COUNT;
    if (once_in(3) ? CALL(wanted, felter_conductor_new_numbered(some_number(), capacity, replies, count, reuse_ms,
                                                                &its.conductor))
                   : CALL(wanted, felter_conductor_new(capacity, replies, count, reuse_ms, &its.conductor)))
        return;
    its.is_there = its.has_conductor = true;
    its.received = 0;
    its.ring_shares = its.board_shares = 0;
    model_ring_open(&its.ring, capacity, 0);
    model_board_open(&its.board, replies, 0);
    model_counters_open(&its.counters, count, reuse_ms);
}

static void add_client(struct client *client) {
    enum kind kind = (enum kind)ONE_OF(CLIENT, CLIENT, CLIENT, RECEIVER, RECEIVER, READER);
    if (client->is_there) return;
    if (kind == RECEIVER ? CALL(FELTER_OK, felter_conductor_subscribe(&its.conductor, &client->receiver))
            : kind == READER ? CALL(FELTER_OK, felter_conductor_reader(&its.conductor, &client->reader))
                             : CALL(FELTER_OK, felter_conductor_client(&its.conductor, &client->client)))
        return;
    client->is_there = true;
    client->kind = kind;
    client->model = (struct model_receiver){its.board.latest, 0, 0, 0};
    client->sent = UINT64_MAX;
    its.ring_shares += kind == CLIENT;
    its.board_shares += kind != READER;
}

/* Writes a command into the model's ring, after its id was drawn. */
static int32_t model_send(enum command kind, const uint8_t *body, size_t len) {
    struct record *record;
    int32_t code = model_claim(&its.ring, (int32_t)kind, len, &record);
    if (code) return code;
    memcpy(model_body(&its.ring.records, record), body, len);
    record->state = COMMITTED;
    return FELTER_OK;
}

static size_t put_number(uint8_t *to, uint64_t number, size_t len) {
    memcpy(to, &number, len);
    return len;
}

/* The body of Allocate or AllocateOwned. */
static size_t allocate_body(uint8_t *body, bool is_owned, const struct description *of) {
    size_t at = put_number(body, its.ring.drawn, 8);
    at += put_number(body + at, (uint32_t)of->type_id, 4);
    if (is_owned) at += put_number(body + at, of->owner, 8);
    at += put_number(body + at, of->key_len, 4);
    if (of->key_len) memcpy(body + at, of->key, of->key_len);
    at += of->key_len;
    at += put_number(body + at, of->label_len, 4);
    if (of->label_len) memcpy(body + at, of->label, of->label_len);
    return at + of->label_len;
}

/* What a send gives: the id was drawn, whether or not the ring had room. */
static void sent(struct client *client, int32_t code, uint64_t id) {
    CHECK(id == (code ? UNTOUCHED : its.ring.drawn));
    if (!code) client->sent = id;
    its.ring.drawn++;
}

static void send_allocate(struct client *client) {
    struct description of = {(int32_t)ONE_OF(1, 2, 0), NULL, NULL, (uint32_t)ONE_OF(0, 3, MAX_KEY, MAX_KEY + 1),
                             (uint32_t)ONE_OF(0, 2, 9, MAX_LABEL, MAX_LABEL + 1, 500), 0, pick(3)};
    uint8_t body[1024], *label = input(of.label_len);
    for (uint32_t k = 0; k < of.label_len; k++) label[k] &= once_in(5000) ? 0xff : 0x7f;
    of.label = label;
    of.key = input(of.key_len);
    bool is_owned = once_in(2);
    uint64_t id = UNTOUCHED;
    size_t len = allocate_body(body, is_owned, &of);
    bool is_too_long = len > MAX_SENT;
    int32_t wanted = is_too_long ? FELTER_TOO_LONG : model_send(is_owned ? ALLOCATE_OWNED : ALLOCATE, body, len);
    int32_t code = is_owned
        ? CALL(wanted, felter_send_allocate_owned(&client->client, of.type_id, of.owner, of.key, of.key_len, of.label,
                                                  of.label_len, &id))
        : CALL(wanted, felter_send_allocate(&client->client, of.type_id, of.key, of.key_len, of.label, of.label_len,
                                            &id));
    if (is_too_long) CHECK(id == UNTOUCHED);
    else sent(client, code, id);
}

static void send_other(struct client *client) {
    uint8_t body[32];
    uint64_t id = UNTOUCHED, owner = pick(3);
    uint32_t all = its.counters.count, counter = (uint32_t)ONE_OF(pick(all), pick(all), all, UINT32_MAX);
    int64_t value = (int64_t)ONE_OF(0, 1, pick(1000), UINT64_MAX);
    size_t at = put_number(body, its.ring.drawn, 8);
    int32_t code;
    switch (pick(3)) {
    case 0:
        at += put_number(body + at, counter, 4);
        code = CALL(model_send(FREE, body, at), felter_send_free(&client->client, counter, &id));
        break;
    case 1:
        at += put_number(body + at, counter, 4);
        at += put_number(body + at, (uint64_t)value, 8);
        code = CALL(model_send(SET, body, at), felter_send_set(&client->client, counter, value, &id));
        break;
    default:
        at += put_number(body + at, owner, 8);
        code = CALL(model_send(CLOSE, body, at), felter_send_close_owner(&client->client, owner, &id));
    }
    sent(client, code, id);
}

/* Applies a command to the model's counters: the reply's kind, and its number. */
static enum felter_reply apply(const struct record *record, uint64_t now, uint32_t *number) {
    const uint8_t *body = model_body(&its.ring.records, record);
    uint64_t word;
    uint32_t id;
    int32_t code;
    memcpy(&id, body + 8, 4);
    *number = 0;
    if (record->type_id == ALLOCATE || record->type_id == ALLOCATE_OWNED) {
        struct description of = {(int32_t)id, NULL, NULL, 0, 0, 0, 0};
        bool is_owned = record->type_id == ALLOCATE_OWNED;
        memcpy(&of.registration, body, 8);
        if (is_owned) memcpy(&of.owner, body + 12, 8);
        memcpy(&of.key_len, body + (is_owned ? 20 : 12), 4);
        of.key = body + (is_owned ? 24 : 16);
        memcpy(&of.label_len, of.key + of.key_len, 4);
        of.label = of.key + of.key_len + 4;
        code = model_allocate(&its.counters, now, &of, number);
        if (!code) return FELTER_REPLY_ALLOCATED;
    } else if (record->type_id == CLOSE) {
        memcpy(&word, body + 8, 8);
        code = word ? FELTER_OK : FELTER_BAD_OWNER;
        if (!code) {
            *number = model_close_owner(&its.counters, now, word);
            return FELTER_REPLY_CLOSED;
        }
    } else {
        code = model_used(&its.counters, id);
        if (!code && record->type_id == FREE) model_free(&its.counters, now, id);
        if (!code && record->type_id == SET) memcpy(&its.counters.of[id].value, body + 12, 8);
        if (!code) return FELTER_REPLY_DONE;
    }
    *number = (uint32_t)code;
    return FELTER_REPLY_REFUSED;
}

static void work(void) {
    uint64_t now = ONE_OF(0, pick(200), 100, LAST, LAST + 1), messages = UNTOUCHED, taken = 0;
    uint32_t limit = (uint32_t)ONE_OF(0, 1, 2, 9, UINT32_MAX);
    int32_t stopped = UNTOUCHED, wanted = now > LAST ? FELTER_BAD_MOMENT : FELTER_OK;
    if (CALL(wanted, felter_conductor_work(&its.conductor, now, limit, &messages, &stopped))) {
        CHECK(messages == UNTOUCHED && stopped == UNTOUCHED);
        return;
    }
    uint64_t start = its.ring.head, block_end = start + its.ring.records.capacity - start % its.ring.records.capacity;
    int32_t stop;
    for (;;) {
        struct record *record = its.ring.records.count ? model_at(&its.ring.records, 0) : NULL;
        stop = taken == limit             ? FELTER_STOP_LIMIT
            : its.ring.head == block_end ? FELTER_STOP_BLOCK
                                         : FELTER_STOP_UNPUBLISHED;
        if (stop != FELTER_STOP_UNPUBLISHED || !record) break;
        if (record->state == COMMITTED) {
            uint8_t reply[REPLY_LEN];
            uint32_t number;
            enum felter_reply kind = apply(record, now, &number);
            memcpy(reply, model_body(&its.ring.records, record), 8);
            memcpy(reply + 8, &number, 4);
            size_t len = kind == FELTER_REPLY_DONE ? 8 : REPLY_LEN;
            CHECK(model_transmit(&its.board, (int32_t)kind, reply, len) == FELTER_OK);
            record->state = ABORTED;
            taken++;
        }
        CHECK(model_pass(&its.ring, record->place + record->span));
    }
    its.received += taken;
    CHECK(messages == taken && stopped == stop);
}

static void poll(struct client *client) {
    int32_t kind = UNTOUCHED;
    int64_t number = UNTOUCHED;
    uint64_t lapped = UNTOUCHED, correlation = once_in(4) ? pick(20) : client->sent;
    struct record *record = NULL;
    int32_t wanted = model_receive(&its.board, &client->model, &record);
    uint8_t *body = wanted ? NULL : model_body(&its.board.records, record);
    if (!wanted && memcmp(body, &correlation, 8) != 0) wanted = FELTER_OTHER_REPLY;
    int32_t code = CALL(wanted, felter_poll(&client->client, correlation, &kind, &number, &lapped));
    if (code == FELTER_LAPPED) CHECK(lapped == client->model.lapped);
    if (code) return;
    uint32_t its_number = 0;
    if (record->len > 8) memcpy(&its_number, body + 8, 4);
    CHECK(kind == record->type_id && number == (int64_t)its_number);
}

static void receive(struct client *client) {
    size_t room = its.board.records.capacity / 8, len = UNTOUCHED;
    int32_t type_id = UNTOUCHED;
    uint64_t lapped = UNTOUCHED;
    uint8_t *buffer = output(room);
    struct record *record = NULL;
    int32_t wanted = model_receive(&its.board, &client->model, &record);
    int32_t code = CALL(wanted, felter_receive(&client->receiver, &type_id, &len, &lapped, buffer, room));
    if (code == FELTER_LAPPED) CHECK(lapped == client->model.lapped);
    if (code) return;
    CHECK(type_id == record->type_id && len == record->len);
    CHECK(memcmp(buffer, model_body(&its.board.records, record), len) == 0);
}

static void heartbeat(struct client *client) {
    uint64_t value = ONE_OF(0, pick(1000), UINT64_MAX), seen = UNTOUCHED;
    if (its.has_conductor && CALL(FELTER_OK, felter_conductor_set_heartbeat(&its.conductor, value)) == FELTER_OK)
        its.ring.heartbeat = value;
    if (CALL(FELTER_OK, felter_client_heartbeat(&client->client, &seen)) == FELTER_OK)
        CHECK(seen == its.ring.heartbeat);
}

static void load_value(struct client *client) {
    uint32_t all = its.counters.count, id = (uint32_t)ONE_OF(pick(all), pick(all), all, UINT32_MAX);
    int64_t value = UNTOUCHED;
    int32_t code = CALL(id < all ? FELTER_OK : FELTER_BAD_ID, felter_reader_value(&client->reader, id, &value));
    CHECK(value == (code ? UNTOUCHED : its.counters.of[id].value));
}

static void join(struct client *client) {
    enum kind kind = client->kind;
    if (kind == RECEIVER ? CALL(FELTER_OK, felter_conductor_join_receiver(&its.conductor, &client->receiver))
            : kind == READER ? CALL(FELTER_OK, felter_conductor_join_reader(&its.conductor, &client->reader))
                             : CALL(FELTER_OK, felter_conductor_join(&its.conductor, &client->client)))
        return;
    client->is_there = false;
    its.ring_shares -= kind == CLIENT;
    its.board_shares -= kind != READER;
}

static bool has_handles(void) {
    for (int k = 0; k < CLIENTS; k++)
        if (its.clients[k].is_there) return true;
    return false;
}

static void free_client(struct client *client) {
    felter_handle *handle = client->kind == RECEIVER ? &client->receiver.handle
        : client->kind == READER                     ? &client->reader.handle
                                                     : &client->client.handle;
    CALL(FELTER_OK, (felter_free(handle), FELTER_OK));
    CHECK(handle->at == NULL);
    client->is_there = false;
    look_whether_gone();
}

static void finish(void) {
    uint64_t received = UNTOUCHED, left = UNTOUCHED;
    /* Only what is in a handle is missed. */
    int32_t wanted = !has_handles() ? FELTER_OK
        : its.ring_shares           ? FELTER_PRODUCERS_OUT
        : its.board_shares          ? FELTER_RECEIVERS_OUT
                                    : FELTER_IN_USE;
    if (CALL(wanted, felter_conductor_finish(&its.conductor, &received, &left))) {
        CHECK(received == UNTOUCHED && left == UNTOUCHED);
        return;
    }
    CHECK(its.conductor.handle.at == NULL && received == its.received && left == model_left(&its.ring));
    its.has_conductor = false;
    look_whether_gone();
}

static void free_conductor(void) {
    CALL(FELTER_OK, (felter_free(&its.conductor.handle), FELTER_OK));
    its.has_conductor = false;
    look_whether_gone();
}

void conductor_step(void) {
    struct client *client = &its.clients[pick(CLIENTS)];
    if (!its.is_there) {
        make();
        return;
    }
    if (its.has_conductor) switch (pick(12)) {
        case 0: case 1: add_client(client); break;
        case 2: case 3: case 4: case 5: work(); break;
        case 6: if (client->is_there && once_in(6)) join(client); break;
        case 7: if (once_in(8)) finish(); break;
        case 8: if (once_in(60)) free_conductor(); break;
        case 9: look_at_conducted(&its.conductor, &its.counters); break;
        case 10: look_at_conducted_texts(&its.conductor, &its.counters); break;
        case 11: find_conducted(&its.conductor, &its.counters, its.ring.drawn); break;
        default: break;
        }
    if (!client->is_there) return;
    if (client->kind == RECEIVER) receive(client);
    else if (client->kind == READER) load_value(client);
    else switch (pick(12)) {
        case 0: case 1: case 2: send_allocate(client); break;
        case 3: case 4: case 5: case 6: send_other(client); break;
        case 7: case 8: case 9: poll(client); break;
        case 10: heartbeat(client); break;
        default: if (once_in(30)) free_client(client);
        }
}

void conductor_end(void) {
    if (its.has_conductor && once_in(2)) free_conductor();
    for (int k = 0; k < CLIENTS; k++)
        if (its.clients[k].is_there) free_client(&its.clients[k]);
    if (its.has_conductor) free_conductor();
}
