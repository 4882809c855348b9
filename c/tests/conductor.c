/* Every code of the calls of conductors and their clients, on one thread. */
#include "check.h"

/* Lets a conductor work, and compares how many commands it took and why it stopped. */
static void expect_work(felter_conductor *conductor, uint32_t limit, uint64_t messages, int32_t stopped) {
    uint64_t took = 77;
    int32_t why = 77;
    EXPECT(FELTER_OK, felter_conductor_work(conductor, 0, limit, &took, &why));
    CHECK(took == messages && why == stopped);
}

/* Takes the reply to a command, and compares it. */
static void expect_reply(felter_client *client, uint64_t id, int32_t kind, int64_t number) {
    int32_t kind_read = -7;
    int64_t number_read = -7;
    uint64_t lapped = 77;
    EXPECT(FELTER_OK, felter_poll(client, id, &kind_read, &number_read, &lapped));
    CHECK(kind_read == kind && number_read == number && lapped == 77);
}

/* Polls for a reply that does not come, and compares why, and what is written then: how often it was lapped. */
static void poll_refuses(felter_client *client, uint64_t id, uint64_t laps, int32_t code) {
    int32_t kind = -7;
    int64_t number = -7;
    uint64_t lapped = 77;
    EXPECT(code, felter_poll(client, id, &kind, &number, &lapped));
    CHECK(kind == -7 && number == -7 && lapped == (laps ? laps : 77));
}

static void makes(void) {
    felter_conductor conductor = FELTER_EMPTY;
    static const uint32_t rings[] = {0, 64, 129, 33554432, UINT32_MAX}, boards[] = {0, 128, 257, 33554432, UINT32_MAX};
    for (size_t i = 0; i < sizeof rings / sizeof *rings; i++) {
        EXPECT(FELTER_BAD_CAPACITY, felter_conductor_new(rings[i], 256, 0, 0, &conductor));
        EXPECT(FELTER_BAD_CAPACITY, felter_conductor_new(128, boards[i], 0, 0, &conductor));
    }
    EXPECT(FELTER_BAD_COUNT, felter_conductor_new(128, 256, 0, 0, &conductor));
    EXPECT(FELTER_BAD_COUNT, felter_conductor_new(128, 256, 4097, 0, &conductor));
    EXPECT(FELTER_NO_HANDLE, felter_conductor_set_heartbeat(&conductor, 1));
    EXPECT(FELTER_OK, felter_conductor_new(16777216, 16777216, 4096, UINT32_MAX, &conductor));
    EXPECT(FELTER_HANDLE_IN_USE, felter_conductor_new(128, 256, 1, 0, &conductor));
    EXPECT(FELTER_HANDLE_IN_USE, felter_conductor_new(0, 0, 0, 0, &conductor));
    EXPECT(FELTER_OK, felter_conductor_set_heartbeat(&conductor, 1));
    felter_free(&conductor.handle);
    EXPECT(FELTER_OK, felter_conductor_new(128, 256, 1, 0, &conductor));
    felter_free(&conductor.handle);
}

/* Lets the conductor take the one command that was sent, at a moment, and compares its reply. */
static void answers(felter_conductor *conductor, uint64_t now, felter_client *client, uint64_t id, int32_t kind,
                    int64_t number) {
    uint64_t took = 0;
    int32_t why = 77;
    EXPECT(FELTER_OK, felter_conductor_work(conductor, now, 1, &took, &why));
    CHECK(took == 1 && why == FELTER_STOP_LIMIT);
    expect_reply(client, id, kind, number);
    poll_refuses(client, id, 0, FELTER_NO_MESSAGE);
}

/* The longest command has 520 bytes: 20 besides key and label, and 28 with an owner. A longer one draws no id. */
static void longest(felter_conductor *conductor, felter_client *client, const uint8_t *key, const uint8_t *label) {
    uint64_t id = 99;
    EXPECT(FELTER_TOO_LONG, felter_send_allocate(client, 1, key, 112, label, 389, &id));
    EXPECT(FELTER_TOO_LONG, felter_send_allocate_owned(client, 1, 5, key, 112, label, 381, &id));
    CHECK(id == 99);
    EXPECT(FELTER_OK, felter_send_allocate(client, 1, key, 112, label, 388, &id));
    CHECK(id == 0);
    answers(conductor, 0, client, id, FELTER_REPLY_REFUSED, FELTER_LABEL_TOO_LONG);
    EXPECT(FELTER_OK, felter_send_allocate(client, 1, key, 113, NULL, 0, &id));
    CHECK(id == 1);
    answers(conductor, 0, client, id, FELTER_REPLY_REFUSED, FELTER_KEY_TOO_LONG);
}

/* Counters 0 and 2 of the owner 5, and 1 of none. */
static void allocates(felter_conductor *conductor, felter_client *client, const uint8_t *key, uint8_t *label) {
    uint64_t id = 99;
    label[379] = 128;
    EXPECT(FELTER_OK, felter_send_allocate_owned(client, 1, 5, key, 112, label, 380, &id));
    answers(conductor, 0, client, id, FELTER_REPLY_REFUSED, FELTER_LABEL_NOT_ASCII);
    label[379] = 'y';
    EXPECT(FELTER_OK, felter_send_allocate_owned(client, 1, 5, key, 112, label, 380, &id));
    answers(conductor, 0, client, id, FELTER_REPLY_ALLOCATED, 0);
    EXPECT(FELTER_OK, felter_send_allocate(client, -3, NULL, 0, BYTES("of nobody"), &id));
    answers(conductor, 0, client, id, FELTER_REPLY_ALLOCATED, 1);
    EXPECT(FELTER_OK, felter_send_allocate_owned(client, 1, 5, NULL, 0, NULL, 0, &id));
    answers(conductor, 0, client, id, FELTER_REPLY_ALLOCATED, 2);
    EXPECT(FELTER_OK, felter_send_allocate(client, 1, NULL, 0, NULL, 0, &id));
    answers(conductor, 0, client, id, FELTER_REPLY_REFUSED, FELTER_NO_FREE_COUNTER);
}

/* Sets and frees: 0 and 2 at the moment 900, and 1 at 950. */
static void frees(felter_conductor *conductor, felter_client *client) {
    uint64_t id = 99;
    EXPECT(FELTER_OK, felter_send_set(client, 1, INT64_MIN, &id));
    answers(conductor, 0, client, id, FELTER_REPLY_DONE, 0);
    EXPECT(FELTER_OK, felter_send_set(client, 3, 1, &id));
    answers(conductor, 0, client, id, FELTER_REPLY_REFUSED, FELTER_BAD_ID);
    EXPECT(FELTER_OK, felter_send_free(client, UINT32_MAX, &id));
    answers(conductor, 0, client, id, FELTER_REPLY_REFUSED, FELTER_BAD_ID);
    EXPECT(FELTER_OK, felter_send_close_owner(client, 0, &id));
    answers(conductor, 0, client, id, FELTER_REPLY_REFUSED, FELTER_BAD_OWNER);
    EXPECT(FELTER_OK, felter_send_close_owner(client, 6, &id));
    answers(conductor, 0, client, id, FELTER_REPLY_CLOSED, 0);
    EXPECT(FELTER_OK, felter_send_close_owner(client, 5, &id));
    answers(conductor, 900, client, id, FELTER_REPLY_CLOSED, 2);
    EXPECT(FELTER_OK, felter_send_set(client, 2, 1, &id));
    answers(conductor, 900, client, id, FELTER_REPLY_REFUSED, FELTER_NOT_ALLOCATED);
    EXPECT(FELTER_OK, felter_send_free(client, 1, &id));
    answers(conductor, 950, client, id, FELTER_REPLY_DONE, 0);
    EXPECT(FELTER_OK, felter_send_free(client, 1, &id));
    answers(conductor, 950, client, id, FELTER_REPLY_REFUSED, FELTER_NOT_ALLOCATED);
}

/* A freed id rests for 100 ms. */
static void reuses(felter_conductor *conductor, felter_client *client) {
    static const struct {
        uint64_t now;
        int32_t kind;
        int64_t number;
    } later[] = {{999, FELTER_REPLY_REFUSED, FELTER_NO_FREE_COUNTER},
                 {1000, FELTER_REPLY_ALLOCATED, 0},
                 {1049, FELTER_REPLY_ALLOCATED, 2},
                 {1049, FELTER_REPLY_REFUSED, FELTER_NO_FREE_COUNTER},
                 {1050, FELTER_REPLY_ALLOCATED, 1}};
    for (size_t i = 0; i < sizeof later / sizeof *later; i++) {
        uint64_t id = 99;
        EXPECT(FELTER_OK, felter_send_allocate(client, 1, NULL, 0, NULL, 0, &id));
        answers(conductor, later[i].now, client, id, later[i].kind, later[i].number);
    }
}

/* Each command, obeyed or refused. */
static void commands(void) {
    felter_conductor conductor = FELTER_EMPTY;
    felter_client client = FELTER_EMPTY;
    uint8_t key[113], label[389];
    memset(key, 0xA5, sizeof key);
    memset(label, 'x', sizeof label);
    EXPECT(FELTER_OK, felter_conductor_new(8192, 65536, 3, 100, &conductor));
    EXPECT(FELTER_OK, felter_conductor_client(&conductor, &client));
    longest(&conductor, &client, key, label);
    allocates(&conductor, &client, key, label);
    frees(&conductor, &client);
    reuses(&conductor, &client);
    felter_free(&client.handle);
    felter_free(&conductor.handle);
}

/* Why a conductor stops, and when a full ring or a long command is refused: a ring of 128 bytes has room for five
 * commands of 12 bytes, which take 24 each, and none for one of 20 bytes. */
static void works(void) {
    felter_conductor conductor = FELTER_EMPTY;
    felter_client client = FELTER_EMPTY;
    uint64_t id = 99, took = 77;
    int32_t why = 77;
    EXPECT(FELTER_OK, felter_conductor_new(128, 1024, 1, 0, &conductor));
    EXPECT(FELTER_OK, felter_conductor_client(&conductor, &client));
    expect_work(&conductor, 0, 0, FELTER_STOP_LIMIT);
    expect_work(&conductor, 9, 0, FELTER_STOP_UNPUBLISHED);
    EXPECT(FELTER_TOO_LONG, felter_send_set(&client, 0, 1, &id));
    EXPECT(FELTER_TOO_LONG, felter_send_allocate(&client, 1, NULL, 0, NULL, 0, &id));
    CHECK(id == 99);
    /* Ids 0 and 1 are given to no command. */
    for (uint64_t n = 2; n < 7; n++) {
        EXPECT(FELTER_OK, felter_send_free(&client, 0, &id));
        CHECK(id == n);
    }
    EXPECT(FELTER_INSUFFICIENT_CAPACITY, felter_send_free(&client, 0, &id));
    CHECK(id == 6);
    EXPECT(FELTER_BAD_MOMENT, felter_conductor_work(&conductor, LAST_POSITION + 1, 9, &took, &why));
    EXPECT(FELTER_BAD_MOMENT, felter_conductor_work(&conductor, UINT64_MAX, 9, &took, &why));
    CHECK(took == 77 && why == 77);
    poll_refuses(&client, 2, 0, FELTER_NO_MESSAGE);
    EXPECT(FELTER_OK, felter_conductor_work(&conductor, LAST_POSITION, 2, &took, &why));
    CHECK(took == 2 && why == FELTER_STOP_LIMIT);
    expect_work(&conductor, 9, 3, FELTER_STOP_UNPUBLISHED);
    for (uint64_t n = 2; n < 7; n++) expect_reply(&client, n, FELTER_REPLY_REFUSED, FELTER_NOT_ALLOCATED);
    /* The next command comes after the end of the buffer. */
    EXPECT(FELTER_OK, felter_send_free(&client, 1, &id));
    CHECK(id == 8);
    expect_work(&conductor, 9, 0, FELTER_STOP_BLOCK);
    expect_work(&conductor, UINT32_MAX, 1, FELTER_STOP_UNPUBLISHED);
    expect_reply(&client, 8, FELTER_REPLY_REFUSED, FELTER_BAD_ID);
    felter_free(&client.handle);
    felter_free(&conductor.handle);
}

static void heartbeats(void) {
    felter_conductor conductor = FELTER_EMPTY;
    felter_client client = FELTER_EMPTY;
    static const uint64_t beats[] = {5, UINT64_MAX, 0, 7};
    uint64_t value = 99;
    EXPECT(FELTER_OK, felter_conductor_new(128, 256, 1, 0, &conductor));
    EXPECT(FELTER_OK, felter_conductor_client(&conductor, &client));
    EXPECT(FELTER_OK, felter_client_heartbeat(&client, &value));
    CHECK(value == 0);
    for (size_t i = 0; i < sizeof beats / sizeof *beats; i++) {
        EXPECT(FELTER_OK, felter_conductor_set_heartbeat(&conductor, beats[i]));
        EXPECT(FELTER_OK, felter_client_heartbeat(&client, &value));
        CHECK(value == beats[i]);
    }
    felter_free(&conductor.handle);
    EXPECT(FELTER_OK, felter_client_heartbeat(&client, &value));
    CHECK(value == 7);
    felter_free(&client.handle);
}

/* Two clients on a board of 256 bytes: replies to others are passed over, and a client is lapped. */
static void polls(void) {
    felter_conductor conductor = FELTER_EMPTY;
    felter_client one = FELTER_EMPTY, two = FELTER_EMPTY, late = FELTER_EMPTY;
    uint64_t first = 99, second = 99, last = 99;
    EXPECT(FELTER_OK, felter_conductor_new(4096, 256, 2, 0, &conductor));
    EXPECT(FELTER_OK, felter_conductor_client(&conductor, &one));
    EXPECT(FELTER_OK, felter_conductor_client(&conductor, &two));
    EXPECT(FELTER_OK, felter_send_allocate(&one, 1, NULL, 0, BYTES("one"), &first));
    EXPECT(FELTER_OK, felter_send_allocate(&two, 1, NULL, 0, BYTES("two"), &second));
    poll_refuses(&one, first, 0, FELTER_NO_MESSAGE);
    expect_work(&conductor, 9, 2, FELTER_STOP_UNPUBLISHED);
    expect_reply(&one, first, FELTER_REPLY_ALLOCATED, 0);
    poll_refuses(&one, UINT64_MAX, 0, FELTER_OTHER_REPLY);
    poll_refuses(&one, second, 0, FELTER_NO_MESSAGE);
    poll_refuses(&two, second, 0, FELTER_OTHER_REPLY);
    expect_reply(&two, second, FELTER_REPLY_ALLOCATED, 1);
    /* A client starts with the reply that was transmitted last. */
    EXPECT(FELTER_OK, felter_conductor_client(&conductor, &late));
    poll_refuses(&late, first, 0, FELTER_OTHER_REPLY);
    poll_refuses(&late, first, 0, FELTER_NO_MESSAGE);
    for (uint64_t laps = 1; laps < 3; laps++) {
        for (int64_t value = 1; value <= 20; value++) EXPECT(FELTER_OK, felter_send_set(&two, 1, value, &last));
        expect_work(&conductor, 20, 20, FELTER_STOP_LIMIT);
        poll_refuses(&two, last, laps, FELTER_LAPPED);
        expect_reply(&two, last, FELTER_REPLY_DONE, 0);
        poll_refuses(&two, last, 0, FELTER_NO_MESSAGE);
    }
    poll_refuses(&one, last, 1, FELTER_LAPPED);
    poll_refuses(&one, first, 0, FELTER_OTHER_REPLY);
    EXPECT(FELTER_OK, felter_send_free(&one, 0, &first));
    expect_work(&conductor, 9, 1, FELTER_STOP_UNPUBLISHED);
    expect_reply(&one, first, FELTER_REPLY_DONE, 0);
    felter_free(&one.handle);
    felter_free(&two.handle);
    felter_free(&late.handle);
    felter_free(&conductor.handle);
}

/* Takes a reply from the board as it lies there. */
static void expect_bytes(felter_receiver *receiver, int32_t type_id, const uint8_t *body, size_t len) {
    uint8_t buffer[32];
    int32_t type_read = -7;
    size_t len_read = 9999;
    uint64_t lapped = 77;
    EXPECT(FELTER_SHORT_BUFFER, felter_receive(receiver, &type_read, &len_read, &lapped, buffer, 31));
    CHECK(len_read == 32);
    EXPECT(FELTER_OK, felter_receive(receiver, &type_read, &len_read, &lapped, buffer, 32));
    CHECK(type_read == type_id && len_read == len && memcmp(buffer, body, len) == 0);
}

/* What a conductor made outlives it: its client receives the replies to three commands, and fills the ring. */
static void outlive(felter_client *client, felter_receiver *receiver, felter_reader *reader) {
    uint64_t id = 99;
    int64_t value = 99;
    EXPECT(FELTER_OK, felter_lapped_count(receiver, &id));
    CHECK(id == 0);
    felter_free(&receiver->handle);
    EXPECT(FELTER_OK, felter_reader_value(reader, 0, &value));
    CHECK(value == -9);
    felter_free(&reader->handle);
    expect_reply(client, 0, FELTER_REPLY_ALLOCATED, 0);
    expect_reply(client, 1, FELTER_REPLY_DONE, 0);
    expect_reply(client, 2, FELTER_REPLY_REFUSED, FELTER_NOT_ALLOCATED);
    while (felter_send_free(client, 0, &id) == FELTER_OK) CHECK(id < 20);
    CHECK(id > 2);
    EXPECT(FELTER_INSUFFICIENT_CAPACITY, felter_send_free(client, 0, &id));
    felter_free(&client->handle);
}

/* Receivers of the replies, and readers of the values. */
static void listens(void) {
    felter_conductor conductor = FELTER_EMPTY;
    felter_client client = FELTER_EMPTY;
    felter_receiver receiver = FELTER_EMPTY;
    felter_reader reader = FELTER_EMPTY;
    uint64_t id = 99;
    int64_t value = 99;
    EXPECT(FELTER_OK, felter_conductor_new(256, 256, 2, 0, &conductor));
    EXPECT(FELTER_OK, felter_conductor_client(&conductor, &client));
    EXPECT(FELTER_OK, felter_conductor_subscribe(&conductor, &receiver));
    EXPECT(FELTER_OK, felter_conductor_reader(&conductor, &reader));
    EXPECT(FELTER_HANDLE_IN_USE, felter_conductor_client(&conductor, &client));
    EXPECT(FELTER_HANDLE_IN_USE, felter_conductor_subscribe(&conductor, &receiver));
    EXPECT(FELTER_HANDLE_IN_USE, felter_conductor_reader(&conductor, &reader));
    EXPECT(FELTER_OK, felter_send_allocate(&client, 1, NULL, 0, NULL, 0, &id));
    EXPECT(FELTER_OK, felter_send_set(&client, 0, -9, &id));
    EXPECT(FELTER_OK, felter_send_set(&client, 1, -9, &id));
    EXPECT(FELTER_OK, felter_reader_value(&reader, 0, &value));
    CHECK(value == 0);
    expect_work(&conductor, 9, 3, FELTER_STOP_UNPUBLISHED);
    EXPECT(FELTER_OK, felter_reader_value(&reader, 0, &value));
    CHECK(value == -9);
    EXPECT(FELTER_OK, felter_reader_value(&reader, 1, &value));
    CHECK(value == 0);
    EXPECT(FELTER_BAD_ID, felter_reader_value(&reader, 2, &value));
    CHECK(value == 0);
    expect_bytes(&receiver, FELTER_REPLY_ALLOCATED, BYTES("\0\0\0\0\0\0\0\0\0\0\0\0"));
    expect_bytes(&receiver, FELTER_REPLY_DONE, BYTES("\1\0\0\0\0\0\0\0"));
    expect_bytes(&receiver, FELTER_REPLY_REFUSED, BYTES("\2\0\0\0\0\0\0\0\25\0\0\0"));
    felter_free(&conductor.handle);
    outlive(&client, &receiver, &reader);
}

/* What the calls of a conductor answer where the handle is none; nothing is written then. */
static void conductor_refuses(felter_conductor *it, int32_t code) {
    felter_client client = FELTER_EMPTY;
    felter_receiver receiver = FELTER_EMPTY;
    felter_reader reader = FELTER_EMPTY;
    uint64_t one = 77, two = 77;
    int64_t value = 77;
    int32_t why = 77;
    EXPECT(code, felter_conductor_client(it, &client));
    EXPECT(code, felter_conductor_work(it, 0, 1, &one, &why));
    EXPECT(code, felter_conductor_set_heartbeat(it, 1));
    EXPECT(code, felter_conductor_subscribe(it, &receiver));
    EXPECT(code, felter_conductor_reader(it, &reader));
    EXPECT(code, felter_conductor_finish(it, &one, &two));
    EXPECT(FELTER_NO_HANDLE, felter_client_heartbeat(&client, &one));
    EXPECT(FELTER_NO_HANDLE, felter_lapped_count(&receiver, &one));
    EXPECT(FELTER_NO_HANDLE, felter_reader_value(&reader, 0, &value));
    CHECK(one == 77 && two == 77 && why == 77);
}

/* The same of a client. */
static void client_refuses(felter_client *it, int32_t code) {
    uint64_t id = 77;
    EXPECT(code, felter_send_allocate(it, 1, NULL, 0, NULL, 0, &id));
    EXPECT(code, felter_send_allocate_owned(it, 1, 5, NULL, 0, NULL, 0, &id));
    EXPECT(code, felter_send_free(it, 0, &id));
    EXPECT(code, felter_send_set(it, 0, 1, &id));
    EXPECT(code, felter_send_close_owner(it, 5, &id));
    EXPECT(code, felter_client_heartbeat(it, &id));
    CHECK(id == 77);
    poll_refuses(it, 0, 0, code);
}

static void kinds(void) {
    felter_conductor conductor = FELTER_EMPTY, none = FELTER_EMPTY;
    felter_client client = FELTER_EMPTY, no_client = FELTER_EMPTY;
    uint64_t id = 77;
    conductor_refuses(&none, FELTER_NO_HANDLE);
    client_refuses(&no_client, FELTER_NO_HANDLE);
    EXPECT(FELTER_OK, felter_conductor_new(128, 256, 1, 0, &conductor));
    EXPECT(FELTER_OK, felter_conductor_client(&conductor, &client));
    conductor_refuses((felter_conductor *)(void *)&client, FELTER_WRONG_HANDLE);
    client_refuses((felter_client *)(void *)&conductor, FELTER_WRONG_HANDLE);
    EXPECT(FELTER_WRONG_HANDLE, felter_write((felter_producer *)(void *)&client, 1, NULL, 0));
    EXPECT(FELTER_WRONG_HANDLE, felter_counters_count((felter_counters *)(void *)&conductor, &(uint32_t){0}));
    /* Both are as they were: a first command, with the first id. */
    EXPECT(FELTER_OK, felter_send_close_owner(&client, 5, &id));
    CHECK(id == 0);
    expect_work(&conductor, 9, 1, FELTER_STOP_UNPUBLISHED);
    expect_reply(&client, 0, FELTER_REPLY_CLOSED, 0);
    felter_free(&client.handle);
    felter_free(&conductor.handle);
}

int main(void) {
    makes();
    commands();
    works();
    heartbeats();
    polls();
    listens();
    kinds();
    puts("conductor: each answer as it should be");
    return 0;
}
