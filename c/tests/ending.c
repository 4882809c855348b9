/* What conductors take back, and how they end: every code, and that each refusal leaves all as it was. */
#include "check.h"

/* What one conductor has given out. */
struct party {
    felter_conductor conductor;
    felter_client client;
    felter_receiver receiver;
    felter_reader reader;
};

#define NO_PARTY {FELTER_EMPTY, FELTER_EMPTY, FELTER_EMPTY, FELTER_EMPTY}

static void make(struct party *it, uint32_t capacity, uint32_t replies, uint32_t counters) {
    EXPECT(FELTER_OK, felter_conductor_new(capacity, replies, counters, 0, &it->conductor));
    EXPECT(FELTER_OK, felter_conductor_client(&it->conductor, &it->client));
    EXPECT(FELTER_OK, felter_conductor_subscribe(&it->conductor, &it->receiver));
    EXPECT(FELTER_OK, felter_conductor_reader(&it->conductor, &it->reader));
}

/* Sends a command that frees a counter, which is none, and shows that ring, board and values are those of one
 * conductor: the client gets the reply, the receiver the same, and the reader has as many ids. */
static void works_together(struct party *it, uint32_t counters) {
    uint64_t id = 99, took = 0, lapped = 77;
    int32_t why = 77, kind = 0;
    int64_t number = 0;
    uint8_t buffer[64];
    size_t len = 0;
    EXPECT(FELTER_OK, felter_send_free(&it->client, 0, &id));
    EXPECT(FELTER_OK, felter_conductor_work(&it->conductor, 0, 1, &took, &why));
    CHECK(took == 1);
    EXPECT(FELTER_OK, felter_poll(&it->client, id, &kind, &number, &lapped));
    CHECK(kind == FELTER_REPLY_REFUSED && number == FELTER_NOT_ALLOCATED);
    EXPECT(FELTER_OK, felter_receive(&it->receiver, &kind, &len, &lapped, buffer, sizeof buffer));
    CHECK(kind == FELTER_REPLY_REFUSED && memcmp(buffer, &id, 8) == 0 && lapped == 77);
    EXPECT(FELTER_OK, felter_reader_value(&it->reader, counters - 1, &number));
    EXPECT(FELTER_BAD_ID, felter_reader_value(&it->reader, counters, &number));
}

/* Refuses to finish, twice. */
static void finish_refuses(felter_conductor *conductor, int32_t code) {
    uint64_t received = 77, left = 77;
    EXPECT(code, felter_conductor_finish(conductor, &received, &left));
    EXPECT(code, felter_conductor_finish(conductor, &received, &left));
    CHECK(received == 77 && left == 77);
}

static void finishes(felter_conductor *conductor, uint64_t received, uint64_t left) {
    uint64_t received_read = 77, left_read = 77;
    EXPECT(FELTER_OK, felter_conductor_finish(conductor, &received_read, &left_read));
    CHECK(received_read == received && left_read == left);
    EXPECT(FELTER_NO_HANDLE, felter_conductor_finish(conductor, &received_read, &left_read));
    CHECK(received_read == received && left_read == left);
}

/* A finish is refused until all came back, and then says what was received and left. */
static void ends(void) {
    struct party it = NO_PARTY;
    uint64_t id = 99, took = 0;
    int32_t why = 77;
    int64_t value = 99;
    make(&it, 256, 256, 2);
    finish_refuses(&it.conductor, FELTER_PRODUCERS_OUT);
    works_together(&it, 2);
    for (int n = 0; n < 5; n++) EXPECT(FELTER_OK, felter_send_close_owner(&it.client, 5, &id));
    EXPECT(FELTER_OK, felter_conductor_work(&it.conductor, 0, 2, &took, &why));
    CHECK(took == 2 && why == FELTER_STOP_LIMIT);
    EXPECT(FELTER_OK, felter_conductor_join(&it.conductor, &it.client));
    EXPECT(FELTER_NO_HANDLE, felter_send_free(&it.client, 0, &id));
    finish_refuses(&it.conductor, FELTER_RECEIVERS_OUT);
    /* Shares that came back are given again. */
    EXPECT(FELTER_OK, felter_conductor_client(&it.conductor, &it.client));
    finish_refuses(&it.conductor, FELTER_PRODUCERS_OUT);
    EXPECT(FELTER_OK, felter_conductor_join(&it.conductor, &it.client));
    EXPECT(FELTER_OK, felter_conductor_join_receiver(&it.conductor, &it.receiver));
    EXPECT(FELTER_NO_HANDLE, felter_lapped_count(&it.receiver, &id));
    finish_refuses(&it.conductor, FELTER_IN_USE);
    EXPECT(FELTER_OK, felter_reader_value(&it.reader, 1, &value));
    EXPECT(FELTER_OK, felter_conductor_work(&it.conductor, 0, 1, &took, &why));
    CHECK(took == 1 && why == FELTER_STOP_LIMIT);
    EXPECT(FELTER_OK, felter_conductor_join_reader(&it.conductor, &it.reader));
    EXPECT(FELTER_NO_HANDLE, felter_reader_value(&it.reader, 1, &value));
    finishes(&it.conductor, 4, 2);
}

/* A reader that is freed is in no one's way. In a ring of 128 bytes the sixth command comes after padding, which is no
 * command that was left. */
static void leaves(void) {
    struct party it = NO_PARTY;
    uint64_t id = 99, took = 0;
    int32_t why = 77;
    make(&it, 128, 256, 1);
    for (int n = 0; n < 5; n++) EXPECT(FELTER_OK, felter_send_free(&it.client, 0, &id));
    EXPECT(FELTER_OK, felter_conductor_work(&it.conductor, 0, 9, &took, &why));
    CHECK(took == 5 && why == FELTER_STOP_UNPUBLISHED);
    for (int n = 0; n < 3; n++) EXPECT(FELTER_OK, felter_send_free(&it.client, 0, &id));
    EXPECT(FELTER_OK, felter_conductor_join_receiver(&it.conductor, &it.receiver));
    EXPECT(FELTER_OK, felter_conductor_join(&it.conductor, &it.client));
    finish_refuses(&it.conductor, FELTER_IN_USE);
    felter_free(&it.reader.handle);
    finishes(&it.conductor, 5, 3);
    EXPECT(FELTER_OK, felter_conductor_new(128, 256, 1, 0, &it.conductor));
    finishes(&it.conductor, 0, 0);
}

/* Clients and receivers that were freed are not missed. While one is in a handle, a finish is refused. */
static void loses(void) {
    struct party it = NO_PARTY;
    uint64_t id = 99, took = 0;
    int32_t why = 77;
    make(&it, 128, 256, 1);
    for (int n = 0; n < 3; n++) EXPECT(FELTER_OK, felter_send_free(&it.client, 0, &id));
    EXPECT(FELTER_OK, felter_conductor_work(&it.conductor, 0, 1, &took, &why));
    felter_free(&it.client.handle);
    finish_refuses(&it.conductor, FELTER_PRODUCERS_OUT);
    felter_free(&it.reader.handle);
    finish_refuses(&it.conductor, FELTER_PRODUCERS_OUT);
    EXPECT(FELTER_OK, felter_conductor_join_receiver(&it.conductor, &it.receiver));
    finishes(&it.conductor, 1, 2);
    make(&it, 128, 256, 1);
    EXPECT(FELTER_OK, felter_send_free(&it.client, 0, &id));
    felter_free(&it.receiver.handle);
    felter_free(&it.reader.handle);
    finish_refuses(&it.conductor, FELTER_PRODUCERS_OUT);
    EXPECT(FELTER_OK, felter_conductor_join(&it.conductor, &it.client));
    finishes(&it.conductor, 0, 1);
}

/* What another conductor made is refused, also of the same sizes, and what none made. */
static void others(void) {
    struct party it = NO_PARTY, alike = NO_PARTY, ring = NO_PARTY, board = NO_PARTY;
    felter_transmitter transmitter = FELTER_EMPTY;
    felter_receiver receiver = FELTER_EMPTY;
    felter_counters counters = FELTER_EMPTY;
    felter_reader reader = FELTER_EMPTY;
    int64_t value = 99;
    uint64_t count = 99;
    make(&it, 256, 512, 2);
    make(&alike, 256, 512, 2);
    make(&ring, 512, 512, 2);
    make(&board, 256, 256, 2);
    struct party *all[] = {&it, &alike, &ring, &board};
    for (int i = 1; i < 4; i++) {
        EXPECT(FELTER_OTHER_RING, felter_conductor_join(&it.conductor, &all[i]->client));
        EXPECT(FELTER_OTHER_RING, felter_conductor_join_receiver(&it.conductor, &all[i]->receiver));
        EXPECT(FELTER_OTHER_RING, felter_conductor_join_reader(&it.conductor, &all[i]->reader));
    }
    EXPECT(FELTER_OK, felter_board_new(512, &transmitter));
    EXPECT(FELTER_OK, felter_subscribe(&transmitter, &receiver));
    EXPECT(FELTER_OTHER_RING, felter_conductor_join_receiver(&it.conductor, &receiver));
    EXPECT(FELTER_OK, felter_counters_new(2, 0, &counters));
    EXPECT(FELTER_OK, felter_counters_reader(&counters, &reader));
    EXPECT(FELTER_OTHER_RING, felter_conductor_join_reader(&it.conductor, &reader));
    EXPECT(FELTER_OK, felter_lapped_count(&receiver, &count));
    EXPECT(FELTER_OK, felter_reader_value(&reader, 1, &value));
    CHECK(count == 0 && value == 0);
    for (int i = 0; i < 4; i++) {
        works_together(all[i], 2);
        EXPECT(FELTER_OK, felter_conductor_join(&all[i]->conductor, &all[i]->client));
        EXPECT(FELTER_OK, felter_conductor_join_receiver(&all[i]->conductor, &all[i]->receiver));
        EXPECT(FELTER_OK, felter_conductor_join_reader(&all[i]->conductor, &all[i]->reader));
        finishes(&all[i]->conductor, 1, 0);
    }
    felter_free(&transmitter.handle);
    felter_free(&receiver.handle);
    felter_free(&counters.handle);
    felter_free(&reader.handle);
}

/* What the joins answer of handles that are empty or of another kind. */
static void kinds(void) {
    struct party it = NO_PARTY, none = NO_PARTY;
    make(&it, 256, 256, 2);
    EXPECT(FELTER_NO_HANDLE, felter_conductor_join(&none.conductor, &it.client));
    EXPECT(FELTER_NO_HANDLE, felter_conductor_join_receiver(&none.conductor, &it.receiver));
    EXPECT(FELTER_NO_HANDLE, felter_conductor_join_reader(&none.conductor, &it.reader));
    EXPECT(FELTER_NO_HANDLE, felter_conductor_join(&it.conductor, &none.client));
    EXPECT(FELTER_NO_HANDLE, felter_conductor_join_receiver(&it.conductor, &none.receiver));
    EXPECT(FELTER_NO_HANDLE, felter_conductor_join_reader(&it.conductor, &none.reader));
    felter_conductor *no_conductor = (felter_conductor *)(void *)&it.reader;
    EXPECT(FELTER_WRONG_HANDLE, felter_conductor_join(no_conductor, &it.client));
    EXPECT(FELTER_WRONG_HANDLE, felter_conductor_join_receiver(no_conductor, &it.receiver));
    no_conductor = (felter_conductor *)(void *)&it.client;
    EXPECT(FELTER_WRONG_HANDLE, felter_conductor_join_reader(no_conductor, &it.reader));
    EXPECT(FELTER_WRONG_HANDLE, felter_conductor_join(&it.conductor, (felter_client *)(void *)&it.receiver));
    EXPECT(FELTER_WRONG_HANDLE, felter_conductor_join_receiver(&it.conductor, (felter_receiver *)(void *)&it.reader));
    EXPECT(FELTER_WRONG_HANDLE, felter_conductor_join_reader(&it.conductor, (felter_reader *)(void *)&it.client));
    works_together(&it, 2);
    /* Each of them was given once, and is taken back once. */
    EXPECT(FELTER_OK, felter_conductor_join(&it.conductor, &it.client));
    EXPECT(FELTER_OK, felter_conductor_join_receiver(&it.conductor, &it.receiver));
    EXPECT(FELTER_OK, felter_conductor_join_reader(&it.conductor, &it.reader));
    EXPECT(FELTER_NO_HANDLE, felter_conductor_join(&it.conductor, &it.client));
    finishes(&it.conductor, 1, 0);
}

/* Shares are lost with handles that are freed. */
static void shares(void) {
    struct party it = NO_PARTY, last = NO_PARTY;
    make(&it, 128, 256, 1);
    for (int n = 0; n < 65533; n++) {
        EXPECT(FELTER_OK, felter_conductor_client(&it.conductor, &last.client));
        felter_free(&last.client.handle);
    }
    for (int n = 0; n < 65534; n++) {
        EXPECT(FELTER_OK, felter_conductor_reader(&it.conductor, &last.reader));
        felter_free(&last.reader.handle);
    }
    /* One share of the board is left, where a receiver has one too, and two of the ring. */
    EXPECT(FELTER_NO_SHARES, felter_conductor_client(&it.conductor, &last.client));
    EXPECT(FELTER_NO_SHARES, felter_conductor_subscribe(&it.conductor, &last.receiver));
    EXPECT(FELTER_NO_SHARES, felter_conductor_reader(&it.conductor, &last.reader));
    EXPECT(FELTER_OK, felter_conductor_join_reader(&it.conductor, &it.reader));
    EXPECT(FELTER_OK, felter_conductor_reader(&it.conductor, &it.reader));
    EXPECT(FELTER_OK, felter_conductor_join_receiver(&it.conductor, &it.receiver));
    EXPECT(FELTER_OK, felter_conductor_client(&it.conductor, &last.client));
    EXPECT(FELTER_OK, felter_conductor_join(&it.conductor, &last.client));
    EXPECT(FELTER_OK, felter_conductor_subscribe(&it.conductor, &it.receiver));
    works_together(&it, 1);
    felter_free(&it.conductor.handle);
    felter_free(&it.client.handle);
    felter_free(&it.receiver.handle);
    felter_free(&it.reader.handle);
    /* Where the board has none, a client that is refused takes none of the ring. */
    EXPECT(FELTER_OK, felter_conductor_new(128, 256, 1, 0, &it.conductor));
    for (int n = 0; n < 65535; n++) {
        EXPECT(FELTER_OK, felter_conductor_subscribe(&it.conductor, &it.receiver));
        felter_free(&it.receiver.handle);
    }
    EXPECT(FELTER_NO_SHARES, felter_conductor_client(&it.conductor, &it.client));
    finishes(&it.conductor, 0, 0);
}

int main(void) {
    ends();
    leaves();
    loses();
    others();
    kinds();
    shares();
    puts("ending: each answer as it should be");
    return 0;
}
