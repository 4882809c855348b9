/* How boards and counters take back receivers and readers, and how boards end: every code that callers who keep the rules
 * can get, and that each refusal leaves all as it was. */
#include "check.h"

static void board_refuses(felter_transmitter *transmitter, int32_t code) {
    uint64_t tail = 77;
    EXPECT(code, felter_board_close(transmitter, &tail));
    EXPECT(code, felter_board_close(transmitter, &tail));
    CHECK(tail == 77);
}

static void board_closes(felter_transmitter *transmitter, uint64_t tail) {
    uint64_t tail_read = 77;
    EXPECT(FELTER_OK, felter_board_close(transmitter, &tail_read));
    CHECK(tail_read == tail);
    board_refuses(transmitter, FELTER_NO_HANDLE);
    CHECK(transmitter->handle.at == NULL);
}

/* A board is closed when its receivers of both kinds are back. */
static void boards(void) {
    felter_transmitter transmitter = FELTER_EMPTY;
    felter_receiver receiver = FELTER_EMPTY;
    felter_raw_receiver raw = FELTER_EMPTY;
    uint8_t body[32] = {7};
    uint64_t count = 99;
    EXPECT(FELTER_OK, felter_board_new_at(256, 512, &transmitter));
    EXPECT(FELTER_OK, felter_subscribe(&transmitter, &receiver));
    EXPECT(FELTER_OK, felter_subscribe_raw(&transmitter, &raw));
    /* They take 16, 40 and 8 bytes. */
    EXPECT(FELTER_OK, felter_transmit(&transmitter, 1, body, 5));
    EXPECT(FELTER_OK, felter_transmit(&transmitter, 2, body, 32));
    board_refuses(&transmitter, FELTER_RECEIVERS_OUT);
    EXPECT(FELTER_OK, felter_transmit(&transmitter, 3, NULL, 0));
    EXPECT(FELTER_OK, felter_board_join(&transmitter, &receiver));
    EXPECT(FELTER_NO_HANDLE, felter_lapped_count(&receiver, &count));
    CHECK(receiver.handle.at == NULL);
    board_refuses(&transmitter, FELTER_RECEIVERS_OUT);
    EXPECT(FELTER_OK, felter_board_join_raw(&transmitter, &raw));
    EXPECT(FELTER_NO_HANDLE, felter_raw_lapped_count(&raw, &count));
    CHECK(raw.handle.at == NULL && count == 99);
    board_closes(&transmitter, 512 + 16 + 40 + 8);
    /* Records of 40 bytes: the seventh does not fit into the 16 that are left of the buffer, and comes after them. */
    EXPECT(FELTER_OK, felter_board_new(256, &transmitter));
    EXPECT(FELTER_OK, felter_subscribe(&transmitter, &receiver));
    for (int i = 0; i < 7; i++) EXPECT(FELTER_OK, felter_transmit(&transmitter, 1, body, 26));
    EXPECT(FELTER_OK, felter_board_join(&transmitter, &receiver));
    board_closes(&transmitter, 256 + 40);
    EXPECT(FELTER_OK, felter_board_new_at(256, LAST_POSITION, &transmitter));
    board_closes(&transmitter, LAST_POSITION);
    /* Receivers that were freed are not missed. */
    EXPECT(FELTER_OK, felter_board_new(256, &transmitter));
    EXPECT(FELTER_OK, felter_subscribe(&transmitter, &receiver));
    EXPECT(FELTER_OK, felter_subscribe_raw(&transmitter, &raw));
    EXPECT(FELTER_OK, felter_transmit(&transmitter, 1, body, 26));
    felter_free(&receiver.handle);
    board_refuses(&transmitter, FELTER_RECEIVERS_OUT);
    felter_free(&raw.handle);
    board_closes(&transmitter, 40);
}

/* Receivers of two boards of one capacity are distinguished. */
static void boards_alike(void) {
    felter_transmitter transmitters[2] = {FELTER_EMPTY, FELTER_EMPTY};
    felter_receiver receivers[2] = {FELTER_EMPTY, FELTER_EMPTY};
    felter_raw_receiver raws[2] = {FELTER_EMPTY, FELTER_EMPTY};
    uint8_t buffer[32];
    int32_t type_id = 0;
    size_t len = 99;
    uint64_t lapped = 77;
    for (int i = 0; i < 2; i++) {
        EXPECT(FELTER_OK, felter_board_new(256, &transmitters[i]));
        EXPECT(FELTER_OK, felter_subscribe(&transmitters[i], &receivers[i]));
        EXPECT(FELTER_OK, felter_subscribe_raw(&transmitters[i], &raws[i]));
        EXPECT(FELTER_OK, felter_transmit(&transmitters[i], i + 1, NULL, 0));
    }
    for (int i = 0; i < 2; i++) {
        EXPECT(FELTER_OTHER_RING, felter_board_join(&transmitters[i], &receivers[1 - i]));
        EXPECT(FELTER_OTHER_RING, felter_board_join_raw(&transmitters[i], &raws[1 - i]));
    }
    for (int i = 0; i < 2; i++) {
        EXPECT(FELTER_OK, felter_receive(&receivers[i], &type_id, &len, &lapped, buffer, sizeof buffer));
        CHECK(type_id == i + 1 && len == 0);
        EXPECT(FELTER_OK, felter_receive_next(&raws[i], &type_id, &len, &lapped));
        CHECK(type_id == i + 1 && len == 0 && lapped == 77);
        board_refuses(&transmitters[i], FELTER_RECEIVERS_OUT);
        EXPECT(FELTER_OK, felter_board_join(&transmitters[i], &receivers[i]));
        EXPECT(FELTER_OK, felter_board_join_raw(&transmitters[i], &raws[i]));
        board_closes(&transmitters[i], 8);
    }
}

/* Receivers of boards of another capacity, of conductors, and of another kind. */
static void other_boards(void) {
    felter_transmitter transmitter = FELTER_EMPTY, other = FELTER_EMPTY, none = FELTER_EMPTY;
    felter_receiver receiver = FELTER_EMPTY, replies = FELTER_EMPTY, no_receiver = FELTER_EMPTY;
    felter_raw_receiver raw = FELTER_EMPTY, no_raw = FELTER_EMPTY;
    felter_conductor conductor = FELTER_EMPTY;
    uint64_t count = 99, received = 99;
    EXPECT(FELTER_OK, felter_board_new(256, &transmitter));
    EXPECT(FELTER_OK, felter_subscribe(&transmitter, &receiver));
    EXPECT(FELTER_OK, felter_subscribe_raw(&transmitter, &raw));
    EXPECT(FELTER_OK, felter_board_new(512, &other));
    EXPECT(FELTER_OK, felter_conductor_new(128, 256, 1, 0, &conductor));
    EXPECT(FELTER_OK, felter_conductor_subscribe(&conductor, &replies));
    EXPECT(FELTER_OTHER_RING, felter_board_join(&other, &receiver));
    EXPECT(FELTER_OTHER_RING, felter_board_join_raw(&other, &raw));
    EXPECT(FELTER_OTHER_RING, felter_board_join(&transmitter, &replies));
    EXPECT(FELTER_NO_HANDLE, felter_board_join(&none, &receiver));
    EXPECT(FELTER_NO_HANDLE, felter_board_join_raw(&none, &raw));
    EXPECT(FELTER_NO_HANDLE, felter_board_join(&transmitter, &no_receiver));
    EXPECT(FELTER_NO_HANDLE, felter_board_join_raw(&transmitter, &no_raw));
    EXPECT(FELTER_WRONG_HANDLE, felter_board_join((felter_transmitter *)(void *)&raw, &receiver));
    EXPECT(FELTER_WRONG_HANDLE, felter_board_join_raw((felter_transmitter *)(void *)&receiver, &raw));
    EXPECT(FELTER_WRONG_HANDLE, felter_board_join(&transmitter, (felter_receiver *)(void *)&raw));
    EXPECT(FELTER_WRONG_HANDLE, felter_board_join_raw(&transmitter, (felter_raw_receiver *)(void *)&receiver));
    board_refuses((felter_transmitter *)(void *)&receiver, FELTER_WRONG_HANDLE);
    board_closes(&other, 0);
    /* All are as they were: each is given back once. */
    EXPECT(FELTER_OK, felter_transmit(&transmitter, 1, NULL, 0));
    EXPECT(FELTER_OK, felter_lapped_count(&replies, &count));
    EXPECT(FELTER_OK, felter_conductor_join_receiver(&conductor, &replies));
    EXPECT(FELTER_OK, felter_conductor_finish(&conductor, &received, &count));
    EXPECT(FELTER_OK, felter_board_join(&transmitter, &receiver));
    board_refuses(&transmitter, FELTER_RECEIVERS_OUT);
    EXPECT(FELTER_OK, felter_board_join_raw(&transmitter, &raw));
    board_closes(&transmitter, 8);
}

/* Shares that are given back are given again: there are 65,536. */
static void shares(void) {
    felter_transmitter transmitter = FELTER_EMPTY;
    felter_receiver receiver = FELTER_EMPTY;
    felter_raw_receiver raw = FELTER_EMPTY;
    felter_counters counters = FELTER_EMPTY;
    felter_reader reader = FELTER_EMPTY;
    EXPECT(FELTER_OK, felter_board_new(256, &transmitter));
    EXPECT(FELTER_OK, felter_counters_new(1, 0, &counters));
    for (int n = 0; n < 65537; n++) {
        EXPECT(FELTER_OK, felter_subscribe(&transmitter, &receiver));
        EXPECT(FELTER_OK, felter_board_join(&transmitter, &receiver));
        EXPECT(FELTER_OK, felter_subscribe_raw(&transmitter, &raw));
        EXPECT(FELTER_OK, felter_board_join_raw(&transmitter, &raw));
        EXPECT(FELTER_OK, felter_counters_reader(&counters, &reader));
        EXPECT(FELTER_OK, felter_counters_join(&counters, &reader));
    }
    for (int n = 0; n < 65535; n++) {
        EXPECT(FELTER_OK, felter_counters_reader(&counters, &reader));
        if (n < 65534) felter_free(&reader.handle);
    }
    felter_reader last = FELTER_EMPTY;
    EXPECT(FELTER_NO_SHARES, felter_counters_reader(&counters, &last));
    EXPECT(FELTER_OK, felter_counters_join(&counters, &reader));
    EXPECT(FELTER_OK, felter_counters_reader(&counters, &last));
    board_closes(&transmitter, 0);
    felter_free(&counters.handle);
    felter_free(&last.handle);
}

/* Readers of two sets of counters of one size are distinguished. */
static void counters_alike(void) {
    felter_counters counters[2] = {FELTER_EMPTY, FELTER_EMPTY};
    felter_reader readers[2] = {FELTER_EMPTY, FELTER_EMPTY};
    uint32_t id = 99;
    int64_t value = 99;
    for (int i = 0; i < 2; i++) {
        EXPECT(FELTER_OK, felter_counters_new(2, 0, &counters[i]));
        EXPECT(FELTER_OK, felter_counter_allocate(&counters[i], 0, 1, NULL, 0, NULL, 0, 0, &id));
        EXPECT(FELTER_OK, felter_counters_reader(&counters[i], &readers[i]));
        EXPECT(FELTER_OK, felter_counter_set(&counters[i], id, 5 + i));
    }
    for (int i = 0; i < 2; i++) EXPECT(FELTER_OTHER_RING, felter_counters_join(&counters[i], &readers[1 - i]));
    for (int i = 0; i < 2; i++) {
        EXPECT(FELTER_OK, felter_reader_value(&readers[i], id, &value));
        CHECK(value == 5 + i);
        EXPECT(FELTER_OK, felter_counters_join(&counters[i], &readers[i]));
        EXPECT(FELTER_OK, felter_counter_value(&counters[i], id, &value));
        CHECK(value == 5 + i);
        felter_free(&counters[i].handle);
    }
}

/* Readers are taken back, but not a conductor's. */
static void readers(void) {
    felter_counters counters = FELTER_EMPTY, none = FELTER_EMPTY;
    felter_reader reader = FELTER_EMPTY, values = FELTER_EMPTY, no_reader = FELTER_EMPTY;
    felter_conductor conductor = FELTER_EMPTY;
    uint32_t id = 99;
    int64_t value = 99;
    uint64_t received = 99, left = 99;
    EXPECT(FELTER_OK, felter_counters_new(2, 0, &counters));
    EXPECT(FELTER_OK, felter_counter_allocate(&counters, 0, 1, NULL, 0, NULL, 0, 0, &id));
    EXPECT(FELTER_OK, felter_counters_reader(&counters, &reader));
    EXPECT(FELTER_OK, felter_conductor_new(128, 256, 2, 0, &conductor));
    EXPECT(FELTER_OK, felter_conductor_reader(&conductor, &values));
    EXPECT(FELTER_OTHER_RING, felter_counters_join(&counters, &values));
    EXPECT(FELTER_NO_HANDLE, felter_counters_join(&none, &reader));
    EXPECT(FELTER_NO_HANDLE, felter_counters_join(&counters, &no_reader));
    EXPECT(FELTER_WRONG_HANDLE, felter_counters_join((felter_counters *)(void *)&conductor, &reader));
    EXPECT(FELTER_WRONG_HANDLE, felter_counters_join(&counters, (felter_reader *)(void *)&conductor));
    EXPECT(FELTER_OK, felter_counter_set(&counters, id, 5));
    EXPECT(FELTER_OK, felter_reader_value(&reader, id, &value));
    CHECK(value == 5);
    EXPECT(FELTER_OK, felter_reader_value(&values, 0, &value));
    CHECK(value == 0);
    EXPECT(FELTER_OK, felter_counters_join(&counters, &reader));
    EXPECT(FELTER_NO_HANDLE, felter_reader_value(&reader, id, &value));
    CHECK(reader.handle.at == NULL);
    EXPECT(FELTER_OK, felter_counter_value(&counters, id, &value));
    CHECK(value == 5);
    EXPECT(FELTER_OK, felter_conductor_join_reader(&conductor, &values));
    EXPECT(FELTER_OK, felter_conductor_finish(&conductor, &received, &left));
    felter_free(&counters.handle);
}

int main(void) {
    boards();
    boards_alike();
    other_boards();
    counters_alike();
    readers();
    shares();
    puts("joining: each answer as it should be");
    return 0;
}
