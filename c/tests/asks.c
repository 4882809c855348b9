/* What handles are asked: sizes, places, laps, records of counters, and what a conductor's counters are. */
#include "check.h"

static void sizes(void) {
    felter_producer producer = FELTER_EMPTY;
    felter_consumer consumer = FELTER_EMPTY;
    felter_transmitter transmitter = FELTER_EMPTY;
    felter_receiver receiver = FELTER_EMPTY;
    felter_raw_receiver raw = FELTER_EMPTY;
    felter_counters counters = FELTER_EMPTY;
    uint32_t capacity = 7, longest = 7;
    EXPECT(FELTER_NO_HANDLE, felter_capacity(&producer.handle, &capacity, &longest));
    CHECK(capacity == 7 && longest == 7);
    EXPECT(FELTER_OK, felter_one_to_one_new(512, &producer, &consumer));
    EXPECT(FELTER_OK, felter_board_new(4096, &transmitter));
    EXPECT(FELTER_OK, felter_subscribe(&transmitter, &receiver));
    EXPECT(FELTER_OK, felter_subscribe_raw(&transmitter, &raw));
    EXPECT(FELTER_OK, felter_counters_new(2, 0, &counters));
    EXPECT(FELTER_WRONG_HANDLE, felter_capacity(&counters.handle, &capacity, &longest));
    CHECK(capacity == 7 && longest == 7);
    felter_handle *rings[] = {&producer.handle, &consumer.handle};
    for (int i = 0; i < 2; i++) {
        EXPECT(FELTER_OK, felter_capacity(rings[i], &capacity, &longest));
        CHECK(capacity == 512 && longest == 64);
    }
    felter_handle *boards[] = {&transmitter.handle, &receiver.handle, &raw.handle};
    for (int i = 0; i < 3; i++) {
        EXPECT(FELTER_OK, felter_capacity(boards[i], &capacity, &longest));
        CHECK(capacity == 4096 && longest == 512);
        felter_free(boards[i]);
    }
    EXPECT(FELTER_OK, felter_write(&producer, 1, "still there", 11));
    felter_free(&producer.handle);
    felter_free(&consumer.handle);
    felter_free(&counters.handle);
    CHECK(felter_version() == 10000 * FELTER_VERSION_MAJOR + 100 * FELTER_VERSION_MINOR + FELTER_VERSION_PATCH);
}

/* 21 records of 16 bytes on a board of 256: the receiver, which was at 0, goes on with the last one. */
static void laps(void) {
    felter_transmitter transmitter = FELTER_EMPTY;
    felter_receiver receiver = FELTER_EMPTY;
    felter_raw_receiver raw = FELTER_EMPTY;
    uint64_t place = 7, intent = 7, lapped;
    uint8_t buffer[32];
    int32_t type_id;
    size_t len;
    EXPECT(FELTER_OK, felter_board_new_at(256, 1024, &transmitter));
    EXPECT(FELTER_OK, felter_subscribe(&transmitter, &receiver));
    EXPECT(FELTER_OK, felter_subscribe_raw(&transmitter, &raw));
    EXPECT(FELTER_NO_MESSAGE, felter_receiver_lap(&receiver, &place, &intent));
    EXPECT(FELTER_NO_MESSAGE, felter_raw_receiver_lap(&raw, &place, &intent));
    CHECK(place == 7 && intent == 7);
    EXPECT(FELTER_OK, felter_receiver_place(&receiver, &place));
    CHECK(place == 1024);
    for (int i = 0; i < 21; i++) EXPECT(FELTER_OK, felter_transmit(&transmitter, 1, "8 bytes.", 8));
    EXPECT(FELTER_LAPPED, felter_receive(&receiver, &type_id, &len, &lapped, buffer, sizeof buffer));
    EXPECT(FELTER_LAPPED, felter_receive_next(&raw, &type_id, &len, &lapped));
    for (int i = 0; i < 2; i++) {
        EXPECT(FELTER_OK, felter_receiver_lap(&receiver, &place, &intent));
        CHECK(place == 1024 && intent == 1024 + 21 * 16);
        EXPECT(FELTER_OK, felter_raw_receiver_lap(&raw, &place, &intent));
        CHECK(place == 1024 && intent == 1024 + 21 * 16);
        EXPECT(FELTER_OK, felter_receiver_place(&receiver, &place));
        CHECK(place == 1024 + (20 + (uint64_t)i) * 16);
        EXPECT(FELTER_OK, felter_raw_receiver_place(&raw, &place));
        CHECK(place == 1024 + (20 + (uint64_t)i) * 16);
        if (i == 1) break;
        EXPECT(FELTER_OK, felter_receive(&receiver, &type_id, &len, &lapped, buffer, sizeof buffer));
        EXPECT(FELTER_OK, felter_receive_next(&raw, &type_id, &len, &lapped));
    }
    felter_free(&transmitter.handle);
    felter_free(&receiver.handle);
    felter_free(&raw.handle);
}

static void records(void) {
    felter_counters counters = FELTER_EMPTY;
    uint32_t id = 9, raised = 9;
    int32_t state = 9;
    uint64_t deadline = 9;
    int64_t value;
    EXPECT(FELTER_OK, felter_counters_new(2, 50, &counters));
    EXPECT(FELTER_NOT_ALLOCATED, felter_counter_propose_max(&counters, 0, 5, &raised));
    EXPECT(FELTER_BAD_ID, felter_counter_state(&counters, 2, &state));
    EXPECT(FELTER_BAD_ID, felter_counter_deadline(&counters, 2, &deadline));
    CHECK(raised == 9 && state == 9 && deadline == 9);
    EXPECT(FELTER_OK, felter_counter_state(&counters, 1, &state));
    EXPECT(FELTER_OK, felter_counter_deadline(&counters, 1, &deadline));
    CHECK(state == 0 && deadline == 0);
    EXPECT(FELTER_OK, felter_counter_allocate(&counters, 3, 1, NULL, 0, NULL, 0, 0, &id));
    EXPECT(FELTER_OK, felter_counter_state(&counters, id, &state));
    EXPECT(FELTER_OK, felter_counter_deadline(&counters, id, &deadline));
    CHECK(state == 1 && deadline == (uint64_t)INT64_MAX);
    EXPECT(FELTER_OK, felter_counter_propose_max(&counters, id, 5, &raised));
    CHECK(raised == 1);
    EXPECT(FELTER_OK, felter_counter_propose_max(&counters, id, 5, &raised));
    CHECK(raised == 0);
    EXPECT(FELTER_OK, felter_counter_propose_max(&counters, id, -5, &raised));
    EXPECT(FELTER_OK, felter_counter_value(&counters, id, &value));
    CHECK(raised == 0 && value == 5);
    EXPECT(FELTER_OK, felter_counter_free(&counters, 7, id));
    EXPECT(FELTER_OK, felter_counter_state(&counters, id, &state));
    EXPECT(FELTER_OK, felter_counter_deadline(&counters, id, &deadline));
    CHECK(state == -1 && deadline == 57);
    felter_free(&counters.handle);
}

static void conductors(void) {
    felter_conductor conductor = FELTER_EMPTY;
    felter_client client = FELTER_EMPTY;
    uint32_t id = 9, count;
    uint64_t asked, messages, registration = 9, owner = 9, deadline = 9, lapped;
    int32_t stopped, type_id = 9, state = 9, kind;
    int64_t value = 9, number;
    uint8_t buffer[112] = {0};
    size_t len = 9;
    EXPECT(FELTER_OK, felter_conductor_new(1024, 1024, 3, 50, &conductor));
    EXPECT(FELTER_OK, felter_conductor_client(&conductor, &client));
    EXPECT(FELTER_OK, felter_conductor_count(&conductor, &count));
    EXPECT(FELTER_NOT_ALLOCATED, felter_conductor_value(&conductor, 1, &value));
    EXPECT(FELTER_BAD_ID, felter_conductor_type_id(&conductor, 3, &type_id));
    EXPECT(FELTER_NOT_ALLOCATED, felter_conductor_find(&conductor, 6, 0, &id));
    CHECK(count == 3 && value == 9 && type_id == 9 && id == 9);
    EXPECT(FELTER_OK, felter_send_allocate(&client, 1, NULL, 0, NULL, 0, &asked));
    EXPECT(FELTER_OK, felter_send_allocate_owned(&client, 6, 77, "key", 3, "label", 5, &asked));
    EXPECT(FELTER_OK, felter_send_set(&client, 1, -4, &messages));
    EXPECT(FELTER_OK, felter_conductor_work(&conductor, 10, 9, &messages, &stopped));
    CHECK(messages == 3);
    EXPECT(FELTER_OK, felter_conductor_find(&conductor, 6, asked, &id));
    CHECK(id == 1);
    EXPECT(FELTER_OK, felter_conductor_value(&conductor, id, &value));
    EXPECT(FELTER_OK, felter_conductor_type_id(&conductor, id, &type_id));
    EXPECT(FELTER_OK, felter_conductor_registration(&conductor, id, &registration));
    EXPECT(FELTER_OK, felter_conductor_owner(&conductor, id, &owner));
    EXPECT(FELTER_OK, felter_conductor_state(&conductor, id, &state));
    EXPECT(FELTER_OK, felter_conductor_deadline(&conductor, id, &deadline));
    CHECK(value == -4 && type_id == 6 && registration == asked && owner == 77 && state == 1);
    CHECK(deadline == (uint64_t)INT64_MAX);
    EXPECT(FELTER_SHORT_BUFFER, felter_conductor_label(&conductor, id, &len, buffer, 4));
    CHECK(len == 5 && buffer[0] == 0);
    EXPECT(FELTER_OK, felter_conductor_label(&conductor, id, &len, buffer, 5));
    CHECK(len == 5 && memcmp(buffer, "label", 6) == 0);
    EXPECT(FELTER_SHORT_BUFFER, felter_conductor_key(&conductor, id, buffer, 111));
    EXPECT(FELTER_OK, felter_conductor_key(&conductor, id, buffer, sizeof buffer));
    CHECK(memcmp(buffer, "key\0", 4) == 0 && buffer[111] == 0);
    EXPECT(FELTER_WRONG_HANDLE, felter_conductor_count((felter_conductor *)(void *)&client, &count));
    while (felter_poll(&client, asked, &kind, &number, &lapped) == FELTER_OTHER_REPLY) continue;
    EXPECT(FELTER_OK, felter_conductor_join(&conductor, &client));
    EXPECT(FELTER_OK, felter_conductor_finish(&conductor, &messages, &asked));
    EXPECT(FELTER_NO_HANDLE, felter_conductor_count(&conductor, &count));
}

int main(void) {
    sizes();
    laps();
    records();
    conductors();
    return 0;
}
