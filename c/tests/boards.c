/* Every code of the calls of boards, and receivers on threads that are lapped. */
#include "check.h"

#include <pthread.h>
#include <sched.h>

/* Receives one message and compares it whole. */
static void expect_copy(felter_receiver *receiver, int32_t type_id, const uint8_t *body, size_t len) {
    uint8_t buffer[64];
    int32_t type_read = -7;
    size_t len_read = 9999;
    uint64_t lapped = 77;
    memset(buffer, 0xEE, sizeof buffer);
    EXPECT(FELTER_OK, felter_receive(receiver, &type_read, &len_read, &lapped, buffer, sizeof buffer));
    CHECK(type_read == type_id && len_read == len && lapped == 77);
    CHECK(len == 0 || memcmp(buffer, body, len) == 0);
    CHECK(len == sizeof buffer || buffer[len] == 0xEE);
}

static void expect_none(felter_receiver *receiver) {
    uint8_t buffer[32] = {5};
    int32_t type_id = -7;
    size_t len = 7;
    uint64_t lapped = 77;
    EXPECT(FELTER_NO_MESSAGE, felter_receive(receiver, &type_id, &len, &lapped, buffer, sizeof buffer));
    CHECK(type_id == -7 && len == 7 && lapped == 77 && buffer[0] == 5);
}

static void makes(void) {
    felter_transmitter transmitter = FELTER_EMPTY;
    static const uint32_t bad[] = {0, 128, 257, 33554432, UINT32_MAX};
    for (size_t i = 0; i < sizeof bad / sizeof *bad; i++) {
        EXPECT(FELTER_BAD_CAPACITY, felter_board_new(bad[i], &transmitter));
        EXPECT(FELTER_BAD_CAPACITY, felter_board_new_at(bad[i], 0, &transmitter));
    }
    EXPECT(FELTER_BAD_START, felter_board_new_at(256, 128, &transmitter));
    EXPECT(FELTER_BAD_START, felter_board_new_at(256, LAST_POSITION + 256, &transmitter));
    EXPECT(FELTER_NO_HANDLE, felter_transmit(&transmitter, 1, NULL, 0));
    EXPECT(FELTER_OK, felter_board_new(16777216, &transmitter));
    EXPECT(FELTER_HANDLE_IN_USE, felter_board_new(256, &transmitter));
    EXPECT(FELTER_HANDLE_IN_USE, felter_board_new_at(256, 0, &transmitter));
    felter_free(&transmitter.handle);
    EXPECT(FELTER_OK, felter_board_new_at(256, LAST_POSITION, &transmitter));
    EXPECT(FELTER_POSITION_LIMIT, felter_transmit(&transmitter, 1, NULL, 0));
    felter_free(&transmitter.handle);
}

static void transmits(void) {
    felter_transmitter transmitter = FELTER_EMPTY;
    felter_receiver early = FELTER_EMPTY, late = FELTER_EMPTY, never = FELTER_EMPTY;
    uint8_t body[33];
    for (size_t i = 0; i < sizeof body; i++) body[i] = (uint8_t)(200 + i);
    EXPECT(FELTER_OK, felter_board_new_at(256, 512, &transmitter));
    EXPECT(FELTER_OK, felter_subscribe(&transmitter, &early));
    EXPECT(FELTER_HANDLE_IN_USE, felter_subscribe(&transmitter, &early));
    expect_none(&early);
    EXPECT(FELTER_BAD_TYPE, felter_transmit(&transmitter, 0, body, 1));
    EXPECT(FELTER_BAD_TYPE, felter_transmit(&transmitter, INT32_MIN, body, 33));
    EXPECT(FELTER_TOO_LONG, felter_transmit(&transmitter, 1, body, 33));
    expect_none(&early);
    EXPECT(FELTER_OK, felter_transmit(&transmitter, INT32_MAX, body, 32));
    EXPECT(FELTER_OK, felter_transmit(&transmitter, 2, body + 1, 5));
    EXPECT(FELTER_OK, felter_subscribe(&transmitter, &late));
    EXPECT(FELTER_OK, felter_transmit(&transmitter, 3, NULL, 0));

    int32_t type_id = -7;
    size_t len = 9999;
    uint64_t lapped = 77;
    uint8_t small[31] = {9};
    EXPECT(FELTER_SHORT_BUFFER, felter_receive(&early, &type_id, &len, &lapped, small, sizeof small));
    CHECK(type_id == -7 && len == 32 && lapped == 77 && small[0] == 9);
    expect_copy(&early, INT32_MAX, body, 32);
    expect_copy(&early, 2, body + 1, 5);
    expect_copy(&late, 2, body + 1, 5);
    expect_copy(&early, 3, NULL, 0);
    expect_none(&early);

    /* Seven records of 40 bytes overtake both. */
    for (int32_t i = 0; i < 7; i++) EXPECT(FELTER_OK, felter_transmit(&transmitter, 10 + i, body + i, 26));
    uint64_t count = 9;
    EXPECT(FELTER_OK, felter_lapped_count(&late, &count));
    CHECK(count == 0);
    uint8_t buffer[32] = {5};
    EXPECT(FELTER_LAPPED, felter_receive(&late, &type_id, &len, &lapped, buffer, sizeof buffer));
    CHECK(type_id == -7 && len == 32 && lapped == 1 && buffer[0] == 5);
    expect_copy(&late, 16, body + 6, 26);
    expect_none(&late);
    for (int32_t i = 0; i < 7; i++) EXPECT(FELTER_OK, felter_transmit(&transmitter, 20 + i, body + i, 26));
    EXPECT(FELTER_LAPPED, felter_receive(&late, &type_id, &len, &lapped, buffer, sizeof buffer));
    CHECK(lapped == 2);
    EXPECT(FELTER_OK, felter_lapped_count(&late, &count));
    CHECK(count == 2);
    EXPECT(FELTER_OK, felter_lapped_count(&early, &count));
    CHECK(count == 0);

    felter_free(&transmitter.handle);
    expect_copy(&late, 26, body + 6, 26);
    expect_none(&late);
    EXPECT(FELTER_NO_HANDLE, felter_subscribe(&transmitter, &never));
    EXPECT(FELTER_NO_HANDLE, felter_receive(&never, &type_id, &len, &lapped, buffer, sizeof buffer));
    felter_free(&early.handle);
    felter_free(&late.handle);
}

/* Looks at the next record, compares it whole, and finds it valid. */
static void expect_raw(felter_raw_receiver *receiver, int32_t type_id, const uint8_t *body, size_t len) {
    uint8_t buffer[64];
    int32_t type_read = -7;
    size_t len_read = 9999;
    uint64_t lapped = 77;
    memset(buffer, 0xEE, sizeof buffer);
    EXPECT(FELTER_OK, felter_receive_next(receiver, &type_read, &len_read, &lapped));
    CHECK(type_read == type_id && len_read == len && lapped == 77);
    if (len) EXPECT(FELTER_SHORT_BUFFER, felter_load_body(receiver, buffer, len - 1));
    CHECK(buffer[0] == 0xEE);
    EXPECT(FELTER_OK, felter_load_body(receiver, buffer, sizeof buffer));
    CHECK(len == 0 || memcmp(buffer, body, len) == 0);
    CHECK(buffer[len] == 0xEE);
    EXPECT(FELTER_OK, felter_load_body(receiver, buffer, len));
    EXPECT(FELTER_OK, felter_validate(receiver));
}

static void expect_no_record(felter_raw_receiver *receiver) {
    int32_t type_id = -7;
    size_t len = 7;
    uint64_t lapped = 77;
    EXPECT(FELTER_NO_MESSAGE, felter_receive_next(receiver, &type_id, &len, &lapped));
    CHECK(type_id == -7 && len == 7 && lapped == 77);
}

/* Raw receivers: records are looked at, loaded and validated, until they are overwritten. */
static void raw_records(void) {
    felter_transmitter transmitter = FELTER_EMPTY;
    felter_raw_receiver receiver = FELTER_EMPTY, late = FELTER_EMPTY, none = FELTER_EMPTY;
    uint8_t body[33], buffer[32] = {5};
    int32_t type_id = -7;
    size_t len = 7;
    uint64_t lapped = 77, count = 9;
    for (size_t i = 0; i < sizeof body; i++) body[i] = (uint8_t)(100 + i);
    EXPECT(FELTER_OK, felter_board_new_at(256, 512, &transmitter));
    EXPECT(FELTER_OK, felter_subscribe_raw(&transmitter, &receiver));
    EXPECT(FELTER_HANDLE_IN_USE, felter_subscribe_raw(&transmitter, &receiver));
    EXPECT(FELTER_NO_HANDLE, felter_subscribe_raw((felter_transmitter *)(void *)&none, &late));
    EXPECT(FELTER_WRONG_HANDLE, felter_subscribe_raw((felter_transmitter *)(void *)&receiver, &late));
    expect_no_record(&receiver);
    EXPECT(FELTER_NO_MESSAGE, felter_load_body(&receiver, buffer, sizeof buffer));
    EXPECT(FELTER_NO_MESSAGE, felter_validate(&receiver));
    CHECK(buffer[0] == 5);
    EXPECT(FELTER_OK, felter_transmit(&transmitter, 7, body, 32));
    EXPECT(FELTER_OK, felter_transmit(&transmitter, 8, NULL, 0));
    EXPECT(FELTER_OK, felter_transmit(&transmitter, 9, body + 1, 13));
    EXPECT(FELTER_OK, felter_subscribe_raw(&transmitter, &late));
    expect_raw(&receiver, 7, body, 32);
    expect_raw(&receiver, 8, NULL, 0);
    expect_raw(&receiver, 9, body + 1, 13);
    expect_raw(&late, 9, body + 1, 13);
    expect_no_record(&receiver);
    /* The record that was answered last stays so. */
    EXPECT(FELTER_OK, felter_load_body(&receiver, buffer, 13));
    CHECK(memcmp(buffer, body + 1, 13) == 0);
    /* Seven records of 40 bytes overtake both. */
    for (int32_t i = 0; i < 7; i++) EXPECT(FELTER_OK, felter_transmit(&transmitter, 10 + i, body + i, 26));
    EXPECT(FELTER_OK, felter_load_body(&receiver, buffer, sizeof buffer));
    EXPECT(FELTER_LAPPED, felter_validate(&receiver));
    EXPECT(FELTER_OK, felter_raw_lapped_count(&receiver, &count));
    CHECK(count == 0);
    EXPECT(FELTER_LAPPED, felter_receive_next(&receiver, &type_id, &len, &lapped));
    CHECK(type_id == -7 && len == 7 && lapped == 1);
    EXPECT(FELTER_OK, felter_raw_lapped_count(&receiver, &count));
    CHECK(count == 1);
    EXPECT(FELTER_LAPPED, felter_validate(&receiver));
    felter_free(&transmitter.handle);
    expect_raw(&receiver, 16, body + 6, 26);
    expect_no_record(&receiver);

    felter_raw_receiver *wrong = (felter_raw_receiver *)(void *)&transmitter;
    EXPECT(FELTER_OK, felter_board_new(256, &transmitter));
    EXPECT(FELTER_WRONG_HANDLE, felter_receive_next(wrong, &type_id, &len, &lapped));
    EXPECT(FELTER_WRONG_HANDLE, felter_load_body(wrong, buffer, sizeof buffer));
    EXPECT(FELTER_WRONG_HANDLE, felter_validate(wrong));
    EXPECT(FELTER_WRONG_HANDLE, felter_raw_lapped_count(wrong, &count));
    EXPECT(FELTER_WRONG_HANDLE, felter_lapped_count((felter_receiver *)(void *)&receiver, &count));
    EXPECT(FELTER_NO_HANDLE, felter_receive_next(&none, &type_id, &len, &lapped));
    EXPECT(FELTER_NO_HANDLE, felter_load_body(&none, buffer, sizeof buffer));
    EXPECT(FELTER_NO_HANDLE, felter_validate(&none));
    EXPECT(FELTER_NO_HANDLE, felter_raw_lapped_count(&none, &count));
    CHECK(type_id == -7 && len == 7 && lapped == 1 && count == 1);
    felter_free(&transmitter.handle);
    felter_free(&receiver.handle);
    felter_free(&late.handle);
}

/* A receiver that is freed takes its share with it. */
static void shares(void) {
    felter_transmitter transmitter = FELTER_EMPTY;
    felter_receiver receiver = FELTER_EMPTY;
    felter_raw_receiver raw = FELTER_EMPTY;
    EXPECT(FELTER_OK, felter_board_new(256, &transmitter));
    for (uint32_t i = 0; i < 65535; i++) {
        EXPECT(FELTER_OK, felter_subscribe(&transmitter, &receiver));
        felter_free(&receiver.handle);
    }
    EXPECT(FELTER_NO_SHARES, felter_subscribe(&transmitter, &receiver));
    EXPECT(FELTER_NO_SHARES, felter_subscribe_raw(&transmitter, &raw));
    EXPECT(FELTER_NO_HANDLE, felter_validate(&raw));
    EXPECT(FELTER_NO_HANDLE, felter_lapped_count(&receiver, &(uint64_t){0}));
    EXPECT(FELTER_OK, felter_transmit(&transmitter, 1, BYTES("still")));
    felter_free(&transmitter.handle);
}

/* What each call answers of a handle of another kind. */
static void kinds(void) {
    felter_transmitter transmitter = FELTER_EMPTY;
    felter_receiver receiver = FELTER_EMPTY, empty = FELTER_EMPTY;
    uint8_t buffer[32];
    int32_t type_id = 0;
    size_t len = 0;
    uint64_t number = 0;
    EXPECT(FELTER_OK, felter_board_new(256, &transmitter));
    EXPECT(FELTER_OK, felter_subscribe(&transmitter, &receiver));
    felter_receiver *wrong = (felter_receiver *)(void *)&transmitter;
    felter_transmitter *other = (felter_transmitter *)(void *)&receiver;
    EXPECT(FELTER_WRONG_HANDLE, felter_receive(wrong, &type_id, &len, &number, buffer, sizeof buffer));
    EXPECT(FELTER_WRONG_HANDLE, felter_lapped_count(wrong, &number));
    EXPECT(FELTER_WRONG_HANDLE, felter_transmit(other, 1, buffer, 0));
    EXPECT(FELTER_WRONG_HANDLE, felter_subscribe(other, &empty));
    EXPECT(FELTER_NO_HANDLE, felter_lapped_count(&empty, &number));
    felter_free(&transmitter.handle);
    felter_free(&receiver.handle);
}

#define COUNT 200000

struct listener {
    felter_receiver receiver;
    uint64_t last, got, lapped;
};

/* Receives until the last message, each whole, numbers rising, and gaps only where it was lapped. */
static void *listen(void *its) {
    struct listener *it = its;
    uint8_t buffer[512];
    int32_t type_id = 0;
    size_t len = 0;
    int is_lapped = 1;
    while (it->last < COUNT) {
        int32_t code = felter_receive(&it->receiver, &type_id, &len, &it->lapped, buffer, sizeof buffer);
        if (code == FELTER_NO_MESSAGE) {
            sched_yield();
            continue;
        }
        if (code == FELTER_LAPPED) {
            is_lapped = 1;
            continue;
        }
        CHECK(code == FELTER_OK && type_id == 9 && len >= 8);
        uint64_t number;
        memcpy(&number, buffer, 8);
        CHECK(len == 8 + number % 90);
        CHECK(is_lapped ? number > it->last : number == it->last + 1);
        for (size_t i = 8; i < len; i++) CHECK(buffer[i] == (uint8_t)(number * 31 + i));
        is_lapped = 0;
        it->last = number;
        it->got++;
    }
    uint64_t count = 0;
    EXPECT(FELTER_OK, felter_lapped_count(&it->receiver, &count));
    CHECK(count == it->lapped);
    return NULL;
}

static void threads(void) {
    static struct listener listeners[2];
    felter_transmitter transmitter = FELTER_EMPTY;
    pthread_t ids[2];
    uint8_t body[512];
    EXPECT(FELTER_OK, felter_board_new(4096, &transmitter));
    for (int i = 0; i < 2; i++) {
        EXPECT(FELTER_OK, felter_subscribe(&transmitter, &listeners[i].receiver));
        CHECK(pthread_create(&ids[i], NULL, listen, &listeners[i]) == 0);
    }
    for (uint64_t number = 1; number <= COUNT; number++) {
        size_t len = 8 + (size_t)(number % 90);
        memcpy(body, &number, 8);
        for (size_t i = 8; i < len; i++) body[i] = (uint8_t)(number * 31 + i);
        EXPECT(FELTER_OK, felter_transmit(&transmitter, 9, body, len));
        if (number % 4096 == 0) sched_yield();
    }
    for (int i = 0; i < 2; i++) CHECK(pthread_join(ids[i], NULL) == 0);
    felter_free(&transmitter.handle);
    for (int i = 0; i < 2; i++) felter_free(&listeners[i].receiver.handle);
    printf("boards: received %" PRIu64 " and %" PRIu64 " of %d, lapped %" PRIu64 " and %" PRIu64 " times\n",
           listeners[0].got, listeners[1].got, COUNT, listeners[0].lapped, listeners[1].lapped);
}

int main(void) {
    makes();
    transmits();
    raw_records();
    shares();
    kinds();
    threads();
    return 0;
}
