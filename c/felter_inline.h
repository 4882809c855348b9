/* Written by c/bindings from felter.h. To change this file, change felter.h and run c/bindings.
 *
 * A program includes felter.h, which includes this file. For each function of the library there is a function here,
 * which tests for NULL pointers before it calls the library. For a program, the name of a library function is a macro
 * for the function in this file. */
#ifndef FELTER_INLINE_H
#define FELTER_INLINE_H

#define FELTER_GUARD static inline __attribute__((warn_unused_result))

#ifdef FELTER_CHECKED
#include "felter_checked.h"
#else
static inline int32_t felter_refuse(const char *call, int32_t code) {
    (void)call;
    return code;
}
#define FELTER_ENTER1(call, handle) (void)0
#define FELTER_ENTER2(call, handle, other) (void)0
#define FELTER_LEAVE1() (void)0
#define FELTER_LEAVE2() (void)0
#endif

/* The count of the numbers that were drawn. This variable is weak, so all files of a program share it, in C and in C++.
 * But a shared library that includes this header can have a second variable, for example if dlopen loads the library.
 * Then the program and the library draw the same numbers. */
__attribute__((weak)) uint64_t felter_numbers_drawn = 0;

/* Draws the number of the next structure. The numbers are 1, 2, 3 and so on. Any thread may call this. */
static inline uint64_t felter_next_number(void) {
    return __atomic_add_fetch(&felter_numbers_drawn, 1, __ATOMIC_RELAXED);
}

static inline const char *felter_text(int32_t code) {
    switch (code) {
    case 0: return "no error";
    case 1: return "the capacity is not a power of two from 128 (of a board 256) to 2^24";
    case 2: return "the start is not a multiple of the capacity, or is above 2^62";
    case 3: return "out of memory";
    case 4: return "the type id is below 1";
    case 5: return "the message has more than an eighth of the capacity, or the command 520";
    case 6: return "the record would end above 2^62";
    case 7: return "the ring is full";
    case 8: return "another producer was faster";
    case 9: return "the bytes are not inside the claim";
    case 10: return "a claim of the producer is open";
    case 11: return "a producer or a client is still in a handle";
    case 12: return "one share is left, and is needed";
    case 13: return "the transmitter overtook the receiver";
    case 14: return "a receiver is still in a handle";
    case 15: return "the number of counters is 0 or above 4096";
    case 16: return "the key has more than 112 bytes";
    case 17: return "the label has more than 380 bytes";
    case 18: return "the label has a byte of 128 or more";
    case 19: return "every counter is in use, or was freed too short a time ago";
    case 20: return "the id is not below the number of counters";
    case 21: return "no such counter is in use";
    case 28: return "the owner is 0, which means none";
    case 100: return "the handle is empty";
    case 101: return "the handle is of another kind";
    case 102: return "the handle that was to be filled is not empty";
    case 104: return "no claim of this number is open";
    case 105: return "no message is there yet";
    case 106: return "the message is longer than the buffer, and stays";
    case 107: return "the moment is above 2^62";
    case 108: return "the two handles are of two rings, boards, conductors, sets of counters or shared counters";
    case 109: return "the message is the reply to another command, or no reply";
    case 110: return "another handle holds what was to be closed";
    case 111: return "a pointer is NULL";
    case 112: return "the memory is too short, does not begin at a multiple of 64 (to recover: of 8), or is in use";
    case 113: return "the memory is not the image of a ring";
    case 114: return "the head or the tail is not a multiple of 8";
    case 115: return "the tail is before the head";
    case 116: return "the tail is more than the capacity after the head";
    case 117: return "a header has a length that no record has there";
    case 118: return "a header has a type id that no record has";
    default: return "unknown code";
    }
}

static inline void felter_guarded_free(felter_handle *handle) {
    if (!handle) return;
    FELTER_ENTER1("felter_free", handle);
    felter_free(handle);
    FELTER_LEAVE1();
}

FELTER_GUARD int32_t felter_guarded_version(void) {
    int32_t code = felter_version();
    return code;
}

FELTER_GUARD int32_t felter_guarded_capacity(felter_handle *handle, uint32_t *capacity, uint32_t *longest) {
    if (!handle) return felter_refuse("felter_capacity", FELTER_NO_HANDLE);
    if (!capacity) return felter_refuse("felter_capacity", FELTER_NULL_POINTER);
    if (!longest) return felter_refuse("felter_capacity", FELTER_NULL_POINTER);
    FELTER_ENTER1("felter_capacity", handle);
    int32_t code = felter_capacity(handle, capacity, longest);
    FELTER_LEAVE1();
    return code;
}

FELTER_GUARD int32_t felter_guarded_many_to_one_new_numbered(uint64_t number, uint32_t capacity,
                                                             felter_producer *producer, felter_consumer *consumer) {
    if (!producer) return felter_refuse("felter_many_to_one_new_numbered", FELTER_NO_HANDLE);
    if (!consumer) return felter_refuse("felter_many_to_one_new_numbered", FELTER_NO_HANDLE);
    FELTER_ENTER2("felter_many_to_one_new_numbered", &producer->handle, &consumer->handle);
    int32_t code = felter_many_to_one_new_numbered(number, capacity, producer, consumer);
    FELTER_LEAVE2();
    return code;
}

FELTER_GUARD int32_t felter_guarded_many_to_one_new_at_numbered(uint64_t number, uint32_t capacity, uint64_t start,
                                                                felter_producer *producer, felter_consumer *consumer) {
    if (!producer) return felter_refuse("felter_many_to_one_new_at_numbered", FELTER_NO_HANDLE);
    if (!consumer) return felter_refuse("felter_many_to_one_new_at_numbered", FELTER_NO_HANDLE);
    FELTER_ENTER2("felter_many_to_one_new_at_numbered", &producer->handle, &consumer->handle);
    int32_t code = felter_many_to_one_new_at_numbered(number, capacity, start, producer, consumer);
    FELTER_LEAVE2();
    return code;
}

FELTER_GUARD int32_t felter_guarded_one_to_one_new_numbered(uint64_t number, uint32_t capacity,
                                                            felter_producer *producer, felter_consumer *consumer) {
    if (!producer) return felter_refuse("felter_one_to_one_new_numbered", FELTER_NO_HANDLE);
    if (!consumer) return felter_refuse("felter_one_to_one_new_numbered", FELTER_NO_HANDLE);
    FELTER_ENTER2("felter_one_to_one_new_numbered", &producer->handle, &consumer->handle);
    int32_t code = felter_one_to_one_new_numbered(number, capacity, producer, consumer);
    FELTER_LEAVE2();
    return code;
}

FELTER_GUARD int32_t felter_guarded_one_to_one_new_at_numbered(uint64_t number, uint32_t capacity, uint64_t start,
                                                               felter_producer *producer, felter_consumer *consumer) {
    if (!producer) return felter_refuse("felter_one_to_one_new_at_numbered", FELTER_NO_HANDLE);
    if (!consumer) return felter_refuse("felter_one_to_one_new_at_numbered", FELTER_NO_HANDLE);
    FELTER_ENTER2("felter_one_to_one_new_at_numbered", &producer->handle, &consumer->handle);
    int32_t code = felter_one_to_one_new_at_numbered(number, capacity, start, producer, consumer);
    FELTER_LEAVE2();
    return code;
}

FELTER_GUARD int32_t felter_guarded_write(felter_producer *producer, int32_t type_id, const void *body, size_t len) {
    if (!producer) return felter_refuse("felter_write", FELTER_NO_HANDLE);
    if (!body && len) return felter_refuse("felter_write", FELTER_NULL_POINTER);
    FELTER_ENTER1("felter_write", &producer->handle);
    int32_t code = felter_write(producer, type_id, body, len);
    FELTER_LEAVE1();
    return code;
}

FELTER_GUARD int32_t felter_guarded_claim(felter_producer *producer, int32_t type_id, size_t len, uint64_t *claim) {
    if (!producer) return felter_refuse("felter_claim", FELTER_NO_HANDLE);
    if (!claim) return felter_refuse("felter_claim", FELTER_NULL_POINTER);
    FELTER_ENTER1("felter_claim", &producer->handle);
    int32_t code = felter_claim(producer, type_id, len, claim);
    FELTER_LEAVE1();
    return code;
}

FELTER_GUARD int32_t felter_guarded_put(felter_producer *producer, uint64_t claim, size_t offset, const void *bytes,
                                        size_t len) {
    if (!producer) return felter_refuse("felter_put", FELTER_NO_HANDLE);
    if (!bytes && len) return felter_refuse("felter_put", FELTER_NULL_POINTER);
    FELTER_ENTER1("felter_put", &producer->handle);
    int32_t code = felter_put(producer, claim, offset, bytes, len);
    FELTER_LEAVE1();
    return code;
}

FELTER_GUARD int32_t felter_guarded_commit(felter_producer *producer, uint64_t claim) {
    if (!producer) return felter_refuse("felter_commit", FELTER_NO_HANDLE);
    FELTER_ENTER1("felter_commit", &producer->handle);
    int32_t code = felter_commit(producer, claim);
    FELTER_LEAVE1();
    return code;
}

FELTER_GUARD int32_t felter_guarded_abort(felter_producer *producer, uint64_t claim) {
    if (!producer) return felter_refuse("felter_abort", FELTER_NO_HANDLE);
    FELTER_ENTER1("felter_abort", &producer->handle);
    int32_t code = felter_abort(producer, claim);
    FELTER_LEAVE1();
    return code;
}

FELTER_GUARD int32_t felter_guarded_split(felter_producer *producer, felter_producer *other) {
    if (!producer) return felter_refuse("felter_split", FELTER_NO_HANDLE);
    if (!other) return felter_refuse("felter_split", FELTER_NO_HANDLE);
    FELTER_ENTER2("felter_split", &producer->handle, &other->handle);
    int32_t code = felter_split(producer, other);
    FELTER_LEAVE2();
    return code;
}

FELTER_GUARD int32_t felter_guarded_join(felter_producer *producer, felter_producer *other) {
    if (!producer) return felter_refuse("felter_join", FELTER_NO_HANDLE);
    if (!other) return felter_refuse("felter_join", FELTER_NO_HANDLE);
    FELTER_ENTER2("felter_join", &producer->handle, &other->handle);
    int32_t code = felter_join(producer, other);
    FELTER_LEAVE2();
    return code;
}

FELTER_GUARD int32_t felter_guarded_positions(felter_producer *producer, uint64_t *head, uint64_t *tail) {
    if (!producer) return felter_refuse("felter_positions", FELTER_NO_HANDLE);
    if (!head) return felter_refuse("felter_positions", FELTER_NULL_POINTER);
    if (!tail) return felter_refuse("felter_positions", FELTER_NULL_POINTER);
    FELTER_ENTER1("felter_positions", &producer->handle);
    int32_t code = felter_positions(producer, head, tail);
    FELTER_LEAVE1();
    return code;
}

FELTER_GUARD int32_t felter_guarded_next_id(felter_producer *producer, uint64_t *id) {
    if (!producer) return felter_refuse("felter_next_id", FELTER_NO_HANDLE);
    if (!id) return felter_refuse("felter_next_id", FELTER_NULL_POINTER);
    FELTER_ENTER1("felter_next_id", &producer->handle);
    int32_t code = felter_next_id(producer, id);
    FELTER_LEAVE1();
    return code;
}

FELTER_GUARD int32_t felter_guarded_heartbeat(felter_producer *producer, uint64_t *value) {
    if (!producer) return felter_refuse("felter_heartbeat", FELTER_NO_HANDLE);
    if (!value) return felter_refuse("felter_heartbeat", FELTER_NULL_POINTER);
    FELTER_ENTER1("felter_heartbeat", &producer->handle);
    int32_t code = felter_heartbeat(producer, value);
    FELTER_LEAVE1();
    return code;
}

FELTER_GUARD int32_t felter_guarded_set_heartbeat(felter_consumer *consumer, uint64_t value) {
    if (!consumer) return felter_refuse("felter_set_heartbeat", FELTER_NO_HANDLE);
    FELTER_ENTER1("felter_set_heartbeat", &consumer->handle);
    int32_t code = felter_set_heartbeat(consumer, value);
    FELTER_LEAVE1();
    return code;
}

FELTER_GUARD int32_t felter_guarded_shares(felter_producer *producer, uint32_t *shares) {
    if (!producer) return felter_refuse("felter_shares", FELTER_NO_HANDLE);
    if (!shares) return felter_refuse("felter_shares", FELTER_NULL_POINTER);
    FELTER_ENTER1("felter_shares", &producer->handle);
    int32_t code = felter_shares(producer, shares);
    FELTER_LEAVE1();
    return code;
}

FELTER_GUARD int32_t felter_guarded_read(felter_consumer *consumer, int32_t *type_id, size_t *len, void *buffer,
                                         size_t room) {
    if (!consumer) return felter_refuse("felter_read", FELTER_NO_HANDLE);
    if (!type_id) return felter_refuse("felter_read", FELTER_NULL_POINTER);
    if (!len) return felter_refuse("felter_read", FELTER_NULL_POINTER);
    if (!buffer && room) return felter_refuse("felter_read", FELTER_NULL_POINTER);
    FELTER_ENTER1("felter_read", &consumer->handle);
    int32_t code = felter_read(consumer, type_id, len, buffer, room);
    FELTER_LEAVE1();
    return code;
}

FELTER_GUARD int32_t felter_guarded_peek(felter_consumer *consumer, int32_t *type_id, size_t *len, void *buffer,
                                         size_t room) {
    if (!consumer) return felter_refuse("felter_peek", FELTER_NO_HANDLE);
    if (!type_id) return felter_refuse("felter_peek", FELTER_NULL_POINTER);
    if (!len) return felter_refuse("felter_peek", FELTER_NULL_POINTER);
    if (!buffer && room) return felter_refuse("felter_peek", FELTER_NULL_POINTER);
    FELTER_ENTER1("felter_peek", &consumer->handle);
    int32_t code = felter_peek(consumer, type_id, len, buffer, room);
    FELTER_LEAVE1();
    return code;
}

FELTER_GUARD int32_t felter_guarded_take(felter_consumer *consumer) {
    if (!consumer) return felter_refuse("felter_take", FELTER_NO_HANDLE);
    FELTER_ENTER1("felter_take", &consumer->handle);
    int32_t code = felter_take(consumer);
    FELTER_LEAVE1();
    return code;
}

FELTER_GUARD int32_t felter_guarded_read_batch(felter_consumer *consumer, uint32_t limit, uint32_t *count, size_t *used,
                                               void *buffer, size_t room) {
    if (!consumer) return felter_refuse("felter_read_batch", FELTER_NO_HANDLE);
    if (!count) return felter_refuse("felter_read_batch", FELTER_NULL_POINTER);
    if (!used) return felter_refuse("felter_read_batch", FELTER_NULL_POINTER);
    if (!buffer && room) return felter_refuse("felter_read_batch", FELTER_NULL_POINTER);
    FELTER_ENTER1("felter_read_batch", &consumer->handle);
    int32_t code = felter_read_batch(consumer, limit, count, used, buffer, room);
    FELTER_LEAVE1();
    return code;
}

FELTER_GUARD int32_t felter_guarded_write_batch(felter_producer *producer, const void *records, size_t bytes,
                                                uint32_t *written) {
    if (!producer) return felter_refuse("felter_write_batch", FELTER_NO_HANDLE);
    if (!records && bytes) return felter_refuse("felter_write_batch", FELTER_NULL_POINTER);
    if (!written) return felter_refuse("felter_write_batch", FELTER_NULL_POINTER);
    FELTER_ENTER1("felter_write_batch", &producer->handle);
    int32_t code = felter_write_batch(producer, records, bytes, written);
    FELTER_LEAVE1();
    return code;
}

FELTER_GUARD int32_t felter_guarded_close(felter_consumer *consumer, felter_producer *producer) {
    if (!consumer) return felter_refuse("felter_close", FELTER_NO_HANDLE);
    if (!producer) return felter_refuse("felter_close", FELTER_NO_HANDLE);
    FELTER_ENTER2("felter_close", &consumer->handle, &producer->handle);
    int32_t code = felter_close(consumer, producer);
    FELTER_LEAVE2();
    return code;
}

FELTER_GUARD int32_t felter_guarded_finish(felter_consumer *consumer, uint64_t *left) {
    if (!consumer) return felter_refuse("felter_finish", FELTER_NO_HANDLE);
    if (!left) return felter_refuse("felter_finish", FELTER_NULL_POINTER);
    FELTER_ENTER1("felter_finish", &consumer->handle);
    int32_t code = felter_finish(consumer, left);
    FELTER_LEAVE1();
    return code;
}

FELTER_GUARD int32_t felter_guarded_board_new_numbered(uint64_t number, uint32_t capacity,
                                                       felter_transmitter *transmitter) {
    if (!transmitter) return felter_refuse("felter_board_new_numbered", FELTER_NO_HANDLE);
    FELTER_ENTER1("felter_board_new_numbered", &transmitter->handle);
    int32_t code = felter_board_new_numbered(number, capacity, transmitter);
    FELTER_LEAVE1();
    return code;
}

FELTER_GUARD int32_t felter_guarded_board_new_at_numbered(uint64_t number, uint32_t capacity, uint64_t start,
                                                          felter_transmitter *transmitter) {
    if (!transmitter) return felter_refuse("felter_board_new_at_numbered", FELTER_NO_HANDLE);
    FELTER_ENTER1("felter_board_new_at_numbered", &transmitter->handle);
    int32_t code = felter_board_new_at_numbered(number, capacity, start, transmitter);
    FELTER_LEAVE1();
    return code;
}

FELTER_GUARD int32_t felter_guarded_transmit(felter_transmitter *transmitter, int32_t type_id, const void *body,
                                             size_t len) {
    if (!transmitter) return felter_refuse("felter_transmit", FELTER_NO_HANDLE);
    if (!body && len) return felter_refuse("felter_transmit", FELTER_NULL_POINTER);
    FELTER_ENTER1("felter_transmit", &transmitter->handle);
    int32_t code = felter_transmit(transmitter, type_id, body, len);
    FELTER_LEAVE1();
    return code;
}

FELTER_GUARD int32_t felter_guarded_subscribe(felter_transmitter *transmitter, felter_receiver *receiver) {
    if (!transmitter) return felter_refuse("felter_subscribe", FELTER_NO_HANDLE);
    if (!receiver) return felter_refuse("felter_subscribe", FELTER_NO_HANDLE);
    FELTER_ENTER2("felter_subscribe", &transmitter->handle, &receiver->handle);
    int32_t code = felter_subscribe(transmitter, receiver);
    FELTER_LEAVE2();
    return code;
}

FELTER_GUARD int32_t felter_guarded_receive(felter_receiver *receiver, int32_t *type_id, size_t *len, uint64_t *lapped,
                                            void *buffer, size_t room) {
    if (!receiver) return felter_refuse("felter_receive", FELTER_NO_HANDLE);
    if (!type_id) return felter_refuse("felter_receive", FELTER_NULL_POINTER);
    if (!len) return felter_refuse("felter_receive", FELTER_NULL_POINTER);
    if (!lapped) return felter_refuse("felter_receive", FELTER_NULL_POINTER);
    if (!buffer && room) return felter_refuse("felter_receive", FELTER_NULL_POINTER);
    FELTER_ENTER1("felter_receive", &receiver->handle);
    int32_t code = felter_receive(receiver, type_id, len, lapped, buffer, room);
    FELTER_LEAVE1();
    return code;
}

FELTER_GUARD int32_t felter_guarded_lapped_count(felter_receiver *receiver, uint64_t *count) {
    if (!receiver) return felter_refuse("felter_lapped_count", FELTER_NO_HANDLE);
    if (!count) return felter_refuse("felter_lapped_count", FELTER_NULL_POINTER);
    FELTER_ENTER1("felter_lapped_count", &receiver->handle);
    int32_t code = felter_lapped_count(receiver, count);
    FELTER_LEAVE1();
    return code;
}

FELTER_GUARD int32_t felter_guarded_receiver_place(felter_receiver *receiver, uint64_t *place) {
    if (!receiver) return felter_refuse("felter_receiver_place", FELTER_NO_HANDLE);
    if (!place) return felter_refuse("felter_receiver_place", FELTER_NULL_POINTER);
    FELTER_ENTER1("felter_receiver_place", &receiver->handle);
    int32_t code = felter_receiver_place(receiver, place);
    FELTER_LEAVE1();
    return code;
}

FELTER_GUARD int32_t felter_guarded_receiver_lap(felter_receiver *receiver, uint64_t *place, uint64_t *intent) {
    if (!receiver) return felter_refuse("felter_receiver_lap", FELTER_NO_HANDLE);
    if (!place) return felter_refuse("felter_receiver_lap", FELTER_NULL_POINTER);
    if (!intent) return felter_refuse("felter_receiver_lap", FELTER_NULL_POINTER);
    FELTER_ENTER1("felter_receiver_lap", &receiver->handle);
    int32_t code = felter_receiver_lap(receiver, place, intent);
    FELTER_LEAVE1();
    return code;
}

FELTER_GUARD int32_t felter_guarded_subscribe_raw(felter_transmitter *transmitter, felter_raw_receiver *receiver) {
    if (!transmitter) return felter_refuse("felter_subscribe_raw", FELTER_NO_HANDLE);
    if (!receiver) return felter_refuse("felter_subscribe_raw", FELTER_NO_HANDLE);
    FELTER_ENTER2("felter_subscribe_raw", &transmitter->handle, &receiver->handle);
    int32_t code = felter_subscribe_raw(transmitter, receiver);
    FELTER_LEAVE2();
    return code;
}

FELTER_GUARD int32_t felter_guarded_receive_next(felter_raw_receiver *receiver, int32_t *type_id, size_t *len,
                                                 uint64_t *lapped) {
    if (!receiver) return felter_refuse("felter_receive_next", FELTER_NO_HANDLE);
    if (!type_id) return felter_refuse("felter_receive_next", FELTER_NULL_POINTER);
    if (!len) return felter_refuse("felter_receive_next", FELTER_NULL_POINTER);
    if (!lapped) return felter_refuse("felter_receive_next", FELTER_NULL_POINTER);
    FELTER_ENTER1("felter_receive_next", &receiver->handle);
    int32_t code = felter_receive_next(receiver, type_id, len, lapped);
    FELTER_LEAVE1();
    return code;
}

FELTER_GUARD int32_t felter_guarded_load_body(felter_raw_receiver *receiver, void *buffer, size_t room) {
    if (!receiver) return felter_refuse("felter_load_body", FELTER_NO_HANDLE);
    if (!buffer && room) return felter_refuse("felter_load_body", FELTER_NULL_POINTER);
    FELTER_ENTER1("felter_load_body", &receiver->handle);
    int32_t code = felter_load_body(receiver, buffer, room);
    FELTER_LEAVE1();
    return code;
}

FELTER_GUARD int32_t felter_guarded_validate(felter_raw_receiver *receiver) {
    if (!receiver) return felter_refuse("felter_validate", FELTER_NO_HANDLE);
    FELTER_ENTER1("felter_validate", &receiver->handle);
    int32_t code = felter_validate(receiver);
    FELTER_LEAVE1();
    return code;
}

FELTER_GUARD int32_t felter_guarded_raw_lapped_count(felter_raw_receiver *receiver, uint64_t *count) {
    if (!receiver) return felter_refuse("felter_raw_lapped_count", FELTER_NO_HANDLE);
    if (!count) return felter_refuse("felter_raw_lapped_count", FELTER_NULL_POINTER);
    FELTER_ENTER1("felter_raw_lapped_count", &receiver->handle);
    int32_t code = felter_raw_lapped_count(receiver, count);
    FELTER_LEAVE1();
    return code;
}

FELTER_GUARD int32_t felter_guarded_raw_receiver_place(felter_raw_receiver *receiver, uint64_t *place) {
    if (!receiver) return felter_refuse("felter_raw_receiver_place", FELTER_NO_HANDLE);
    if (!place) return felter_refuse("felter_raw_receiver_place", FELTER_NULL_POINTER);
    FELTER_ENTER1("felter_raw_receiver_place", &receiver->handle);
    int32_t code = felter_raw_receiver_place(receiver, place);
    FELTER_LEAVE1();
    return code;
}

FELTER_GUARD int32_t felter_guarded_raw_receiver_lap(felter_raw_receiver *receiver, uint64_t *place, uint64_t *intent) {
    if (!receiver) return felter_refuse("felter_raw_receiver_lap", FELTER_NO_HANDLE);
    if (!place) return felter_refuse("felter_raw_receiver_lap", FELTER_NULL_POINTER);
    if (!intent) return felter_refuse("felter_raw_receiver_lap", FELTER_NULL_POINTER);
    FELTER_ENTER1("felter_raw_receiver_lap", &receiver->handle);
    int32_t code = felter_raw_receiver_lap(receiver, place, intent);
    FELTER_LEAVE1();
    return code;
}

FELTER_GUARD int32_t felter_guarded_board_join(felter_transmitter *transmitter, felter_receiver *receiver) {
    if (!transmitter) return felter_refuse("felter_board_join", FELTER_NO_HANDLE);
    if (!receiver) return felter_refuse("felter_board_join", FELTER_NO_HANDLE);
    FELTER_ENTER2("felter_board_join", &transmitter->handle, &receiver->handle);
    int32_t code = felter_board_join(transmitter, receiver);
    FELTER_LEAVE2();
    return code;
}

FELTER_GUARD int32_t felter_guarded_board_join_raw(felter_transmitter *transmitter, felter_raw_receiver *receiver) {
    if (!transmitter) return felter_refuse("felter_board_join_raw", FELTER_NO_HANDLE);
    if (!receiver) return felter_refuse("felter_board_join_raw", FELTER_NO_HANDLE);
    FELTER_ENTER2("felter_board_join_raw", &transmitter->handle, &receiver->handle);
    int32_t code = felter_board_join_raw(transmitter, receiver);
    FELTER_LEAVE2();
    return code;
}

FELTER_GUARD int32_t felter_guarded_board_close(felter_transmitter *transmitter, uint64_t *tail) {
    if (!transmitter) return felter_refuse("felter_board_close", FELTER_NO_HANDLE);
    if (!tail) return felter_refuse("felter_board_close", FELTER_NULL_POINTER);
    FELTER_ENTER1("felter_board_close", &transmitter->handle);
    int32_t code = felter_board_close(transmitter, tail);
    FELTER_LEAVE1();
    return code;
}

FELTER_GUARD int32_t felter_guarded_counters_new_numbered(uint64_t number, uint32_t count, uint32_t reuse_ms,
                                                          felter_counters *counters) {
    if (!counters) return felter_refuse("felter_counters_new_numbered", FELTER_NO_HANDLE);
    FELTER_ENTER1("felter_counters_new_numbered", &counters->handle);
    int32_t code = felter_counters_new_numbered(number, count, reuse_ms, counters);
    FELTER_LEAVE1();
    return code;
}

FELTER_GUARD int32_t felter_guarded_counter_allocate(felter_counters *counters, uint64_t now, int32_t type_id, const
                                                     void *key, size_t key_len, const void *label, size_t label_len,
                                                     uint64_t registration, uint32_t *id) {
    if (!counters) return felter_refuse("felter_counter_allocate", FELTER_NO_HANDLE);
    if (!key && key_len) return felter_refuse("felter_counter_allocate", FELTER_NULL_POINTER);
    if (!label && label_len) return felter_refuse("felter_counter_allocate", FELTER_NULL_POINTER);
    if (!id) return felter_refuse("felter_counter_allocate", FELTER_NULL_POINTER);
    FELTER_ENTER1("felter_counter_allocate", &counters->handle);
    int32_t code = felter_counter_allocate(counters, now, type_id, key, key_len, label, label_len, registration, id);
    FELTER_LEAVE1();
    return code;
}

FELTER_GUARD int32_t felter_guarded_counter_allocate_owned(felter_counters *counters, uint64_t now, int32_t type_id,
                                                           const void *key, size_t key_len, const void *label,
                                                           size_t label_len, uint64_t registration, uint64_t owner,
                                                           uint32_t *id) {
    if (!counters) return felter_refuse("felter_counter_allocate_owned", FELTER_NO_HANDLE);
    if (!key && key_len) return felter_refuse("felter_counter_allocate_owned", FELTER_NULL_POINTER);
    if (!label && label_len) return felter_refuse("felter_counter_allocate_owned", FELTER_NULL_POINTER);
    if (!id) return felter_refuse("felter_counter_allocate_owned", FELTER_NULL_POINTER);
    FELTER_ENTER1("felter_counter_allocate_owned", &counters->handle);
    int32_t code = felter_counter_allocate_owned(counters, now, type_id, key, key_len, label, label_len, registration,
                                                 owner, id);
    FELTER_LEAVE1();
    return code;
}

FELTER_GUARD int32_t felter_guarded_counter_free(felter_counters *counters, uint64_t now, uint32_t id) {
    if (!counters) return felter_refuse("felter_counter_free", FELTER_NO_HANDLE);
    FELTER_ENTER1("felter_counter_free", &counters->handle);
    int32_t code = felter_counter_free(counters, now, id);
    FELTER_LEAVE1();
    return code;
}

FELTER_GUARD int32_t felter_guarded_counter_set(felter_counters *counters, uint32_t id, int64_t value) {
    if (!counters) return felter_refuse("felter_counter_set", FELTER_NO_HANDLE);
    FELTER_ENTER1("felter_counter_set", &counters->handle);
    int32_t code = felter_counter_set(counters, id, value);
    FELTER_LEAVE1();
    return code;
}

FELTER_GUARD int32_t felter_guarded_counter_add(felter_counters *counters, uint32_t id, int64_t delta, int64_t *before)
                                                {
    if (!counters) return felter_refuse("felter_counter_add", FELTER_NO_HANDLE);
    if (!before) return felter_refuse("felter_counter_add", FELTER_NULL_POINTER);
    FELTER_ENTER1("felter_counter_add", &counters->handle);
    int32_t code = felter_counter_add(counters, id, delta, before);
    FELTER_LEAVE1();
    return code;
}

FELTER_GUARD int32_t felter_guarded_counter_increment(felter_counters *counters, uint32_t id, int64_t *before) {
    if (!counters) return felter_refuse("felter_counter_increment", FELTER_NO_HANDLE);
    if (!before) return felter_refuse("felter_counter_increment", FELTER_NULL_POINTER);
    FELTER_ENTER1("felter_counter_increment", &counters->handle);
    int32_t code = felter_counter_increment(counters, id, before);
    FELTER_LEAVE1();
    return code;
}

FELTER_GUARD int32_t felter_guarded_counter_decrement(felter_counters *counters, uint32_t id, int64_t *before) {
    if (!counters) return felter_refuse("felter_counter_decrement", FELTER_NO_HANDLE);
    if (!before) return felter_refuse("felter_counter_decrement", FELTER_NULL_POINTER);
    FELTER_ENTER1("felter_counter_decrement", &counters->handle);
    int32_t code = felter_counter_decrement(counters, id, before);
    FELTER_LEAVE1();
    return code;
}

FELTER_GUARD int32_t felter_guarded_counter_get_and_set(felter_counters *counters, uint32_t id, int64_t value,
                                                        int64_t *before) {
    if (!counters) return felter_refuse("felter_counter_get_and_set", FELTER_NO_HANDLE);
    if (!before) return felter_refuse("felter_counter_get_and_set", FELTER_NULL_POINTER);
    FELTER_ENTER1("felter_counter_get_and_set", &counters->handle);
    int32_t code = felter_counter_get_and_set(counters, id, value, before);
    FELTER_LEAVE1();
    return code;
}

FELTER_GUARD int32_t felter_guarded_counter_value(felter_counters *counters, uint32_t id, int64_t *value) {
    if (!counters) return felter_refuse("felter_counter_value", FELTER_NO_HANDLE);
    if (!value) return felter_refuse("felter_counter_value", FELTER_NULL_POINTER);
    FELTER_ENTER1("felter_counter_value", &counters->handle);
    int32_t code = felter_counter_value(counters, id, value);
    FELTER_LEAVE1();
    return code;
}

FELTER_GUARD int32_t felter_guarded_counter_type_id(felter_counters *counters, uint32_t id, int32_t *type_id) {
    if (!counters) return felter_refuse("felter_counter_type_id", FELTER_NO_HANDLE);
    if (!type_id) return felter_refuse("felter_counter_type_id", FELTER_NULL_POINTER);
    FELTER_ENTER1("felter_counter_type_id", &counters->handle);
    int32_t code = felter_counter_type_id(counters, id, type_id);
    FELTER_LEAVE1();
    return code;
}

FELTER_GUARD int32_t felter_guarded_counter_registration(felter_counters *counters, uint32_t id, uint64_t *registration)
                                                         {
    if (!counters) return felter_refuse("felter_counter_registration", FELTER_NO_HANDLE);
    if (!registration) return felter_refuse("felter_counter_registration", FELTER_NULL_POINTER);
    FELTER_ENTER1("felter_counter_registration", &counters->handle);
    int32_t code = felter_counter_registration(counters, id, registration);
    FELTER_LEAVE1();
    return code;
}

FELTER_GUARD int32_t felter_guarded_counter_owner(felter_counters *counters, uint32_t id, uint64_t *owner) {
    if (!counters) return felter_refuse("felter_counter_owner", FELTER_NO_HANDLE);
    if (!owner) return felter_refuse("felter_counter_owner", FELTER_NULL_POINTER);
    FELTER_ENTER1("felter_counter_owner", &counters->handle);
    int32_t code = felter_counter_owner(counters, id, owner);
    FELTER_LEAVE1();
    return code;
}

FELTER_GUARD int32_t felter_guarded_counter_propose_max(felter_counters *counters, uint32_t id, int64_t value,
                                                        uint32_t *raised) {
    if (!counters) return felter_refuse("felter_counter_propose_max", FELTER_NO_HANDLE);
    if (!raised) return felter_refuse("felter_counter_propose_max", FELTER_NULL_POINTER);
    FELTER_ENTER1("felter_counter_propose_max", &counters->handle);
    int32_t code = felter_counter_propose_max(counters, id, value, raised);
    FELTER_LEAVE1();
    return code;
}

FELTER_GUARD int32_t felter_guarded_counter_compare_and_set(felter_counters *counters, uint32_t id, int64_t expected,
                                                            int64_t value, uint32_t *was_set) {
    if (!counters) return felter_refuse("felter_counter_compare_and_set", FELTER_NO_HANDLE);
    if (!was_set) return felter_refuse("felter_counter_compare_and_set", FELTER_NULL_POINTER);
    FELTER_ENTER1("felter_counter_compare_and_set", &counters->handle);
    int32_t code = felter_counter_compare_and_set(counters, id, expected, value, was_set);
    FELTER_LEAVE1();
    return code;
}

FELTER_GUARD int32_t felter_guarded_counter_state(felter_counters *counters, uint32_t id, int32_t *state) {
    if (!counters) return felter_refuse("felter_counter_state", FELTER_NO_HANDLE);
    if (!state) return felter_refuse("felter_counter_state", FELTER_NULL_POINTER);
    FELTER_ENTER1("felter_counter_state", &counters->handle);
    int32_t code = felter_counter_state(counters, id, state);
    FELTER_LEAVE1();
    return code;
}

FELTER_GUARD int32_t felter_guarded_counter_deadline(felter_counters *counters, uint32_t id, uint64_t *deadline) {
    if (!counters) return felter_refuse("felter_counter_deadline", FELTER_NO_HANDLE);
    if (!deadline) return felter_refuse("felter_counter_deadline", FELTER_NULL_POINTER);
    FELTER_ENTER1("felter_counter_deadline", &counters->handle);
    int32_t code = felter_counter_deadline(counters, id, deadline);
    FELTER_LEAVE1();
    return code;
}

FELTER_GUARD int32_t felter_guarded_counter_label(felter_counters *counters, uint32_t id, size_t *len, void *buffer,
                                                  size_t room) {
    if (!counters) return felter_refuse("felter_counter_label", FELTER_NO_HANDLE);
    if (!len) return felter_refuse("felter_counter_label", FELTER_NULL_POINTER);
    if (!buffer && room) return felter_refuse("felter_counter_label", FELTER_NULL_POINTER);
    FELTER_ENTER1("felter_counter_label", &counters->handle);
    int32_t code = felter_counter_label(counters, id, len, buffer, room);
    FELTER_LEAVE1();
    return code;
}

FELTER_GUARD int32_t felter_guarded_counter_key(felter_counters *counters, uint32_t id, void *buffer, size_t room) {
    if (!counters) return felter_refuse("felter_counter_key", FELTER_NO_HANDLE);
    if (!buffer && room) return felter_refuse("felter_counter_key", FELTER_NULL_POINTER);
    FELTER_ENTER1("felter_counter_key", &counters->handle);
    int32_t code = felter_counter_key(counters, id, buffer, room);
    FELTER_LEAVE1();
    return code;
}

FELTER_GUARD int32_t felter_guarded_counter_find(felter_counters *counters, int32_t type_id, uint64_t registration,
                                                 uint32_t *id) {
    if (!counters) return felter_refuse("felter_counter_find", FELTER_NO_HANDLE);
    if (!id) return felter_refuse("felter_counter_find", FELTER_NULL_POINTER);
    FELTER_ENTER1("felter_counter_find", &counters->handle);
    int32_t code = felter_counter_find(counters, type_id, registration, id);
    FELTER_LEAVE1();
    return code;
}

FELTER_GUARD int32_t felter_guarded_counters_count(felter_counters *counters, uint32_t *count) {
    if (!counters) return felter_refuse("felter_counters_count", FELTER_NO_HANDLE);
    if (!count) return felter_refuse("felter_counters_count", FELTER_NULL_POINTER);
    FELTER_ENTER1("felter_counters_count", &counters->handle);
    int32_t code = felter_counters_count(counters, count);
    FELTER_LEAVE1();
    return code;
}

FELTER_GUARD int32_t felter_guarded_counters_available(felter_counters *counters, uint64_t now, uint32_t *available) {
    if (!counters) return felter_refuse("felter_counters_available", FELTER_NO_HANDLE);
    if (!available) return felter_refuse("felter_counters_available", FELTER_NULL_POINTER);
    FELTER_ENTER1("felter_counters_available", &counters->handle);
    int32_t code = felter_counters_available(counters, now, available);
    FELTER_LEAVE1();
    return code;
}

FELTER_GUARD int32_t felter_guarded_counters_close_owner(felter_counters *counters, uint64_t now, uint64_t owner,
                                                         uint32_t *freed) {
    if (!counters) return felter_refuse("felter_counters_close_owner", FELTER_NO_HANDLE);
    if (!freed) return felter_refuse("felter_counters_close_owner", FELTER_NULL_POINTER);
    FELTER_ENTER1("felter_counters_close_owner", &counters->handle);
    int32_t code = felter_counters_close_owner(counters, now, owner, freed);
    FELTER_LEAVE1();
    return code;
}

FELTER_GUARD int32_t felter_guarded_counters_reader(felter_counters *counters, felter_reader *reader) {
    if (!counters) return felter_refuse("felter_counters_reader", FELTER_NO_HANDLE);
    if (!reader) return felter_refuse("felter_counters_reader", FELTER_NO_HANDLE);
    FELTER_ENTER2("felter_counters_reader", &counters->handle, &reader->handle);
    int32_t code = felter_counters_reader(counters, reader);
    FELTER_LEAVE2();
    return code;
}

FELTER_GUARD int32_t felter_guarded_reader_value(felter_reader *reader, uint32_t id, int64_t *value) {
    if (!reader) return felter_refuse("felter_reader_value", FELTER_NO_HANDLE);
    if (!value) return felter_refuse("felter_reader_value", FELTER_NULL_POINTER);
    FELTER_ENTER1("felter_reader_value", &reader->handle);
    int32_t code = felter_reader_value(reader, id, value);
    FELTER_LEAVE1();
    return code;
}

FELTER_GUARD int32_t felter_guarded_counters_join(felter_counters *counters, felter_reader *reader) {
    if (!counters) return felter_refuse("felter_counters_join", FELTER_NO_HANDLE);
    if (!reader) return felter_refuse("felter_counters_join", FELTER_NO_HANDLE);
    FELTER_ENTER2("felter_counters_join", &counters->handle, &reader->handle);
    int32_t code = felter_counters_join(counters, reader);
    FELTER_LEAVE2();
    return code;
}

FELTER_GUARD int32_t felter_guarded_adder_new_numbered(uint64_t number, felter_adder *adder) {
    if (!adder) return felter_refuse("felter_adder_new_numbered", FELTER_NO_HANDLE);
    FELTER_ENTER1("felter_adder_new_numbered", &adder->handle);
    int32_t code = felter_adder_new_numbered(number, adder);
    FELTER_LEAVE1();
    return code;
}

FELTER_GUARD int32_t felter_guarded_adder_split(felter_adder *adder, felter_adder *other) {
    if (!adder) return felter_refuse("felter_adder_split", FELTER_NO_HANDLE);
    if (!other) return felter_refuse("felter_adder_split", FELTER_NO_HANDLE);
    FELTER_ENTER2("felter_adder_split", &adder->handle, &other->handle);
    int32_t code = felter_adder_split(adder, other);
    FELTER_LEAVE2();
    return code;
}

FELTER_GUARD int32_t felter_guarded_adder_join(felter_adder *adder, felter_adder *other) {
    if (!adder) return felter_refuse("felter_adder_join", FELTER_NO_HANDLE);
    if (!other) return felter_refuse("felter_adder_join", FELTER_NO_HANDLE);
    FELTER_ENTER2("felter_adder_join", &adder->handle, &other->handle);
    int32_t code = felter_adder_join(adder, other);
    FELTER_LEAVE2();
    return code;
}

FELTER_GUARD int32_t felter_guarded_adder_add(felter_adder *adder, int64_t delta, int64_t *before) {
    if (!adder) return felter_refuse("felter_adder_add", FELTER_NO_HANDLE);
    if (!before) return felter_refuse("felter_adder_add", FELTER_NULL_POINTER);
    FELTER_ENTER1("felter_adder_add", &adder->handle);
    int32_t code = felter_adder_add(adder, delta, before);
    FELTER_LEAVE1();
    return code;
}

FELTER_GUARD int32_t felter_guarded_adder_value(felter_adder *adder, int64_t *value) {
    if (!adder) return felter_refuse("felter_adder_value", FELTER_NO_HANDLE);
    if (!value) return felter_refuse("felter_adder_value", FELTER_NULL_POINTER);
    FELTER_ENTER1("felter_adder_value", &adder->handle);
    int32_t code = felter_adder_value(adder, value);
    FELTER_LEAVE1();
    return code;
}

FELTER_GUARD int32_t felter_guarded_adder_shares(felter_adder *adder, uint32_t *shares) {
    if (!adder) return felter_refuse("felter_adder_shares", FELTER_NO_HANDLE);
    if (!shares) return felter_refuse("felter_adder_shares", FELTER_NULL_POINTER);
    FELTER_ENTER1("felter_adder_shares", &adder->handle);
    int32_t code = felter_adder_shares(adder, shares);
    FELTER_LEAVE1();
    return code;
}

FELTER_GUARD int32_t felter_guarded_conductor_new_numbered(uint64_t number, uint32_t capacity, uint32_t replies,
                                                           uint32_t counters, uint32_t reuse_ms,
                                                           felter_conductor *conductor) {
    if (!conductor) return felter_refuse("felter_conductor_new_numbered", FELTER_NO_HANDLE);
    FELTER_ENTER1("felter_conductor_new_numbered", &conductor->handle);
    int32_t code = felter_conductor_new_numbered(number, capacity, replies, counters, reuse_ms, conductor);
    FELTER_LEAVE1();
    return code;
}

FELTER_GUARD int32_t felter_guarded_conductor_client(felter_conductor *conductor, felter_client *client) {
    if (!conductor) return felter_refuse("felter_conductor_client", FELTER_NO_HANDLE);
    if (!client) return felter_refuse("felter_conductor_client", FELTER_NO_HANDLE);
    FELTER_ENTER2("felter_conductor_client", &conductor->handle, &client->handle);
    int32_t code = felter_conductor_client(conductor, client);
    FELTER_LEAVE2();
    return code;
}

FELTER_GUARD int32_t felter_guarded_conductor_work(felter_conductor *conductor, uint64_t now, uint32_t limit,
                                                   uint64_t *messages, int32_t *stopped) {
    if (!conductor) return felter_refuse("felter_conductor_work", FELTER_NO_HANDLE);
    if (!messages) return felter_refuse("felter_conductor_work", FELTER_NULL_POINTER);
    if (!stopped) return felter_refuse("felter_conductor_work", FELTER_NULL_POINTER);
    FELTER_ENTER1("felter_conductor_work", &conductor->handle);
    int32_t code = felter_conductor_work(conductor, now, limit, messages, stopped);
    FELTER_LEAVE1();
    return code;
}

FELTER_GUARD int32_t felter_guarded_conductor_set_heartbeat(felter_conductor *conductor, uint64_t value) {
    if (!conductor) return felter_refuse("felter_conductor_set_heartbeat", FELTER_NO_HANDLE);
    FELTER_ENTER1("felter_conductor_set_heartbeat", &conductor->handle);
    int32_t code = felter_conductor_set_heartbeat(conductor, value);
    FELTER_LEAVE1();
    return code;
}

FELTER_GUARD int32_t felter_guarded_client_heartbeat(felter_client *client, uint64_t *value) {
    if (!client) return felter_refuse("felter_client_heartbeat", FELTER_NO_HANDLE);
    if (!value) return felter_refuse("felter_client_heartbeat", FELTER_NULL_POINTER);
    FELTER_ENTER1("felter_client_heartbeat", &client->handle);
    int32_t code = felter_client_heartbeat(client, value);
    FELTER_LEAVE1();
    return code;
}

FELTER_GUARD int32_t felter_guarded_conductor_find(felter_conductor *conductor, int32_t type_id, uint64_t registration,
                                                   uint32_t *id) {
    if (!conductor) return felter_refuse("felter_conductor_find", FELTER_NO_HANDLE);
    if (!id) return felter_refuse("felter_conductor_find", FELTER_NULL_POINTER);
    FELTER_ENTER1("felter_conductor_find", &conductor->handle);
    int32_t code = felter_conductor_find(conductor, type_id, registration, id);
    FELTER_LEAVE1();
    return code;
}

FELTER_GUARD int32_t felter_guarded_conductor_count(felter_conductor *conductor, uint32_t *count) {
    if (!conductor) return felter_refuse("felter_conductor_count", FELTER_NO_HANDLE);
    if (!count) return felter_refuse("felter_conductor_count", FELTER_NULL_POINTER);
    FELTER_ENTER1("felter_conductor_count", &conductor->handle);
    int32_t code = felter_conductor_count(conductor, count);
    FELTER_LEAVE1();
    return code;
}

FELTER_GUARD int32_t felter_guarded_conductor_value(felter_conductor *conductor, uint32_t id, int64_t *value) {
    if (!conductor) return felter_refuse("felter_conductor_value", FELTER_NO_HANDLE);
    if (!value) return felter_refuse("felter_conductor_value", FELTER_NULL_POINTER);
    FELTER_ENTER1("felter_conductor_value", &conductor->handle);
    int32_t code = felter_conductor_value(conductor, id, value);
    FELTER_LEAVE1();
    return code;
}

FELTER_GUARD int32_t felter_guarded_conductor_type_id(felter_conductor *conductor, uint32_t id, int32_t *type_id) {
    if (!conductor) return felter_refuse("felter_conductor_type_id", FELTER_NO_HANDLE);
    if (!type_id) return felter_refuse("felter_conductor_type_id", FELTER_NULL_POINTER);
    FELTER_ENTER1("felter_conductor_type_id", &conductor->handle);
    int32_t code = felter_conductor_type_id(conductor, id, type_id);
    FELTER_LEAVE1();
    return code;
}

FELTER_GUARD int32_t felter_guarded_conductor_registration(felter_conductor *conductor, uint32_t id,
                                                           uint64_t *registration) {
    if (!conductor) return felter_refuse("felter_conductor_registration", FELTER_NO_HANDLE);
    if (!registration) return felter_refuse("felter_conductor_registration", FELTER_NULL_POINTER);
    FELTER_ENTER1("felter_conductor_registration", &conductor->handle);
    int32_t code = felter_conductor_registration(conductor, id, registration);
    FELTER_LEAVE1();
    return code;
}

FELTER_GUARD int32_t felter_guarded_conductor_owner(felter_conductor *conductor, uint32_t id, uint64_t *owner) {
    if (!conductor) return felter_refuse("felter_conductor_owner", FELTER_NO_HANDLE);
    if (!owner) return felter_refuse("felter_conductor_owner", FELTER_NULL_POINTER);
    FELTER_ENTER1("felter_conductor_owner", &conductor->handle);
    int32_t code = felter_conductor_owner(conductor, id, owner);
    FELTER_LEAVE1();
    return code;
}

FELTER_GUARD int32_t felter_guarded_conductor_state(felter_conductor *conductor, uint32_t id, int32_t *state) {
    if (!conductor) return felter_refuse("felter_conductor_state", FELTER_NO_HANDLE);
    if (!state) return felter_refuse("felter_conductor_state", FELTER_NULL_POINTER);
    FELTER_ENTER1("felter_conductor_state", &conductor->handle);
    int32_t code = felter_conductor_state(conductor, id, state);
    FELTER_LEAVE1();
    return code;
}

FELTER_GUARD int32_t felter_guarded_conductor_deadline(felter_conductor *conductor, uint32_t id, uint64_t *deadline) {
    if (!conductor) return felter_refuse("felter_conductor_deadline", FELTER_NO_HANDLE);
    if (!deadline) return felter_refuse("felter_conductor_deadline", FELTER_NULL_POINTER);
    FELTER_ENTER1("felter_conductor_deadline", &conductor->handle);
    int32_t code = felter_conductor_deadline(conductor, id, deadline);
    FELTER_LEAVE1();
    return code;
}

FELTER_GUARD int32_t felter_guarded_conductor_label(felter_conductor *conductor, uint32_t id, size_t *len, void *buffer,
                                                    size_t room) {
    if (!conductor) return felter_refuse("felter_conductor_label", FELTER_NO_HANDLE);
    if (!len) return felter_refuse("felter_conductor_label", FELTER_NULL_POINTER);
    if (!buffer && room) return felter_refuse("felter_conductor_label", FELTER_NULL_POINTER);
    FELTER_ENTER1("felter_conductor_label", &conductor->handle);
    int32_t code = felter_conductor_label(conductor, id, len, buffer, room);
    FELTER_LEAVE1();
    return code;
}

FELTER_GUARD int32_t felter_guarded_conductor_key(felter_conductor *conductor, uint32_t id, void *buffer, size_t room) {
    if (!conductor) return felter_refuse("felter_conductor_key", FELTER_NO_HANDLE);
    if (!buffer && room) return felter_refuse("felter_conductor_key", FELTER_NULL_POINTER);
    FELTER_ENTER1("felter_conductor_key", &conductor->handle);
    int32_t code = felter_conductor_key(conductor, id, buffer, room);
    FELTER_LEAVE1();
    return code;
}

FELTER_GUARD int32_t felter_guarded_conductor_subscribe(felter_conductor *conductor, felter_receiver *receiver) {
    if (!conductor) return felter_refuse("felter_conductor_subscribe", FELTER_NO_HANDLE);
    if (!receiver) return felter_refuse("felter_conductor_subscribe", FELTER_NO_HANDLE);
    FELTER_ENTER2("felter_conductor_subscribe", &conductor->handle, &receiver->handle);
    int32_t code = felter_conductor_subscribe(conductor, receiver);
    FELTER_LEAVE2();
    return code;
}

FELTER_GUARD int32_t felter_guarded_conductor_reader(felter_conductor *conductor, felter_reader *reader) {
    if (!conductor) return felter_refuse("felter_conductor_reader", FELTER_NO_HANDLE);
    if (!reader) return felter_refuse("felter_conductor_reader", FELTER_NO_HANDLE);
    FELTER_ENTER2("felter_conductor_reader", &conductor->handle, &reader->handle);
    int32_t code = felter_conductor_reader(conductor, reader);
    FELTER_LEAVE2();
    return code;
}

FELTER_GUARD int32_t felter_guarded_conductor_join(felter_conductor *conductor, felter_client *client) {
    if (!conductor) return felter_refuse("felter_conductor_join", FELTER_NO_HANDLE);
    if (!client) return felter_refuse("felter_conductor_join", FELTER_NO_HANDLE);
    FELTER_ENTER2("felter_conductor_join", &conductor->handle, &client->handle);
    int32_t code = felter_conductor_join(conductor, client);
    FELTER_LEAVE2();
    return code;
}

FELTER_GUARD int32_t felter_guarded_conductor_join_receiver(felter_conductor *conductor, felter_receiver *receiver) {
    if (!conductor) return felter_refuse("felter_conductor_join_receiver", FELTER_NO_HANDLE);
    if (!receiver) return felter_refuse("felter_conductor_join_receiver", FELTER_NO_HANDLE);
    FELTER_ENTER2("felter_conductor_join_receiver", &conductor->handle, &receiver->handle);
    int32_t code = felter_conductor_join_receiver(conductor, receiver);
    FELTER_LEAVE2();
    return code;
}

FELTER_GUARD int32_t felter_guarded_conductor_join_reader(felter_conductor *conductor, felter_reader *reader) {
    if (!conductor) return felter_refuse("felter_conductor_join_reader", FELTER_NO_HANDLE);
    if (!reader) return felter_refuse("felter_conductor_join_reader", FELTER_NO_HANDLE);
    FELTER_ENTER2("felter_conductor_join_reader", &conductor->handle, &reader->handle);
    int32_t code = felter_conductor_join_reader(conductor, reader);
    FELTER_LEAVE2();
    return code;
}

FELTER_GUARD int32_t felter_guarded_conductor_finish(felter_conductor *conductor, uint64_t *received, uint64_t *left) {
    if (!conductor) return felter_refuse("felter_conductor_finish", FELTER_NO_HANDLE);
    if (!received) return felter_refuse("felter_conductor_finish", FELTER_NULL_POINTER);
    if (!left) return felter_refuse("felter_conductor_finish", FELTER_NULL_POINTER);
    FELTER_ENTER1("felter_conductor_finish", &conductor->handle);
    int32_t code = felter_conductor_finish(conductor, received, left);
    FELTER_LEAVE1();
    return code;
}

FELTER_GUARD int32_t felter_guarded_send_allocate(felter_client *client, int32_t type_id, const void *key,
                                                  size_t key_len, const void *label, size_t label_len, uint64_t *id) {
    if (!client) return felter_refuse("felter_send_allocate", FELTER_NO_HANDLE);
    if (!key && key_len) return felter_refuse("felter_send_allocate", FELTER_NULL_POINTER);
    if (!label && label_len) return felter_refuse("felter_send_allocate", FELTER_NULL_POINTER);
    if (!id) return felter_refuse("felter_send_allocate", FELTER_NULL_POINTER);
    FELTER_ENTER1("felter_send_allocate", &client->handle);
    int32_t code = felter_send_allocate(client, type_id, key, key_len, label, label_len, id);
    FELTER_LEAVE1();
    return code;
}

FELTER_GUARD int32_t felter_guarded_send_allocate_owned(felter_client *client, int32_t type_id, uint64_t owner, const
                                                        void *key, size_t key_len, const void *label, size_t label_len,
                                                        uint64_t *id) {
    if (!client) return felter_refuse("felter_send_allocate_owned", FELTER_NO_HANDLE);
    if (!key && key_len) return felter_refuse("felter_send_allocate_owned", FELTER_NULL_POINTER);
    if (!label && label_len) return felter_refuse("felter_send_allocate_owned", FELTER_NULL_POINTER);
    if (!id) return felter_refuse("felter_send_allocate_owned", FELTER_NULL_POINTER);
    FELTER_ENTER1("felter_send_allocate_owned", &client->handle);
    int32_t code = felter_send_allocate_owned(client, type_id, owner, key, key_len, label, label_len, id);
    FELTER_LEAVE1();
    return code;
}

FELTER_GUARD int32_t felter_guarded_send_free(felter_client *client, uint32_t counter, uint64_t *id) {
    if (!client) return felter_refuse("felter_send_free", FELTER_NO_HANDLE);
    if (!id) return felter_refuse("felter_send_free", FELTER_NULL_POINTER);
    FELTER_ENTER1("felter_send_free", &client->handle);
    int32_t code = felter_send_free(client, counter, id);
    FELTER_LEAVE1();
    return code;
}

FELTER_GUARD int32_t felter_guarded_send_set(felter_client *client, uint32_t counter, int64_t value, uint64_t *id) {
    if (!client) return felter_refuse("felter_send_set", FELTER_NO_HANDLE);
    if (!id) return felter_refuse("felter_send_set", FELTER_NULL_POINTER);
    FELTER_ENTER1("felter_send_set", &client->handle);
    int32_t code = felter_send_set(client, counter, value, id);
    FELTER_LEAVE1();
    return code;
}

FELTER_GUARD int32_t felter_guarded_send_close_owner(felter_client *client, uint64_t owner, uint64_t *id) {
    if (!client) return felter_refuse("felter_send_close_owner", FELTER_NO_HANDLE);
    if (!id) return felter_refuse("felter_send_close_owner", FELTER_NULL_POINTER);
    FELTER_ENTER1("felter_send_close_owner", &client->handle);
    int32_t code = felter_send_close_owner(client, owner, id);
    FELTER_LEAVE1();
    return code;
}

FELTER_GUARD int32_t felter_guarded_poll(felter_client *client, uint64_t correlation, int32_t *kind, int64_t *number,
                                         uint64_t *lapped) {
    if (!client) return felter_refuse("felter_poll", FELTER_NO_HANDLE);
    if (!kind) return felter_refuse("felter_poll", FELTER_NULL_POINTER);
    if (!number) return felter_refuse("felter_poll", FELTER_NULL_POINTER);
    if (!lapped) return felter_refuse("felter_poll", FELTER_NULL_POINTER);
    FELTER_ENTER1("felter_poll", &client->handle);
    int32_t code = felter_poll(client, correlation, kind, number, lapped);
    FELTER_LEAVE1();
    return code;
}

FELTER_GUARD int32_t felter_guarded_recover_words(const uint64_t *words, size_t word_count, const uint64_t *slots,
                                                  size_t slot_count, uint64_t *place, int64_t *found,
                                                  uint64_t *open_claims, uint32_t *count, size_t *used, void *buffer,
                                                  size_t room) {
    if (!words && word_count) return felter_refuse("felter_recover_words", FELTER_NULL_POINTER);
    if (!slots && slot_count) return felter_refuse("felter_recover_words", FELTER_NULL_POINTER);
    if (!place) return felter_refuse("felter_recover_words", FELTER_NULL_POINTER);
    if (!found) return felter_refuse("felter_recover_words", FELTER_NULL_POINTER);
    if (!open_claims) return felter_refuse("felter_recover_words", FELTER_NULL_POINTER);
    if (!count) return felter_refuse("felter_recover_words", FELTER_NULL_POINTER);
    if (!used) return felter_refuse("felter_recover_words", FELTER_NULL_POINTER);
    if (!buffer && room) return felter_refuse("felter_recover_words", FELTER_NULL_POINTER);
    int32_t code = felter_recover_words(words, word_count, slots, slot_count, place, found, open_claims, count, used,
                                        buffer, room);
    return code;
}

FELTER_GUARD int32_t felter_guarded_ring_memory(uint32_t capacity, size_t *length) {
    if (!length) return felter_refuse("felter_ring_memory", FELTER_NULL_POINTER);
    int32_t code = felter_ring_memory(capacity, length);
    return code;
}

FELTER_GUARD int32_t felter_guarded_board_memory(uint32_t capacity, size_t *length) {
    if (!length) return felter_refuse("felter_board_memory", FELTER_NULL_POINTER);
    int32_t code = felter_board_memory(capacity, length);
    return code;
}

FELTER_GUARD int32_t felter_guarded_counters_memory(uint32_t count, size_t *length) {
    if (!length) return felter_refuse("felter_counters_memory", FELTER_NULL_POINTER);
    int32_t code = felter_counters_memory(count, length);
    return code;
}

FELTER_GUARD int32_t felter_guarded_many_to_one_new_in_numbered(uint64_t number, void *memory, size_t length,
                                                                uint32_t capacity, felter_producer *producer,
                                                                felter_consumer *consumer) {
    if (!memory) return felter_refuse("felter_many_to_one_new_in_numbered", FELTER_NULL_POINTER);
    if (!producer) return felter_refuse("felter_many_to_one_new_in_numbered", FELTER_NO_HANDLE);
    if (!consumer) return felter_refuse("felter_many_to_one_new_in_numbered", FELTER_NO_HANDLE);
    FELTER_ENTER2("felter_many_to_one_new_in_numbered", &producer->handle, &consumer->handle);
    int32_t code = felter_many_to_one_new_in_numbered(number, memory, length, capacity, producer, consumer);
    FELTER_LEAVE2();
    return code;
}

FELTER_GUARD int32_t felter_guarded_one_to_one_new_in_numbered(uint64_t number, void *memory, size_t length,
                                                               uint32_t capacity, felter_producer *producer,
                                                               felter_consumer *consumer) {
    if (!memory) return felter_refuse("felter_one_to_one_new_in_numbered", FELTER_NULL_POINTER);
    if (!producer) return felter_refuse("felter_one_to_one_new_in_numbered", FELTER_NO_HANDLE);
    if (!consumer) return felter_refuse("felter_one_to_one_new_in_numbered", FELTER_NO_HANDLE);
    FELTER_ENTER2("felter_one_to_one_new_in_numbered", &producer->handle, &consumer->handle);
    int32_t code = felter_one_to_one_new_in_numbered(number, memory, length, capacity, producer, consumer);
    FELTER_LEAVE2();
    return code;
}

FELTER_GUARD int32_t felter_guarded_board_new_in_numbered(uint64_t number, void *memory, size_t length,
                                                          uint32_t capacity, felter_transmitter *transmitter) {
    if (!memory) return felter_refuse("felter_board_new_in_numbered", FELTER_NULL_POINTER);
    if (!transmitter) return felter_refuse("felter_board_new_in_numbered", FELTER_NO_HANDLE);
    FELTER_ENTER1("felter_board_new_in_numbered", &transmitter->handle);
    int32_t code = felter_board_new_in_numbered(number, memory, length, capacity, transmitter);
    FELTER_LEAVE1();
    return code;
}

FELTER_GUARD int32_t felter_guarded_counters_new_in_numbered(uint64_t number, void *memory, size_t length,
                                                             uint32_t count, uint32_t reuse_ms,
                                                             felter_counters *counters) {
    if (!memory) return felter_refuse("felter_counters_new_in_numbered", FELTER_NULL_POINTER);
    if (!counters) return felter_refuse("felter_counters_new_in_numbered", FELTER_NO_HANDLE);
    FELTER_ENTER1("felter_counters_new_in_numbered", &counters->handle);
    int32_t code = felter_counters_new_in_numbered(number, memory, length, count, reuse_ms, counters);
    FELTER_LEAVE1();
    return code;
}

FELTER_GUARD int32_t felter_guarded_unmap_at_end(void *memory, size_t length) {
    if (!memory) return felter_refuse("felter_unmap_at_end", FELTER_NULL_POINTER);
    int32_t code = felter_unmap_at_end(memory, length);
    return code;
}

FELTER_GUARD int32_t felter_guarded_recover(const void *image, size_t length, uint64_t *open_claims, uint32_t *count,
                                            size_t *used, void *buffer, size_t room) {
    if (!image && length) return felter_refuse("felter_recover", FELTER_NULL_POINTER);
    if (!open_claims) return felter_refuse("felter_recover", FELTER_NULL_POINTER);
    if (!count) return felter_refuse("felter_recover", FELTER_NULL_POINTER);
    if (!used) return felter_refuse("felter_recover", FELTER_NULL_POINTER);
    if (!buffer && room) return felter_refuse("felter_recover", FELTER_NULL_POINTER);
    int32_t code = felter_recover(image, length, open_claims, count, used, buffer, room);
    return code;
}

FELTER_GUARD int32_t felter_guarded_finding(const void *image, size_t length, size_t *len, char *text, size_t room) {
    if (!image && length) return felter_refuse("felter_finding", FELTER_NULL_POINTER);
    if (!len) return felter_refuse("felter_finding", FELTER_NULL_POINTER);
    if (!text && room) return felter_refuse("felter_finding", FELTER_NULL_POINTER);
    int32_t code = felter_finding(image, length, len, text, room);
    return code;
}

FELTER_GUARD int32_t felter_many_to_one_new(uint32_t capacity, felter_producer *producer, felter_consumer *consumer) {
    return felter_guarded_many_to_one_new_numbered(felter_next_number(), capacity, producer, consumer);
}

FELTER_GUARD int32_t felter_many_to_one_new_at(uint32_t capacity, uint64_t start, felter_producer *producer,
                                               felter_consumer *consumer) {
    return felter_guarded_many_to_one_new_at_numbered(felter_next_number(), capacity, start, producer, consumer);
}

FELTER_GUARD int32_t felter_one_to_one_new(uint32_t capacity, felter_producer *producer, felter_consumer *consumer) {
    return felter_guarded_one_to_one_new_numbered(felter_next_number(), capacity, producer, consumer);
}

FELTER_GUARD int32_t felter_one_to_one_new_at(uint32_t capacity, uint64_t start, felter_producer *producer,
                                              felter_consumer *consumer) {
    return felter_guarded_one_to_one_new_at_numbered(felter_next_number(), capacity, start, producer, consumer);
}

FELTER_GUARD int32_t felter_board_new(uint32_t capacity, felter_transmitter *transmitter) {
    return felter_guarded_board_new_numbered(felter_next_number(), capacity, transmitter);
}

FELTER_GUARD int32_t felter_board_new_at(uint32_t capacity, uint64_t start, felter_transmitter *transmitter) {
    return felter_guarded_board_new_at_numbered(felter_next_number(), capacity, start, transmitter);
}

FELTER_GUARD int32_t felter_counters_new(uint32_t count, uint32_t reuse_ms, felter_counters *counters) {
    return felter_guarded_counters_new_numbered(felter_next_number(), count, reuse_ms, counters);
}

FELTER_GUARD int32_t felter_adder_new(felter_adder *adder) {
    return felter_guarded_adder_new_numbered(felter_next_number(), adder);
}

FELTER_GUARD int32_t felter_conductor_new(uint32_t capacity, uint32_t replies, uint32_t counters, uint32_t reuse_ms,
                                          felter_conductor *conductor) {
    return felter_guarded_conductor_new_numbered(felter_next_number(), capacity, replies, counters, reuse_ms,
                                                 conductor);
}

FELTER_GUARD int32_t felter_many_to_one_new_in(void *memory, size_t length, uint32_t capacity,
                                               felter_producer *producer, felter_consumer *consumer) {
    return felter_guarded_many_to_one_new_in_numbered(felter_next_number(), memory, length, capacity, producer,
                                                      consumer);
}

FELTER_GUARD int32_t felter_one_to_one_new_in(void *memory, size_t length, uint32_t capacity, felter_producer *producer,
                                              felter_consumer *consumer) {
    return felter_guarded_one_to_one_new_in_numbered(felter_next_number(), memory, length, capacity, producer,
                                                     consumer);
}

FELTER_GUARD int32_t felter_board_new_in(void *memory, size_t length, uint32_t capacity,
                                         felter_transmitter *transmitter) {
    return felter_guarded_board_new_in_numbered(felter_next_number(), memory, length, capacity, transmitter);
}

FELTER_GUARD int32_t felter_counters_new_in(void *memory, size_t length, uint32_t count, uint32_t reuse_ms,
                                            felter_counters *counters) {
    return felter_guarded_counters_new_in_numbered(felter_next_number(), memory, length, count, reuse_ms, counters);
}

FELTER_GUARD int32_t felter_standing(felter_producer *producer, felter_consumer *consumer, int32_t *found,
                                     uint64_t *head) {
    uint64_t first = 0, claimed = 0, last = 0, tail = 0;
    uint32_t count = 0;
    int32_t code, why;
    size_t used = 0;
    if (!found || !head) return felter_refuse("felter_standing", FELTER_NULL_POINTER);
    code = felter_guarded_positions(producer, &first, &claimed);
    if (code != FELTER_OK) return code;
    /* No message has room in this buffer, so a message stays. */
    why = felter_guarded_read_batch(consumer, 1, &count, &used, NULL, 0);
    if (why != FELTER_NO_MESSAGE && why != FELTER_SHORT_BUFFER) return why;
    code = felter_guarded_positions(producer, &last, &tail);
    if (code != FELTER_OK) return code;
    *head = last;
    if (why == FELTER_SHORT_BUFFER) *found = FELTER_FOUND_MESSAGE;
    else if (last == first && tail <= first) *found = FELTER_FOUND_NONE;
    else if (last == first && claimed > first) *found = FELTER_FOUND_CLAIM;
    else *found = FELTER_FOUND_CHANGE;
    return FELTER_OK;
}

#define felter_free felter_guarded_free
#define felter_version felter_guarded_version
#define felter_capacity felter_guarded_capacity
#define felter_many_to_one_new_numbered felter_guarded_many_to_one_new_numbered
#define felter_many_to_one_new_at_numbered felter_guarded_many_to_one_new_at_numbered
#define felter_one_to_one_new_numbered felter_guarded_one_to_one_new_numbered
#define felter_one_to_one_new_at_numbered felter_guarded_one_to_one_new_at_numbered
#define felter_write felter_guarded_write
#define felter_claim felter_guarded_claim
#define felter_put felter_guarded_put
#define felter_commit felter_guarded_commit
#define felter_abort felter_guarded_abort
#define felter_split felter_guarded_split
#define felter_join felter_guarded_join
#define felter_positions felter_guarded_positions
#define felter_next_id felter_guarded_next_id
#define felter_heartbeat felter_guarded_heartbeat
#define felter_set_heartbeat felter_guarded_set_heartbeat
#define felter_shares felter_guarded_shares
#define felter_read felter_guarded_read
#define felter_peek felter_guarded_peek
#define felter_take felter_guarded_take
#define felter_read_batch felter_guarded_read_batch
#define felter_write_batch felter_guarded_write_batch
#define felter_close felter_guarded_close
#define felter_finish felter_guarded_finish
#define felter_board_new_numbered felter_guarded_board_new_numbered
#define felter_board_new_at_numbered felter_guarded_board_new_at_numbered
#define felter_transmit felter_guarded_transmit
#define felter_subscribe felter_guarded_subscribe
#define felter_receive felter_guarded_receive
#define felter_lapped_count felter_guarded_lapped_count
#define felter_receiver_place felter_guarded_receiver_place
#define felter_receiver_lap felter_guarded_receiver_lap
#define felter_subscribe_raw felter_guarded_subscribe_raw
#define felter_receive_next felter_guarded_receive_next
#define felter_load_body felter_guarded_load_body
#define felter_validate felter_guarded_validate
#define felter_raw_lapped_count felter_guarded_raw_lapped_count
#define felter_raw_receiver_place felter_guarded_raw_receiver_place
#define felter_raw_receiver_lap felter_guarded_raw_receiver_lap
#define felter_board_join felter_guarded_board_join
#define felter_board_join_raw felter_guarded_board_join_raw
#define felter_board_close felter_guarded_board_close
#define felter_counters_new_numbered felter_guarded_counters_new_numbered
#define felter_counter_allocate felter_guarded_counter_allocate
#define felter_counter_allocate_owned felter_guarded_counter_allocate_owned
#define felter_counter_free felter_guarded_counter_free
#define felter_counter_set felter_guarded_counter_set
#define felter_counter_add felter_guarded_counter_add
#define felter_counter_increment felter_guarded_counter_increment
#define felter_counter_decrement felter_guarded_counter_decrement
#define felter_counter_get_and_set felter_guarded_counter_get_and_set
#define felter_counter_value felter_guarded_counter_value
#define felter_counter_type_id felter_guarded_counter_type_id
#define felter_counter_registration felter_guarded_counter_registration
#define felter_counter_owner felter_guarded_counter_owner
#define felter_counter_propose_max felter_guarded_counter_propose_max
#define felter_counter_compare_and_set felter_guarded_counter_compare_and_set
#define felter_counter_state felter_guarded_counter_state
#define felter_counter_deadline felter_guarded_counter_deadline
#define felter_counter_label felter_guarded_counter_label
#define felter_counter_key felter_guarded_counter_key
#define felter_counter_find felter_guarded_counter_find
#define felter_counters_count felter_guarded_counters_count
#define felter_counters_available felter_guarded_counters_available
#define felter_counters_close_owner felter_guarded_counters_close_owner
#define felter_counters_reader felter_guarded_counters_reader
#define felter_reader_value felter_guarded_reader_value
#define felter_counters_join felter_guarded_counters_join
#define felter_adder_new_numbered felter_guarded_adder_new_numbered
#define felter_adder_split felter_guarded_adder_split
#define felter_adder_join felter_guarded_adder_join
#define felter_adder_add felter_guarded_adder_add
#define felter_adder_value felter_guarded_adder_value
#define felter_adder_shares felter_guarded_adder_shares
#define felter_conductor_new_numbered felter_guarded_conductor_new_numbered
#define felter_conductor_client felter_guarded_conductor_client
#define felter_conductor_work felter_guarded_conductor_work
#define felter_conductor_set_heartbeat felter_guarded_conductor_set_heartbeat
#define felter_client_heartbeat felter_guarded_client_heartbeat
#define felter_conductor_find felter_guarded_conductor_find
#define felter_conductor_count felter_guarded_conductor_count
#define felter_conductor_value felter_guarded_conductor_value
#define felter_conductor_type_id felter_guarded_conductor_type_id
#define felter_conductor_registration felter_guarded_conductor_registration
#define felter_conductor_owner felter_guarded_conductor_owner
#define felter_conductor_state felter_guarded_conductor_state
#define felter_conductor_deadline felter_guarded_conductor_deadline
#define felter_conductor_label felter_guarded_conductor_label
#define felter_conductor_key felter_guarded_conductor_key
#define felter_conductor_subscribe felter_guarded_conductor_subscribe
#define felter_conductor_reader felter_guarded_conductor_reader
#define felter_conductor_join felter_guarded_conductor_join
#define felter_conductor_join_receiver felter_guarded_conductor_join_receiver
#define felter_conductor_join_reader felter_guarded_conductor_join_reader
#define felter_conductor_finish felter_guarded_conductor_finish
#define felter_send_allocate felter_guarded_send_allocate
#define felter_send_allocate_owned felter_guarded_send_allocate_owned
#define felter_send_free felter_guarded_send_free
#define felter_send_set felter_guarded_send_set
#define felter_send_close_owner felter_guarded_send_close_owner
#define felter_poll felter_guarded_poll
#define felter_recover_words felter_guarded_recover_words
#define felter_ring_memory felter_guarded_ring_memory
#define felter_board_memory felter_guarded_board_memory
#define felter_counters_memory felter_guarded_counters_memory
#define felter_many_to_one_new_in_numbered felter_guarded_many_to_one_new_in_numbered
#define felter_one_to_one_new_in_numbered felter_guarded_one_to_one_new_in_numbered
#define felter_board_new_in_numbered felter_guarded_board_new_in_numbered
#define felter_counters_new_in_numbered felter_guarded_counters_new_in_numbered
#define felter_unmap_at_end felter_guarded_unmap_at_end
#define felter_recover felter_guarded_recover
#define felter_finding felter_guarded_finding

#endif
