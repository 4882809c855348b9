/* Written by c/bindings from felter.h. To change this file, change felter.h and run c/bindings.
 *
 * The functions that are inline in felter.h are here functions of the libraries, for programs that load a library
 * without the header. This file is compiled into an object of its own, beside the proved archive. It is tested and not
 * proved. Its constructors draw numbers from the count of the header, since a program and the library share one
 * variable. */

#define felter_text felter_inline_text
#define felter_many_to_one_new felter_inline_many_to_one_new
#define felter_many_to_one_new_at felter_inline_many_to_one_new_at
#define felter_one_to_one_new felter_inline_one_to_one_new
#define felter_one_to_one_new_at felter_inline_one_to_one_new_at
#define felter_standing felter_inline_standing
#define felter_board_new felter_inline_board_new
#define felter_board_new_at felter_inline_board_new_at
#define felter_counters_new felter_inline_counters_new
#define felter_adder_new felter_inline_adder_new
#define felter_conductor_new felter_inline_conductor_new
#define felter_many_to_one_new_in felter_inline_many_to_one_new_in
#define felter_one_to_one_new_in felter_inline_one_to_one_new_in
#define felter_board_new_in felter_inline_board_new_in
#define felter_counters_new_in felter_inline_counters_new_in
#include "felter.h"
#undef felter_text
#undef felter_many_to_one_new
#undef felter_many_to_one_new_at
#undef felter_one_to_one_new
#undef felter_one_to_one_new_at
#undef felter_standing
#undef felter_board_new
#undef felter_board_new_at
#undef felter_counters_new
#undef felter_adder_new
#undef felter_conductor_new
#undef felter_many_to_one_new_in
#undef felter_one_to_one_new_in
#undef felter_board_new_in
#undef felter_counters_new_in

const char *felter_text(int32_t code);
const char *felter_text(int32_t code) {
    return felter_inline_text(code);
}

int32_t felter_many_to_one_new(uint32_t capacity, felter_producer *producer, felter_consumer *consumer);
int32_t felter_many_to_one_new(uint32_t capacity, felter_producer *producer, felter_consumer *consumer) {
    return felter_inline_many_to_one_new(capacity, producer, consumer);
}

int32_t felter_many_to_one_new_at(uint32_t capacity, uint64_t start, felter_producer *producer,
                                  felter_consumer *consumer);
int32_t felter_many_to_one_new_at(uint32_t capacity, uint64_t start, felter_producer *producer,
                                  felter_consumer *consumer) {
    return felter_inline_many_to_one_new_at(capacity, start, producer, consumer);
}

int32_t felter_one_to_one_new(uint32_t capacity, felter_producer *producer, felter_consumer *consumer);
int32_t felter_one_to_one_new(uint32_t capacity, felter_producer *producer, felter_consumer *consumer) {
    return felter_inline_one_to_one_new(capacity, producer, consumer);
}

int32_t felter_one_to_one_new_at(uint32_t capacity, uint64_t start, felter_producer *producer,
                                 felter_consumer *consumer);
int32_t felter_one_to_one_new_at(uint32_t capacity, uint64_t start, felter_producer *producer,
                                 felter_consumer *consumer) {
    return felter_inline_one_to_one_new_at(capacity, start, producer, consumer);
}

int32_t felter_standing(felter_producer *producer, felter_consumer *consumer, int32_t *found, uint64_t *head);
int32_t felter_standing(felter_producer *producer, felter_consumer *consumer, int32_t *found, uint64_t *head) {
    return felter_inline_standing(producer, consumer, found, head);
}

int32_t felter_board_new(uint32_t capacity, felter_transmitter *transmitter);
int32_t felter_board_new(uint32_t capacity, felter_transmitter *transmitter) {
    return felter_inline_board_new(capacity, transmitter);
}

int32_t felter_board_new_at(uint32_t capacity, uint64_t start, felter_transmitter *transmitter);
int32_t felter_board_new_at(uint32_t capacity, uint64_t start, felter_transmitter *transmitter) {
    return felter_inline_board_new_at(capacity, start, transmitter);
}

int32_t felter_counters_new(uint32_t count, uint32_t reuse_ms, felter_counters *counters);
int32_t felter_counters_new(uint32_t count, uint32_t reuse_ms, felter_counters *counters) {
    return felter_inline_counters_new(count, reuse_ms, counters);
}

int32_t felter_adder_new(felter_adder *adder);
int32_t felter_adder_new(felter_adder *adder) {
    return felter_inline_adder_new(adder);
}

int32_t felter_conductor_new(uint32_t capacity, uint32_t replies, uint32_t counters, uint32_t reuse_ms,
                             felter_conductor *conductor);
int32_t felter_conductor_new(uint32_t capacity, uint32_t replies, uint32_t counters, uint32_t reuse_ms,
                             felter_conductor *conductor) {
    return felter_inline_conductor_new(capacity, replies, counters, reuse_ms, conductor);
}

int32_t felter_many_to_one_new_in(void *memory, size_t length, uint32_t capacity, felter_producer *producer,
                                  felter_consumer *consumer);
int32_t felter_many_to_one_new_in(void *memory, size_t length, uint32_t capacity, felter_producer *producer,
                                  felter_consumer *consumer) {
    return felter_inline_many_to_one_new_in(memory, length, capacity, producer, consumer);
}

int32_t felter_one_to_one_new_in(void *memory, size_t length, uint32_t capacity, felter_producer *producer,
                                 felter_consumer *consumer);
int32_t felter_one_to_one_new_in(void *memory, size_t length, uint32_t capacity, felter_producer *producer,
                                 felter_consumer *consumer) {
    return felter_inline_one_to_one_new_in(memory, length, capacity, producer, consumer);
}

int32_t felter_board_new_in(void *memory, size_t length, uint32_t capacity, felter_transmitter *transmitter);
int32_t felter_board_new_in(void *memory, size_t length, uint32_t capacity, felter_transmitter *transmitter) {
    return felter_inline_board_new_in(memory, length, capacity, transmitter);
}

int32_t felter_counters_new_in(void *memory, size_t length, uint32_t count, uint32_t reuse_ms,
                               felter_counters *counters);
int32_t felter_counters_new_in(void *memory, size_t length, uint32_t count, uint32_t reuse_ms,
                               felter_counters *counters) {
    return felter_inline_counters_new_in(memory, length, count, reuse_ms, counters);
}
