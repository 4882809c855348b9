/* Structures in memory of the caller: where their words and bodies lie, for each capacity; codes in their order; memory
 * that stays as it was after a refusal, also if any one request for memory is refused; threads that make structures in
 * both kinds of memory at the same time.
 * Link with -Wl,--wrap=malloc,--wrap=calloc,--wrap=realloc,--wrap=aligned_alloc,--wrap=posix_memalign,--wrap=free. */
#include "check.h"

#include <pthread.h>

void *__real_malloc(size_t size);
void *__real_calloc(size_t count, size_t size);
void *__real_realloc(void *at, size_t size);
void *__real_aligned_alloc(size_t align, size_t size);
int __real_posix_memalign(void **at, size_t align, size_t size);
void __real_free(void *at);

static __thread long left = -1; /* this many requests are granted, and then one is refused; -1: all are granted */
static long live;               /* pieces of memory that were not given back */
static int yields;              /* whether another thread runs at each request */
static unsigned char *watched;  /* memory in which a structure is made, or NULL */
static int unmade;              /* requests at which this memory was no image */

static int refuses(void) {
    if (yields) sched_yield();
    if (watched) unmade += memcmp(watched, "FELTERIM", 8) != 0;
    return left >= 0 && left-- == 0;
}

static void *counted(void *at) {
    if (at) __atomic_add_fetch(&live, 1, __ATOMIC_RELAXED);
    return at;
}

void *__wrap_malloc(size_t size) { return refuses() ? NULL : counted(__real_malloc(size)); }
void *__wrap_calloc(size_t count, size_t size) { return refuses() ? NULL : counted(__real_calloc(count, size)); }
void *__wrap_aligned_alloc(size_t align, size_t size) { return counted(__real_aligned_alloc(align, size)); }
int __wrap_posix_memalign(void **at, size_t align, size_t size) { return __real_posix_memalign(at, align, size); }
void *__wrap_realloc(void *from, size_t size) {
    void *at = refuses() ? NULL : __real_realloc(from, size);
    return from ? at : counted(at);
}
void __wrap_free(void *at) {
    if (at) __atomic_sub_fetch(&live, 1, __ATOMIC_RELAXED);
    __real_free(at);
}

/* Memory with a guard before it and after it. Its bytes are no zeros before it is used. */
#define GUARD 256
#define FILLED 0xa7

static unsigned char *memory;
static size_t needed;

static void begin(size_t length) {
    needed = length;
    memory = (unsigned char *)__real_aligned_alloc(64, (length + 2 * GUARD + 63) / 64 * 64) + GUARD;
    memset(memory - GUARD, FILLED, length + 2 * GUARD);
}

static int is_filled(const unsigned char *at, size_t length) {
    for (size_t k = 0; k < length; k++)
        if (at[k] != FILLED) return 0;
    return 1;
}

static void end(void) {
    CHECK(is_filled(memory - GUARD, GUARD) && is_filled(memory + needed, GUARD));
    __real_free(memory - GUARD);
    memory = NULL;
}

static uint64_t word(size_t at) {
    uint64_t value;
    memcpy(&value, memory + at, 8);
    return value;
}

/* The header of an image, as docs/FORMATS.md has it. */
static void expect_header(uint64_t kind, uint64_t capacity, uint64_t words, uint64_t bodies_at, uint64_t bodies) {
    CHECK(memcmp(memory, "FELTERIM", 8) == 0);
    CHECK(word(8) == 2 && word(16) == kind && word(24) == capacity && word(32) == 128 && word(40) == words);
    CHECK(word(48) == bodies_at && word(56) == bodies);
    for (size_t at = 64; at < 128; at += 8) CHECK(word(at) == 0);
}

/* The header of a record: its length and its type id. */
static uint64_t header_word(int32_t length, int32_t type_id) {
    return (uint64_t)(uint32_t)type_id << 32 | (uint32_t)length;
}

static void ring(int is_one, uint32_t capacity) {
    felter_producer producer = FELTER_EMPTY;
    felter_consumer consumer = FELTER_EMPTY;
    uint8_t buffer[16];
    int32_t type_id;
    uint64_t claim;
    size_t length = 0, len;
    size_t trailer = 128 + capacity, bodies = 128 + capacity + 768;
    EXPECT(FELTER_OK, felter_ring_memory(capacity, &length));
    CHECK(length == 128 + 2 * (size_t)capacity + 768);
    begin(length);
    EXPECT(FELTER_OK, is_one ? felter_one_to_one_new_in(memory, length, capacity, &producer, &consumer)
                             : felter_many_to_one_new_in(memory, length, capacity, &producer, &consumer));
    expect_header(is_one ? 1 : 2, capacity, capacity / 8 + 96, bodies, capacity / 8);
    for (size_t at = 128; at < length; at += 8) CHECK(word(at) == 0);
    EXPECT(FELTER_OK, felter_write(&producer, 7, "first", 5));
    EXPECT(FELTER_OK, felter_claim(&producer, 9, 4, &claim));
    EXPECT(FELTER_OK, felter_put(&producer, claim, 0, "half", 4));
    EXPECT(FELTER_OK, felter_set_heartbeat(&consumer, 1234));
    /* (a mark is the end of a record and its kind: 0 if it is committed, 2 if it is open, and 3 if it is aborted) */
    CHECK(word(128) == 16 && word(128 + 16) == 32 + 2);
    CHECK(word(bodies) == header_word(8 + 5, 7) && memcmp(memory + bodies + 8, "first\0\0", 8) == 0);
    CHECK(word(bodies + 16) == header_word(8 + 4, 9) && memcmp(memory + bodies + 24, "half\0\0\0", 8) == 0);
    CHECK(word(trailer + 128) == 32 && word(trailer + 384) == 0 && word(trailer + 640) == 1234);
    EXPECT(FELTER_OK, felter_read(&consumer, &type_id, &len, buffer, sizeof buffer));
    CHECK(type_id == 7 && len == 5 && memcmp(buffer, "first", 5) == 0);
    /* A read clears no word. */
    CHECK(word(128) == 16 && word(trailer + 384) == 16);
    /* A producer that is freed aborts its claims. A ring that is freed leaves the rest in the memory. */
    felter_free(&producer.handle);
    CHECK(word(128 + 16) == 32 + 3 && word(bodies + 16) == header_word(8 + 4, 9));
    felter_free(&consumer.handle);
    CHECK(memcmp(memory, "FELTERIM", 8) == 0 && word(128 + 16) == 32 + 3);
    CHECK(word(trailer + 128) == 32 && word(trailer + 384) == 16);
    end();
}

static void board(uint32_t capacity) {
    felter_transmitter transmitter = FELTER_EMPTY;
    felter_receiver receiver = FELTER_EMPTY;
    size_t length = 0;
    size_t trailer = 128 + capacity;
    EXPECT(FELTER_OK, felter_board_memory(capacity, &length));
    CHECK(length == 128 + (size_t)capacity + 128);
    begin(length);
    EXPECT(FELTER_OK, felter_board_new_in(memory, length, capacity, &transmitter));
    expect_header(3, capacity, capacity / 8 + 16, 0, 0);
    for (size_t at = 128; at < length; at += 8) CHECK(word(at) == 0);
    EXPECT(FELTER_OK, felter_subscribe(&transmitter, &receiver));
    EXPECT(FELTER_OK, felter_transmit(&transmitter, 7, "first", 5));
    EXPECT(FELTER_OK, felter_transmit(&transmitter, 8, "second", 6));
    CHECK(word(128) == header_word(8 + 5, 7) && memcmp(memory + 136, "first\0\0", 8) == 0);
    CHECK(word(144) == header_word(8 + 6, 8) && memcmp(memory + 152, "second\0", 8) == 0);
    CHECK(word(trailer) == 32 && word(trailer + 8) == 32 && word(trailer + 16) == 16);
    felter_free(&transmitter.handle);
    felter_free(&receiver.handle);
    CHECK(memcmp(memory, "FELTERIM", 8) == 0 && word(trailer + 8) == 32);
    end();
}

static void counters(uint32_t count) {
    felter_counters all = FELTER_EMPTY;
    felter_reader reader = FELTER_EMPTY;
    uint32_t id = 0;
    int64_t value = 0;
    size_t length = 0, metadata = 128 + (24 * (size_t)count + 63) / 64 * 64;
    EXPECT(FELTER_OK, felter_counters_memory(count, &length));
    CHECK(length == metadata + 512 * (size_t)count);
    begin(length);
    EXPECT(FELTER_OK, felter_counters_new_in(memory, length, count, 0, &all));
    expect_header(4, count, 3 * (uint64_t)count, metadata, 64 * (uint64_t)count);
    for (size_t k = 0; k < 3 * (size_t)count; k++) CHECK(word(128 + 8 * k) == 0);
    for (size_t k = 0; k < 64 * (size_t)count; k++) CHECK(word(metadata + 8 * k) == 0);
    EXPECT(FELTER_OK, felter_counters_reader(&all, &reader));
    for (uint32_t k = 0; k < count; k++)
        EXPECT(FELTER_OK, felter_counter_allocate_owned(&all, 0, 3, BYTES("key"), BYTES("label"), 77, 5, &id));
    CHECK(id == count - 1);
    EXPECT(FELTER_OK, felter_counter_set(&all, id, -12));
    EXPECT(FELTER_OK, felter_reader_value(&reader, id, &value));
    size_t record = metadata + 512 * (size_t)id, its = 128 + 24 * (size_t)id;
    CHECK(value == -12 && word(its) == (uint64_t)-12 && word(its + 8) == 77 && word(its + 16) == 5);
    CHECK(word(record) == header_word(1, 3) && word(record + 8) == INT64_MAX);
    CHECK(memcmp(memory + record + 16, "key", 4) == 0 && memcmp(memory + record + 128, "\5\0\0\0label", 10) == 0);
    felter_free(&all.handle);
    felter_free(&reader.handle);
    CHECK(word(its) == (uint64_t)-12 && memcmp(memory, "FELTERIM", 8) == 0);
    end();
}

/* Codes, in their order. No refused call changes the memory. */
static void refusals(void) {
    felter_producer producer = FELTER_EMPTY, other = FELTER_EMPTY;
    felter_consumer consumer = FELTER_EMPTY, to_other = FELTER_EMPTY;
    felter_transmitter transmitter = FELTER_EMPTY;
    felter_counters all = FELTER_EMPTY;
    size_t length = 0, untouched = 5;
    EXPECT(FELTER_BAD_CAPACITY, felter_ring_memory(100, &untouched));
    EXPECT(FELTER_BAD_CAPACITY, felter_ring_memory(1 << 25, &untouched));
    EXPECT(FELTER_BAD_CAPACITY, felter_board_memory(128, &untouched));
    EXPECT(FELTER_BAD_COUNT, felter_counters_memory(0, &untouched));
    EXPECT(FELTER_BAD_COUNT, felter_counters_memory(4097, &untouched));
    EXPECT(FELTER_NULL_POINTER, felter_counters_memory(1, NULL));
    CHECK(untouched == 5);
    EXPECT(FELTER_OK, felter_ring_memory(256, &length));
    begin(length + 64);
    EXPECT(FELTER_OK, felter_many_to_one_new(128, &other, &to_other));
    EXPECT(FELTER_NULL_POINTER, felter_many_to_one_new_in(NULL, 0, 1, NULL, NULL));
    EXPECT(FELTER_NO_HANDLE, felter_many_to_one_new_in(memory + 1, 0, 1, NULL, &to_other));
    EXPECT(FELTER_NO_HANDLE, felter_one_to_one_new_in(memory + 1, 0, 1, &other, NULL));
    EXPECT(FELTER_HANDLE_IN_USE, felter_many_to_one_new_in(memory + 1, 0, 1, &producer, &to_other));
    EXPECT(FELTER_HANDLE_IN_USE, felter_one_to_one_new_in(memory + 1, 0, 1, &other, &consumer));
    EXPECT(FELTER_BAD_CAPACITY, felter_many_to_one_new_in(memory + 1, 0, 64, &producer, &consumer));
    EXPECT(FELTER_BAD_CAPACITY, felter_board_new_in(memory + 1, 0, 128, &transmitter));
    EXPECT(FELTER_BAD_COUNT, felter_counters_new_in(memory + 1, 0, 4097, 0, &all));
    for (size_t at = 1; at < 64; at++)
        EXPECT(FELTER_BAD_MEMORY, felter_many_to_one_new_in(memory + at, length, 256, &producer, &consumer));
    EXPECT(FELTER_BAD_MEMORY, felter_many_to_one_new_in(memory, length - 1, 256, &producer, &consumer));
    EXPECT(FELTER_BAD_MEMORY, felter_one_to_one_new_in(memory, 0, 256, &producer, &consumer));
    EXPECT(FELTER_BAD_MEMORY, felter_board_new_in(memory, 511, 256, &transmitter));
    EXPECT(FELTER_BAD_MEMORY, felter_counters_new_in(memory, 191 + 512, 1, 0, &all));
    EXPECT(FELTER_BAD_MEMORY, felter_unmap_at_end(memory, length));
    EXPECT(FELTER_NULL_POINTER, felter_unmap_at_end(NULL, length));
    CHECK(!producer.handle.at && !consumer.handle.at && !transmitter.handle.at && !all.handle.at);
    CHECK(is_filled(memory, length + 64));
    /* The memory is in use until the last handle is freed. Other memory beside it is not. */
    EXPECT(FELTER_OK, felter_many_to_one_new_in(memory + 64, length, 256, &producer, &consumer));
    EXPECT(FELTER_BAD_MEMORY, felter_unmap_at_end(memory + 64, 0));
    EXPECT(FELTER_BAD_MEMORY, felter_board_new_in(memory + 64, length, 256, &transmitter));
    felter_free(&producer.handle);
    EXPECT(FELTER_BAD_MEMORY, felter_board_new_in(memory + 64, length, 256, &transmitter));
    felter_free(&consumer.handle);
    /* It is no image while a call makes another structure in it: at the requests of the archive, at the least. */
    watched = memory + 64;
    EXPECT(FELTER_OK, felter_board_new_in(memory + 64, length, 256, &transmitter));
    watched = NULL;
    CHECK(unmade >= 5);
    felter_free(&transmitter.handle);
    felter_free(&other.handle);
    felter_free(&to_other.handle);
    memory += 64;
    needed -= 64;
    CHECK(is_filled(memory + needed, GUARD));
    __real_free(memory - 64 - GUARD);
}

/* Makes a structure of each kind. Returns the code, and frees what was made. */
static int32_t make_each(int kind, int is_in) {
    felter_producer producer = FELTER_EMPTY;
    felter_consumer consumer = FELTER_EMPTY;
    felter_transmitter transmitter = FELTER_EMPTY;
    felter_counters all = FELTER_EMPTY;
    int32_t code;
    switch (kind) {
    case 0:
        code = is_in ? felter_many_to_one_new_in(memory, needed, 1024, &producer, &consumer)
                     : felter_many_to_one_new(1024, &producer, &consumer);
        break;
    case 1:
        code = is_in ? felter_one_to_one_new_in(memory, needed, 512, &producer, &consumer)
                     : felter_one_to_one_new(512, &producer, &consumer);
        break;
    case 2:
        code = is_in ? felter_board_new_in(memory, needed, 512, &transmitter) : felter_board_new(512, &transmitter);
        break;
    default:
        code = is_in ? felter_counters_new_in(memory, needed, 4, 0, &all) : felter_counters_new(4, 0, &all);
    }
    left = -1;
    CHECK((code == FELTER_OK) == (producer.handle.at || transmitter.handle.at || all.handle.at));
    CHECK((producer.handle.at != NULL) == (consumer.handle.at != NULL));
    felter_free(&producer.handle);
    felter_free(&consumer.handle);
    felter_free(&transmitter.handle);
    felter_free(&all.handle);
    return code;
}

/* Each request of a call is refused in turn. */
static void refused_memory(void) {
    int refused = 0;
    begin(4096);
    for (int kind = 0; kind < 4; kind++) {
        long before = live;
        int32_t code = FELTER_OUT_OF_MEMORY;
        memset(memory, FILLED, needed);
        for (long granted = 0; code != FELTER_OK; granted++) {
            left = granted;
            code = make_each(kind, 1);
            CHECK(code == FELTER_OK || code == FELTER_OUT_OF_MEMORY);
            CHECK(code == FELTER_OK || is_filled(memory, needed));
            CHECK(live == before);
            refused += code != FELTER_OK;
        }
        CHECK(memcmp(memory, "FELTERIM", 8) == 0);
    }
    CHECK(refused >= 4 * 6);
    end();
}

/* Two threads make structures in memory of the caller, and two make them in memory from malloc. */
#define ROUNDS 300

static void *make_many_in(void *of_thread) {
    unsigned char *its = of_thread;
    felter_producer producer = FELTER_EMPTY;
    felter_consumer consumer = FELTER_EMPTY;
    for (int k = 0; k < ROUNDS; k++) {
        const unsigned char *slots = its + 128 + 1024 + 768;
        uint64_t mark = 0, header = 0;
        EXPECT(FELTER_OK, felter_many_to_one_new_in(its, 4096, 1024, &producer, &consumer));
        EXPECT(FELTER_OK, felter_write(&producer, 7, &k, sizeof k));
        memcpy(&mark, its + 128, 8);
        memcpy(&header, slots, 8);
        CHECK(mark == 16 && header == header_word(8 + 4, 7) && memcmp(slots + 8, &k, sizeof k) == 0);
        felter_free(&consumer.handle);
        felter_free(&producer.handle);
    }
    return NULL;
}

static void *make_many(void *unused) {
    for (int k = 0; k < ROUNDS; k++) EXPECT(FELTER_OK, make_each(k % 4, 0));
    return unused;
}

static void threads(void) {
    pthread_t its[4];
    unsigned char *memories = __real_aligned_alloc(64, 2 * 4096);
    yields = 1;
    for (int k = 0; k < 4; k++)
        CHECK(pthread_create(&its[k], NULL, k < 2 ? make_many_in : make_many, k < 2 ? memories + 4096 * k : NULL) == 0);
    for (int k = 0; k < 4; k++) CHECK(pthread_join(its[k], NULL) == 0);
    yields = 0;
    __real_free(memories);
}

/* An argument is the greatest capacity, since some runs are slow. */
int main(int argc, char **words) {
    uint32_t most = argc > 1 ? (uint32_t)atoi(words[1]) : 1 << 24;
    int made = 0;
    long before = live;
    for (uint32_t capacity = 128; capacity <= most; capacity *= 2, made += 2) {
        ring(0, capacity);
        ring(1, capacity);
    }
    for (uint32_t capacity = 256; capacity <= most; capacity *= 2, made++) board(capacity);
    for (uint32_t count = 1; count <= 200 && count <= most / 64; count++, made++) counters(count);
    for (uint32_t count = 256; count <= 4096 && count <= most / 64; count *= 2, made++) counters(count);
    counters(4095);
    refusals();
    CHECK(live == before);
    refused_memory();
    CHECK(live == before);
    threads();
    printf("%d structures of different sizes in memory of the caller\n", made + 1);
    return 0;
}
