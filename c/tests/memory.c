/* Each request for memory is refused in turn: a call then answers FELTER_OUT_OF_MEMORY, leaves its handles as they
 * were, does what it should when it is called again, and nothing is leaked.
 * Link with -Wl,--wrap=malloc,--wrap=calloc,--wrap=realloc,--wrap=aligned_alloc,--wrap=posix_memalign,--wrap=free. */
#include "check.h"

#include <errno.h>

void *__real_malloc(size_t size);
void *__real_calloc(size_t count, size_t size);
void *__real_realloc(void *at, size_t size);
void *__real_aligned_alloc(size_t align, size_t size);
int __real_posix_memalign(void **at, size_t align, size_t size);
void __real_free(void *at);

static long left = -1;  /* this many requests are granted, and then one is refused; -1: all are granted */
static long live;       /* pieces of memory that were not given back */
static int refused;

static int refuses(void) {
    if (left < 0) return 0;
    refused = left == 0;
    left--;
    return refused;
}

void *__wrap_malloc(size_t size) {
    void *at = refuses() ? NULL : __real_malloc(size);
    live += at != NULL;
    return at;
}

void *__wrap_calloc(size_t count, size_t size) {
    void *at = refuses() ? NULL : __real_calloc(count, size);
    live += at != NULL;
    return at;
}

void *__wrap_realloc(void *from, size_t size) {
    void *at = refuses() ? NULL : __real_realloc(from, size);
    live += from == NULL && at != NULL;
    return at;
}

void *__wrap_aligned_alloc(size_t align, size_t size) {
    void *at = refuses() ? NULL : __real_aligned_alloc(align, size);
    live += at != NULL;
    return at;
}

int __wrap_posix_memalign(void **at, size_t align, size_t size) {
    int code = refuses() ? ENOMEM : __real_posix_memalign(at, align, size);
    live += code == 0;
    return code;
}

void __wrap_free(void *at) {
    live -= at != NULL;
    __real_free(at);
}

/* Everything that takes memory works on these. */
static struct {
    felter_producer producer, other, single;
    felter_consumer consumer, of_single;
    felter_transmitter transmitter;
    felter_receiver receiver;
    felter_raw_receiver raw;
    felter_counters counters;
    felter_reader reader;
    felter_adder adder, other_adder;
    felter_conductor conductor;
    felter_client client, other_client;
    felter_receiver replies;
    felter_reader values;
    uint64_t claims[8];
    size_t claimed;
} all;

static int32_t make_many(void) { return felter_many_to_one_new(128, &all.producer, &all.consumer); }
static int32_t make_one(void) { return felter_one_to_one_new(128, &all.single, &all.of_single); }
static int32_t split(void) { return felter_split(&all.producer, &all.other); }
static int32_t join(void) { return felter_join(&all.producer, &all.other); }
/* Claims a record of 16 bytes more, and nothing if memory runs out. */
static int32_t claim(felter_producer *producer) {
    uint64_t head = 0, before = 0, after = 0;
    EXPECT(FELTER_OK, felter_positions(producer, &head, &before));
    int32_t code = felter_claim(producer, 3, 1, &all.claims[all.claimed]);
    EXPECT(FELTER_OK, felter_positions(producer, &head, &after));
    CHECK(after == before + (code == FELTER_OK ? 16 : 0));
    all.claimed += code == FELTER_OK;
    return code;
}
static int32_t claim_one(void) { return claim(&all.producer); }
static int32_t claim_other(void) { return claim(&all.other); }
static int32_t abort_all(void) {
    while (all.claimed) EXPECT(FELTER_OK, felter_abort(&all.producer, all.claims[--all.claimed]));
    return FELTER_OK;
}
static int32_t write_one(void) { return felter_write(&all.producer, 1, BYTES("kept")); }
static int32_t read_one(void) {
    uint8_t buffer[4];
    int32_t type_id = 0;
    size_t len = 0;
    int32_t code = felter_read(&all.consumer, &type_id, &len, buffer, 4);
    CHECK(code != FELTER_OK || (type_id == 1 && len == 4 && memcmp(buffer, "kept", 4) == 0));
    return code;
}
static int32_t make_counters(void) { return felter_counters_new(4, 0, &all.counters); }
static int32_t allocate(void) {
    uint32_t id = 9;
    return felter_counter_allocate(&all.counters, 0, 1, BYTES("k"), BYTES("label"), 0, &id);
}
static int32_t add_one(void) {
    int64_t before;
    return felter_counter_add(&all.counters, 0, 1, &before);
}
static int32_t see_one(void) {
    int64_t value = 0;
    int32_t code = felter_counter_value(&all.counters, 0, &value);
    CHECK(code != FELTER_OK || value == 1);
    return code;
}

static int32_t lend(void) { return felter_counters_reader(&all.counters, &all.reader); }
static int32_t load(void) {
    int64_t value = 0;
    int32_t code = felter_reader_value(&all.reader, 0, &value);
    CHECK(code != FELTER_OK || value == 1);
    return code;
}
static int32_t make_board(void) { return felter_board_new(256, &all.transmitter); }
static int32_t subscribe(void) { return felter_subscribe(&all.transmitter, &all.receiver); }
static int32_t subscribe_raw(void) { return felter_subscribe_raw(&all.transmitter, &all.raw); }
static int32_t look(void) {
    int32_t type_id = 0;
    size_t len = 0;
    uint64_t lapped = 0;
    int32_t code = felter_receive_next(&all.raw, &type_id, &len, &lapped);
    CHECK(code != FELTER_OK || (type_id == 2 && len == 4));
    return code;
}
static int32_t transmit(void) { return felter_transmit(&all.transmitter, 2, BYTES("seen")); }
static int32_t receive(void) {
    uint8_t buffer[32];
    int32_t type_id = 0;
    size_t len = 0;
    uint64_t lapped = 0;
    int32_t code = felter_receive(&all.receiver, &type_id, &len, &lapped, buffer, sizeof buffer);
    CHECK(code != FELTER_OK || (type_id == 2 && len == 4 && memcmp(buffer, "seen", 4) == 0));
    return code;
}

/* What ends: the ring with a message that was not read, and the board and the counters without what they gave out. */
static int32_t claim_single(void) {
    uint64_t number = 0;
    return felter_claim(&all.single, 3, 1, &number);
}
static int32_t close_ring(void) { return felter_close(&all.consumer, &all.producer); }
static int32_t finish_ring(void) {
    uint64_t unread = 77;
    int32_t code = felter_finish(&all.consumer, &unread);
    CHECK(unread == (code == FELTER_OK ? 1 : 77));
    return code;
}
static int32_t give_receiver_back(void) { return felter_board_join(&all.transmitter, &all.receiver); }
static int32_t give_raw_back(void) { return felter_board_join_raw(&all.transmitter, &all.raw); }
static int32_t close_board(void) {
    uint64_t tail = 77;
    int32_t code = felter_board_close(&all.transmitter, &tail);
    CHECK(tail == (code == FELTER_OK ? 16 : 77));
    return code;
}
static int32_t give_reader_back(void) { return felter_counters_join(&all.counters, &all.reader); }

static int32_t make_adder(void) { return felter_adder_new(&all.adder); }
static int32_t split_adder(void) { return felter_adder_split(&all.adder, &all.other_adder); }
/* Adds by the other adder, and sees that no share was lost. */
static int32_t add_by_other(void) {
    int64_t before = 77, value = 77;
    uint32_t shares = 77;
    int32_t code = felter_adder_add(&all.other_adder, 3, &before);
    EXPECT(FELTER_OK, felter_adder_value(&all.adder, &value));
    EXPECT(FELTER_OK, felter_adder_shares(&all.adder, &shares));
    CHECK(before == 0 && value == 3 && shares == 65535);
    return code;
}
static int32_t give_adder_back(void) { return felter_adder_join(&all.adder, &all.other_adder); }

static int32_t make_conductor(void) { return felter_conductor_new(256, 256, 2, 0, &all.conductor); }
static int32_t hire(void) { return felter_conductor_client(&all.conductor, &all.client); }
static int32_t hire_other(void) { return felter_conductor_client(&all.conductor, &all.other_client); }
static int32_t listen(void) { return felter_conductor_subscribe(&all.conductor, &all.replies); }
static int32_t lend_values(void) { return felter_conductor_reader(&all.conductor, &all.values); }
/* Allocates a counter by a command, and receives its reply, for which no memory is taken. */
static int32_t command(void) {
    uint64_t id = 99, took = 0, lapped = 0;
    int32_t why = 77, kind = 0;
    int64_t number = -1;
    EXPECT(FELTER_OK, felter_send_allocate(&all.client, 1, BYTES("k"), BYTES("l"), &id));
    CHECK(id == 0);
    EXPECT(FELTER_OK, felter_conductor_work(&all.conductor, 0, 9, &took, &why));
    CHECK(took == 1);
    int32_t code = felter_poll(&all.client, id, &kind, &number, &lapped);
    CHECK(kind == FELTER_REPLY_ALLOCATED && number == 0);
    return code;
}
static int32_t give_back(void) { return felter_conductor_join(&all.conductor, &all.other_client); }
static int32_t give_replies_back(void) { return felter_conductor_join_receiver(&all.conductor, &all.replies); }
static int32_t give_values_back(void) { return felter_conductor_join_reader(&all.conductor, &all.values); }
/* A finish that is refused, since a client is out. */
static int32_t finish_early(void) {
    uint64_t received = 77, left = 77;
    int32_t code = felter_conductor_finish(&all.conductor, &received, &left);
    CHECK(received == 77 && left == 77);
    return code == FELTER_PRODUCERS_OUT ? FELTER_OK : code;
}
static int32_t finish(void) {
    uint64_t received = 77, left = 77;
    EXPECT(FELTER_OK, felter_conductor_join(&all.conductor, &all.client));
    int32_t code = felter_conductor_finish(&all.conductor, &received, &left);
    CHECK(received == 1 && left == 0);
    return code;
}

/* Of two rings, two boards and two conductors one is finished, and the other is freed, after what it gave out. */
static int32_t (*const steps[])(void) = {
    make_many,      make_one,    split,     claim_one,  claim_other,       claim_one,        claim_one,
    claim_one,      join,        abort_all, write_one,  read_one,          claim_one,        make_board,
    subscribe,      subscribe_raw, transmit, receive,   look,              make_counters,    allocate,
    add_one,        see_one,     lend,      load,       make_conductor,    hire,             hire_other,
    listen,         lend_values, command,   give_back,  give_replies_back, give_values_back, finish_early,
    finish,         make_conductor, hire,   hire_other, listen,            lend_values,      command,
    abort_all,      write_one,   close_ring, finish_ring, claim_single,    give_receiver_back, give_raw_back,
    close_board,    make_board,  subscribe, subscribe_raw, give_reader_back, lend,             make_adder,
    split_adder,    add_by_other, give_adder_back, split_adder,
};

#define STEPS (sizeof steps / sizeof *steps)

/* The calls of conductors and adders that take memory, each of which has to be refused some. */
static int32_t (*const taking[])(void) = {make_conductor, hire,       hire_other, listen,
                                          lend_values,    make_adder, split_adder};

/* The calls that take back and end, which take no memory, so that they can be made if there is none. */
static int32_t (*const giving[])(void) = {give_back,          give_replies_back, give_values_back, finish,
                                          close_ring,         finish_ring,       close_board,      give_reader_back,
                                          give_receiver_back, give_raw_back,     give_adder_back};

static int refusals_in(int32_t (*step)(void), const int *refusals_of) {
    int refusals = 0;
    for (size_t k = 0; k < STEPS; k++) refusals += steps[k] == step ? refusals_of[k] : 0;
    return refusals;
}

static void check_taking(const int *refusals_of) {
    for (size_t i = 0; i < sizeof taking / sizeof *taking; i++) CHECK(refusals_in(taking[i], refusals_of) > 0);
    for (size_t i = 0; i < sizeof giving / sizeof *giving; i++) CHECK(refusals_in(giving[i], refusals_of) == 0);
}

static void free_all(void) {
    felter_handle *handles[] = {&all.producer.handle,  &all.other.handle,     &all.single.handle,
                                &all.consumer.handle,  &all.of_single.handle, &all.transmitter.handle,
                                &all.receiver.handle,  &all.raw.handle,       &all.counters.handle,
                                &all.reader.handle,    &all.client.handle,    &all.other_client.handle,
                                &all.values.handle,    &all.replies.handle,   &all.conductor.handle,
                                &all.adder.handle,     &all.other_adder.handle};
    for (size_t i = 0; i < sizeof handles / sizeof *handles; i++) felter_free(handles[i]);
    all.claimed = 0;
}

int main(void) {
    int refusals = 0, refusals_of[STEPS] = {0};
    setvbuf(stdout, NULL, _IONBF, 0);
    for (long at = 0; at < 1000; at++) {
        long before = live;
        left = at;
        refused = 0;
        int met = 0;
        for (size_t i = 0; i < STEPS; i++) {
            int32_t code = steps[i]();
            if (refused) {
                refused = 0;
                met = 1;
                refusals++;
                refusals_of[i]++;
                if (code != FELTER_OUT_OF_MEMORY) {
                    fprintf(stderr, "request %ld, step %zu: %d where memory was refused\n", at, i, (int)code);
                    return 1;
                }
                code = steps[i]();
            }
            if (code != FELTER_OK) {
                fprintf(stderr, "request %ld, step %zu: %d\n", at, i, (int)code);
                return 1;
            }
        }
        left = -1;
        free_all();
        CHECK(live == before);
        if (!met) {
            CHECK(refusals >= 21);
            check_taking(refusals_of);
            printf("memory: %d requests refused in turn, none leaked\n", refusals);
            return 0;
        }
    }
    CHECK(!"an end of the requests");
    return 1;
}
