/* No call requests memory but those that make something: the constructors, felter_split, felter_claim, the calls that
 * subscribe, and those that make clients, readers and adders. Each other call of felter.h is made once or more, with
 * success and with an error, and the requests in it are counted.
 * Link with -Wl,--wrap=malloc,--wrap=calloc,--wrap=realloc,--wrap=aligned_alloc,--wrap=posix_memalign,--wrap=free. */
#define _DEFAULT_SOURCE 1
#include "check.h"

#include <sys/mman.h>

void *__real_malloc(size_t size);
void *__real_calloc(size_t count, size_t size);
void *__real_realloc(void *at, size_t size);
void *__real_aligned_alloc(size_t align, size_t size);
int __real_posix_memalign(void **at, size_t align, size_t size);
void __real_free(void *at);

static long requests;

void *__wrap_malloc(size_t size) {
    requests++;
    return __real_malloc(size);
}

void *__wrap_calloc(size_t count, size_t size) {
    requests++;
    return __real_calloc(count, size);
}

void *__wrap_realloc(void *from, size_t size) {
    requests++;
    return __real_realloc(from, size);
}

void *__wrap_aligned_alloc(size_t align, size_t size) {
    requests++;
    return __real_aligned_alloc(align, size);
}

int __wrap_posix_memalign(void **at, size_t align, size_t size) {
    requests++;
    return __real_posix_memalign(at, align, size);
}

void __wrap_free(void *at) {
    __real_free(at);
}

static int calls; /* that requested none */

/* The call returns the code, and requests no memory. */
#define NONE(code, call)                                                                               \
    do {                                                                                               \
        long before = requests;                                                                        \
        EXPECT(code, call);                                                                            \
        if (requests != before) {                                                                      \
            fprintf(stderr, "%s:%d: %ld requests: %s\n", __FILE__, __LINE__, requests - before, #call); \
            exit(1);                                                                                   \
        }                                                                                              \
        calls++;                                                                                       \
    } while (0)

/* The call succeeds, and requests memory: so that requests are counted at all. */
#define SOME(call)                                                                   \
    do {                                                                             \
        long before = requests;                                                      \
        EXPECT(FELTER_OK, call);                                                     \
        if (requests == before) {                                                    \
            fprintf(stderr, "%s:%d: no request: %s\n", __FILE__, __LINE__, #call);   \
            exit(1);                                                                 \
        }                                                                            \
    } while (0)

static uint8_t buffer[1024];
static int32_t type_id, why, found, state;
static size_t len, used;
static uint64_t head, tail, id, number, lapped, left, took;
static uint32_t count, longest;
static int64_t value;

static void write_and_read(felter_producer *producer, felter_consumer *consumer) {
    NONE(FELTER_OK, felter_write(producer, 1, BYTES("first")));
    NONE(FELTER_OK, felter_write(producer, 2, BYTES("second")));
    NONE(FELTER_BAD_TYPE, felter_write(producer, 0, BYTES("")));
    SOME(felter_claim(producer, 3, 4, &number));
    NONE(FELTER_OK, felter_put(producer, number, 0, BYTES("put!")));
    NONE(FELTER_PUT_RANGE, felter_put(producer, number, 1, BYTES("put!")));
    NONE(FELTER_OK, felter_commit(producer, number));
    NONE(FELTER_NO_CLAIM, felter_commit(producer, number));
    EXPECT(FELTER_OK, felter_claim(producer, 3, 4, &number));
    NONE(FELTER_OK, felter_abort(producer, number));
    NONE(FELTER_OK, felter_positions(producer, &head, &tail));
    NONE(FELTER_OK, felter_next_id(producer, &id));
    NONE(FELTER_OK, felter_set_heartbeat(consumer, 5));
    NONE(FELTER_OK, felter_heartbeat(producer, &number));
    NONE(FELTER_OK, felter_shares(producer, &count));
    NONE(FELTER_OK, felter_capacity(&producer->handle, &count, &longest));
    NONE(FELTER_OK, felter_standing(producer, consumer, &found, &head));
    CHECK(found == FELTER_FOUND_MESSAGE);
    NONE(FELTER_SHORT_BUFFER, felter_read(consumer, &type_id, &len, buffer, 1));
    NONE(FELTER_OK, felter_peek(consumer, &type_id, &len, buffer, sizeof buffer));
    NONE(FELTER_OK, felter_read(consumer, &type_id, &len, buffer, sizeof buffer));
    CHECK(type_id == 1 && len == 5);
    NONE(FELTER_OK, felter_read_batch(consumer, 9, &count, &used, buffer, sizeof buffer));
    CHECK(count == 2);
    NONE(FELTER_OK, felter_write_batch(producer, buffer, used, &count));
    NONE(FELTER_PUT_RANGE, felter_write_batch(producer, buffer, 1, &count));
    NONE(FELTER_OK, felter_peek(consumer, &type_id, &len, buffer, sizeof buffer));
    NONE(FELTER_OK, felter_take(consumer));
    NONE(FELTER_OK, felter_read(consumer, &type_id, &len, buffer, sizeof buffer));
    NONE(FELTER_NO_MESSAGE, felter_take(consumer));
    NONE(FELTER_OK, felter_standing(producer, consumer, &found, &head));
    NONE(FELTER_NO_MESSAGE, felter_read(consumer, &type_id, &len, buffer, sizeof buffer));
}

static void fill(felter_producer *producer) {
    int32_t code = FELTER_OK;
    while (code == FELTER_OK) {
        long before = requests;
        code = felter_write(producer, 1, BYTES("full"));
        CHECK(requests == before);
    }
    CHECK(code == FELTER_INSUFFICIENT_CAPACITY);
}

static void rings(void) {
    felter_producer producer = FELTER_EMPTY, other = FELTER_EMPTY, single = FELTER_EMPTY;
    felter_consumer consumer = FELTER_EMPTY, of_single = FELTER_EMPTY;
    SOME(felter_many_to_one_new_at(128, 256, &producer, &consumer));
    felter_free(&producer.handle);
    felter_free(&consumer.handle);
    SOME(felter_one_to_one_new_at(128, 256, &producer, &consumer));
    felter_free(&producer.handle);
    felter_free(&consumer.handle);
    SOME(felter_many_to_one_new(128, &producer, &consumer));
    SOME(felter_one_to_one_new(128, &single, &of_single));
    SOME(felter_split(&producer, &other));
    write_and_read(&producer, &consumer);
    write_and_read(&single, &of_single);
    fill(&other);
    fill(&single);
    NONE(FELTER_PRODUCERS_OUT, felter_close(&consumer, &producer));
    NONE(FELTER_OK, felter_join(&producer, &other));
    NONE(FELTER_OTHER_RING, felter_close(&consumer, &single));
    NONE(FELTER_OK, felter_close(&consumer, &producer));
    NONE(FELTER_OK, felter_finish(&consumer, &left));
    NONE(FELTER_OK, felter_close(&of_single, &single));
    NONE(FELTER_OK, felter_finish(&of_single, &left));
}

static void broadcast_buffers(void) {
    felter_transmitter transmitter = FELTER_EMPTY;
    felter_receiver receiver = FELTER_EMPTY;
    felter_raw_receiver raw = FELTER_EMPTY;
    SOME(felter_board_new_at(256, 256, &transmitter));
    felter_free(&transmitter.handle);
    SOME(felter_board_new(256, &transmitter));
    SOME(felter_subscribe(&transmitter, &receiver));
    SOME(felter_subscribe_raw(&transmitter, &raw));
    NONE(FELTER_NO_MESSAGE, felter_receive(&receiver, &type_id, &len, &lapped, buffer, sizeof buffer));
    NONE(FELTER_NO_MESSAGE, felter_receiver_lap(&receiver, &head, &tail));
    NONE(FELTER_NO_MESSAGE, felter_raw_receiver_lap(&raw, &head, &tail));
    NONE(FELTER_OK, felter_transmit(&transmitter, 4, BYTES("seen")));
    NONE(FELTER_TOO_LONG, felter_transmit(&transmitter, 4, buffer, 33));
    NONE(FELTER_OK, felter_receive(&receiver, &type_id, &len, &lapped, buffer, sizeof buffer));
    NONE(FELTER_OK, felter_receive_next(&raw, &type_id, &len, &lapped));
    NONE(FELTER_OK, felter_load_body(&raw, buffer, sizeof buffer));
    NONE(FELTER_OK, felter_validate(&raw));
    for (int i = 0; i < 40; i++) NONE(FELTER_OK, felter_transmit(&transmitter, 4, BYTES("sixteen bytes...")));
    NONE(FELTER_LAPPED, felter_receive(&receiver, &type_id, &len, &lapped, buffer, sizeof buffer));
    NONE(FELTER_LAPPED, felter_receive_next(&raw, &type_id, &len, &lapped));
    NONE(FELTER_OK, felter_lapped_count(&receiver, &number));
    NONE(FELTER_OK, felter_raw_lapped_count(&raw, &number));
    NONE(FELTER_OK, felter_receiver_place(&receiver, &number));
    NONE(FELTER_OK, felter_raw_receiver_place(&raw, &number));
    NONE(FELTER_OK, felter_receiver_lap(&receiver, &head, &tail));
    NONE(FELTER_OK, felter_raw_receiver_lap(&raw, &head, &tail));
    NONE(FELTER_RECEIVERS_OUT, felter_board_close(&transmitter, &tail));
    NONE(FELTER_OK, felter_board_join(&transmitter, &receiver));
    NONE(FELTER_OK, felter_board_join_raw(&transmitter, &raw));
    NONE(FELTER_OK, felter_board_close(&transmitter, &tail));
}

static void counters(void) {
    felter_counters all = FELTER_EMPTY;
    felter_reader reader = FELTER_EMPTY;
    SOME(felter_counters_new(3, 0, &all));
    SOME(felter_counters_reader(&all, &reader));
    NONE(FELTER_OK, felter_counter_allocate(&all, 0, 1, BYTES("key"), BYTES("label"), 7, &count));
    NONE(FELTER_OK, felter_counter_allocate_owned(&all, 0, 2, BYTES("key"), BYTES("label"), 8, 9, &count));
    NONE(FELTER_OK, felter_counter_allocate_owned(&all, 0, 2, BYTES("key"), BYTES("label"), 8, 9, &count));
    NONE(FELTER_NO_FREE_COUNTER, felter_counter_allocate(&all, 0, 1, BYTES(""), BYTES(""), 7, &count));
    NONE(FELTER_OK, felter_counter_set(&all, 0, 5));
    NONE(FELTER_OK, felter_counter_add(&all, 0, 1, &value));
    NONE(FELTER_OK, felter_counter_increment(&all, 0, &value));
    NONE(FELTER_OK, felter_counter_decrement(&all, 0, &value));
    NONE(FELTER_OK, felter_counter_get_and_set(&all, 0, 6, &value));
    NONE(FELTER_OK, felter_counter_value(&all, 0, &value));
    NONE(FELTER_OK, felter_counter_type_id(&all, 0, &type_id));
    NONE(FELTER_OK, felter_counter_registration(&all, 0, &number));
    NONE(FELTER_OK, felter_counter_owner(&all, 1, &number));
    NONE(FELTER_OK, felter_counter_propose_max(&all, 0, 9, &count));
    NONE(FELTER_OK, felter_counter_compare_and_set(&all, 0, 9, 6, &count));
    NONE(FELTER_OK, felter_counter_state(&all, 0, &state));
    NONE(FELTER_BAD_ID, felter_counter_state(&all, 3, &state));
    NONE(FELTER_OK, felter_counter_deadline(&all, 0, &number));
    NONE(FELTER_OK, felter_counter_label(&all, 0, &len, buffer, sizeof buffer));
    NONE(FELTER_OK, felter_counter_key(&all, 0, buffer, sizeof buffer));
    NONE(FELTER_OK, felter_counter_find(&all, 1, 7, &count));
    NONE(FELTER_OK, felter_counters_count(&all, &count));
    NONE(FELTER_OK, felter_counters_available(&all, 0, &count));
    NONE(FELTER_OK, felter_reader_value(&reader, 0, &value));
    NONE(FELTER_OK, felter_counter_free(&all, 0, 0));
    NONE(FELTER_NOT_ALLOCATED, felter_counter_free(&all, 0, 0));
    NONE(FELTER_OK, felter_counters_close_owner(&all, 0, 9, &count));
    CHECK(count == 2);
    NONE(FELTER_OK, felter_counter_allocate(&all, 0, 1, BYTES("key"), BYTES("again"), 7, &count));
    NONE(FELTER_OK, felter_counters_join(&all, &reader));
    long before = requests;
    felter_free(&all.handle);
    CHECK(felter_text(FELTER_OK) && felter_version() > 0 && requests == before);
}

static void shared_counters(void) {
    felter_adder adder = FELTER_EMPTY, other = FELTER_EMPTY, another = FELTER_EMPTY;
    SOME(felter_adder_new(&adder));
    SOME(felter_adder_new(&another));
    SOME(felter_adder_split(&adder, &other));
    NONE(FELTER_OK, felter_adder_add(&other, 5, &value));
    NONE(FELTER_OK, felter_adder_value(&adder, &value));
    CHECK(value == 5);
    NONE(FELTER_OK, felter_adder_shares(&adder, &count));
    NONE(FELTER_OTHER_RING, felter_adder_join(&another, &other));
    NONE(FELTER_OK, felter_adder_join(&adder, &other));
    felter_free(&adder.handle);
    felter_free(&another.handle);
}

/* Asks for everything of the counter 0, which has the key `k` and the label `l`. */
static void ask(felter_conductor *conductor) {
    NONE(FELTER_OK, felter_conductor_count(conductor, &count));
    NONE(FELTER_OK, felter_conductor_value(conductor, 0, &value));
    NONE(FELTER_OK, felter_conductor_type_id(conductor, 0, &type_id));
    NONE(FELTER_OK, felter_conductor_registration(conductor, 0, &number));
    NONE(FELTER_OK, felter_conductor_find(conductor, 1, number, &count));
    NONE(FELTER_OK, felter_conductor_owner(conductor, 0, &number));
    NONE(FELTER_OK, felter_conductor_state(conductor, 0, &state));
    NONE(FELTER_OK, felter_conductor_deadline(conductor, 0, &number));
    NONE(FELTER_OK, felter_conductor_label(conductor, 0, &len, buffer, sizeof buffer));
    NONE(FELTER_OK, felter_conductor_key(conductor, 0, buffer, sizeof buffer));
    NONE(FELTER_BAD_ID, felter_conductor_value(conductor, 2, &value));
}

/* Obeys what was sent, and gets the reply to it, of this kind. */
static void obey(felter_conductor *conductor, felter_client *client, int32_t kind) {
    int32_t found = 0;
    NONE(FELTER_OK, felter_conductor_work(conductor, 0, 9, &took, &why));
    CHECK(took == 1);
    NONE(FELTER_OK, felter_poll(client, id, &found, &value, &lapped));
    CHECK(found == kind);
    NONE(FELTER_NO_MESSAGE, felter_poll(client, id, &found, &value, &lapped));
}

static void conductors(void) {
    felter_conductor conductor = FELTER_EMPTY;
    felter_client client = FELTER_EMPTY;
    felter_receiver replies = FELTER_EMPTY;
    felter_reader values = FELTER_EMPTY;
    SOME(felter_conductor_new(1024, 1024, 2, 0, &conductor));
    SOME(felter_conductor_client(&conductor, &client));
    SOME(felter_conductor_subscribe(&conductor, &replies));
    SOME(felter_conductor_reader(&conductor, &values));
    NONE(FELTER_OK, felter_conductor_set_heartbeat(&conductor, 4));
    NONE(FELTER_OK, felter_client_heartbeat(&client, &number));
    NONE(FELTER_OK, felter_send_allocate(&client, 1, BYTES("k"), BYTES("l"), &id));
    obey(&conductor, &client, FELTER_REPLY_ALLOCATED);
    NONE(FELTER_OK, felter_send_set(&client, 0, 3, &id));
    obey(&conductor, &client, FELTER_REPLY_DONE);
    ask(&conductor);
    NONE(FELTER_OK, felter_send_set(&client, 9, 3, &id));
    obey(&conductor, &client, FELTER_REPLY_REFUSED);
    NONE(FELTER_OK, felter_send_allocate_owned(&client, 1, 6, BYTES("k"), BYTES("l"), &id));
    obey(&conductor, &client, FELTER_REPLY_ALLOCATED);
    NONE(FELTER_OK, felter_send_free(&client, 0, &id));
    obey(&conductor, &client, FELTER_REPLY_DONE);
    NONE(FELTER_OK, felter_send_close_owner(&client, 6, &id));
    obey(&conductor, &client, FELTER_REPLY_CLOSED);
    NONE(FELTER_TOO_LONG, felter_send_allocate(&client, 1, buffer, 600, BYTES(""), &id));
    NONE(FELTER_OK, felter_receive(&replies, &type_id, &len, &lapped, buffer, sizeof buffer));
    NONE(FELTER_OK, felter_reader_value(&values, 0, &value));
    NONE(FELTER_PRODUCERS_OUT, felter_conductor_finish(&conductor, &took, &left));
    NONE(FELTER_OK, felter_conductor_join(&conductor, &client));
    NONE(FELTER_OK, felter_conductor_join_receiver(&conductor, &replies));
    NONE(FELTER_OK, felter_conductor_join_reader(&conductor, &values));
    NONE(FELTER_OK, felter_conductor_finish(&conductor, &took, &left));
}

/* Structures in memory of the caller. Their other calls request no memory either. */
static void in_memory(void) {
    felter_producer producer = FELTER_EMPTY, single = FELTER_EMPTY;
    felter_consumer consumer = FELTER_EMPTY, of_single = FELTER_EMPTY;
    felter_transmitter transmitter = FELTER_EMPTY;
    felter_counters all = FELTER_EMPTY;
    size_t page = 4096;
    char text[128];
    unsigned char *memory = mmap(NULL, 4 * page, PROT_READ | PROT_WRITE, MAP_PRIVATE | MAP_ANONYMOUS, -1, 0);
    CHECK(memory != MAP_FAILED);
    NONE(FELTER_OK, felter_ring_memory(128, &len));
    NONE(FELTER_OK, felter_board_memory(256, &len));
    NONE(FELTER_OK, felter_counters_memory(4, &len));
    NONE(FELTER_BAD_COUNT, felter_counters_memory(0, &len));
    NONE(FELTER_BAD_MEMORY, felter_many_to_one_new_in(memory, 100, 128, &producer, &consumer));
    SOME(felter_many_to_one_new_in(memory, page, 128, &producer, &consumer));
    SOME(felter_one_to_one_new_in(memory + page, page, 128, &single, &of_single));
    SOME(felter_board_new_in(memory + 2 * page, page, 256, &transmitter));
    SOME(felter_counters_new_in(memory + 3 * page, page, 4, 0, &all));
    for (int k = 0; k < 4; k++) NONE(FELTER_OK, felter_unmap_at_end(memory + k * page, page));
    NONE(FELTER_BAD_MEMORY, felter_unmap_at_end(memory + 64, page));
    NONE(FELTER_OK, felter_recover(memory, page, &id, &count, &len, buffer, sizeof buffer));
    NONE(FELTER_NO_IMAGE, felter_recover(memory + 2 * page, page, &id, &count, &len, buffer, sizeof buffer));
    NONE(FELTER_OK, felter_finding(memory + 2 * page, page, &len, text, sizeof text));
    NONE(FELTER_NO_IMAGE, felter_recover_words(&id, 1, &id, 1, &number, &value, &left, &count, &len, buffer,
                                               sizeof buffer));
    write_and_read(&producer, &consumer);
    write_and_read(&single, &of_single);
    NONE(FELTER_OK, felter_transmit(&transmitter, 4, BYTES("seen")));
    NONE(FELTER_OK, felter_close(&consumer, &producer));
    NONE(FELTER_OK, felter_finish(&consumer, &left));
    felter_free(&single.handle);
    felter_free(&of_single.handle);
    NONE(FELTER_OK, felter_board_close(&transmitter, &tail));
    felter_free(&all.handle);
}

int main(void) {
    setvbuf(stdout, NULL, _IONBF, 0);
    rings();
    broadcast_buffers();
    counters();
    shared_counters();
    conductors();
    in_memory();
    printf("requests: %d calls requested no memory\n", calls);
    return 0;
}
