/* Every code of the calls of counters. */
#include "check.h"

#include <pthread.h>
#include <sched.h>

static void makes(void) {
    felter_counters counters = FELTER_EMPTY;
    uint32_t count = 0;
    EXPECT(FELTER_BAD_COUNT, felter_counters_new(0, 0, &counters));
    EXPECT(FELTER_BAD_COUNT, felter_counters_new(4097, 0, &counters));
    EXPECT(FELTER_NO_HANDLE, felter_counters_count(&counters, &count));
    EXPECT(FELTER_OK, felter_counters_new(4096, 0, &counters));
    EXPECT(FELTER_HANDLE_IN_USE, felter_counters_new(1, 0, &counters));
    EXPECT(FELTER_OK, felter_counters_count(&counters, &count));
    CHECK(count == 4096);
    felter_free(&counters.handle);
}

/* Compares a counter's label and key, each into a buffer of its length and into one that is too short. */
static void says(felter_counters *counters, uint32_t id, const uint8_t *label, size_t label_len, const uint8_t *key,
                 size_t key_len) {
    uint8_t buffer[400];
    size_t len = 9999;
    memset(buffer, 0xEE, sizeof buffer);
    if (label_len > 0) {
        EXPECT(FELTER_SHORT_BUFFER, felter_counter_label(counters, id, &len, buffer, label_len - 1));
        CHECK(len == label_len && buffer[0] == 0xEE);
        len = 9999;
    }
    EXPECT(FELTER_OK, felter_counter_label(counters, id, &len, buffer, label_len));
    CHECK(len == label_len && (len == 0 || memcmp(buffer, label, len) == 0) && buffer[len] == 0xEE);
    memset(buffer, 0xEE, sizeof buffer);
    EXPECT(FELTER_SHORT_BUFFER, felter_counter_key(counters, id, buffer, 111));
    CHECK(buffer[0] == 0xEE);
    EXPECT(FELTER_OK, felter_counter_key(counters, id, buffer, 112));
    CHECK(key_len == 0 || memcmp(buffer, key, key_len) == 0);
    for (size_t i = key_len; i < 112; i++) CHECK(buffer[i] == 0);
    CHECK(buffer[112] == 0xEE);
}

static void allocates(void) {
    felter_counters counters = FELTER_EMPTY;
    uint8_t key[113], label[381];
    uint32_t id = 99, freed = 99;
    int32_t type_id = 0;
    uint64_t number = 99;
    int64_t value = 99;
    memset(key, 0xA5, sizeof key);
    memset(label, 'x', sizeof label);
    EXPECT(FELTER_OK, felter_counters_new(3, 100, &counters));
    EXPECT(FELTER_KEY_TOO_LONG, felter_counter_allocate(&counters, 0, 1, key, 113, NULL, 0, 0, &id));
    EXPECT(FELTER_LABEL_TOO_LONG, felter_counter_allocate(&counters, 0, 1, NULL, 0, label, 381, 0, &id));
    label[379] = 128;
    EXPECT(FELTER_LABEL_NOT_ASCII, felter_counter_allocate(&counters, 0, 1, NULL, 0, label, 380, 0, &id));
    EXPECT(FELTER_KEY_TOO_LONG, felter_counter_allocate_owned(&counters, 0, 1, key, 113, NULL, 0, 0, 5, &id));
    label[379] = 'y';
    CHECK(id == 99);
    EXPECT(FELTER_OK, felter_counter_allocate(&counters, 0, -3, key, 112, label, 380, 77, &id));
    CHECK(id == 0);
    EXPECT(FELTER_OK, felter_counter_allocate_owned(&counters, 0, 8, BYTES("key"), BYTES("two"), 78, 5, &id));
    CHECK(id == 1);
    EXPECT(FELTER_OK, felter_counter_allocate_owned(&counters, 0, 8, NULL, 0, NULL, 0, 78, 5, &id));
    CHECK(id == 2);
    EXPECT(FELTER_NO_FREE_COUNTER, felter_counter_allocate(&counters, 0, 1, NULL, 0, NULL, 0, 0, &id));

    EXPECT(FELTER_OK, felter_counter_value(&counters, 0, &value));
    CHECK(value == 0);
    EXPECT(FELTER_OK, felter_counter_type_id(&counters, 0, &type_id));
    CHECK(type_id == -3);
    EXPECT(FELTER_OK, felter_counter_registration(&counters, 0, &number));
    CHECK(number == 77);
    EXPECT(FELTER_OK, felter_counter_owner(&counters, 0, &number));
    CHECK(number == 0);
    EXPECT(FELTER_OK, felter_counter_owner(&counters, 1, &number));
    CHECK(number == 5);
    EXPECT(FELTER_OK, felter_counter_find(&counters, 8, 78, &id));
    CHECK(id == 1);
    EXPECT(FELTER_NOT_ALLOCATED, felter_counter_find(&counters, 8, 77, &id));
    says(&counters, 0, label, 380, key, 112);
    says(&counters, 1, BYTES("two"), BYTES("key"));
    says(&counters, 2, NULL, 0, NULL, 0);

    EXPECT(FELTER_BAD_MOMENT, felter_counter_free(&counters, LAST_POSITION + 1, 0));
    EXPECT(FELTER_OK, felter_counter_free(&counters, 1000, 0));
    EXPECT(FELTER_NOT_ALLOCATED, felter_counter_free(&counters, 1000, 0));
    EXPECT(FELTER_NO_FREE_COUNTER, felter_counter_allocate(&counters, 1099, 1, NULL, 0, NULL, 0, 0, &id));
    EXPECT(FELTER_OK, felter_counter_allocate(&counters, 1100, 1, NULL, 0, NULL, 0, 0, &id));
    CHECK(id == 0);
    EXPECT(FELTER_BAD_OWNER, felter_counters_close_owner(&counters, 0, 0, &freed));
    EXPECT(FELTER_BAD_MOMENT, felter_counters_close_owner(&counters, UINT64_MAX, 5, &freed));
    CHECK(freed == 99);
    EXPECT(FELTER_OK, felter_counters_close_owner(&counters, 1200, 6, &freed));
    CHECK(freed == 0);
    EXPECT(FELTER_OK, felter_counters_close_owner(&counters, 1200, 5, &freed));
    CHECK(freed == 2);
    EXPECT(FELTER_NOT_ALLOCATED, felter_counter_type_id(&counters, 1, &type_id));
    EXPECT(FELTER_NOT_ALLOCATED, felter_counter_type_id(&counters, 2, &type_id));
    felter_free(&counters.handle);
}

static void values(void) {
    felter_counters counters = FELTER_EMPTY;
    uint32_t id = 0;
    int64_t value = 0;
    EXPECT(FELTER_OK, felter_counters_new(2, 0, &counters));
    EXPECT(FELTER_OK, felter_counter_allocate(&counters, 0, 1, NULL, 0, BYTES("a"), 0, &id));
    EXPECT(FELTER_OK, felter_counter_set(&counters, id, INT64_MAX));
    EXPECT(FELTER_OK, felter_counter_add(&counters, id, 1, &value));
    CHECK(value == INT64_MAX);
    EXPECT(FELTER_OK, felter_counter_value(&counters, id, &value));
    CHECK(value == INT64_MIN);
    EXPECT(FELTER_OK, felter_counter_add(&counters, id, -1, &value));
    CHECK(value == INT64_MIN);
    EXPECT(FELTER_OK, felter_counter_value(&counters, id, &value));
    CHECK(value == INT64_MAX);
    felter_free(&counters.handle);
    EXPECT(FELTER_NO_HANDLE, felter_counter_value(&counters, id, &value));
}

/* One more and one less, at both ends of the range; a value that is replaced, and one that is replaced if it is the
 * expected one. */
static void changes(void) {
    felter_counters counters = FELTER_EMPTY;
    uint32_t id = 0, was_set = 9;
    int64_t value = 0;
    EXPECT(FELTER_OK, felter_counters_new(1, 0, &counters));
    EXPECT(FELTER_OK, felter_counter_allocate(&counters, 0, 1, NULL, 0, NULL, 0, 0, &id));
    EXPECT(FELTER_OK, felter_counter_increment(&counters, id, &value));
    CHECK(value == 0);
    EXPECT(FELTER_OK, felter_counter_get_and_set(&counters, id, INT64_MAX, &value));
    CHECK(value == 1);
    EXPECT(FELTER_OK, felter_counter_increment(&counters, id, &value));
    CHECK(value == INT64_MAX);
    EXPECT(FELTER_OK, felter_counter_decrement(&counters, id, &value));
    CHECK(value == INT64_MIN);
    EXPECT(FELTER_OK, felter_counter_decrement(&counters, id, &value));
    CHECK(value == INT64_MAX);
    EXPECT(FELTER_OK, felter_counter_compare_and_set(&counters, id, INT64_MAX, -5, &was_set));
    CHECK(was_set == 0);
    EXPECT(FELTER_OK, felter_counter_value(&counters, id, &value));
    CHECK(value == INT64_MAX - 1);
    EXPECT(FELTER_OK, felter_counter_compare_and_set(&counters, id, INT64_MAX - 1, -5, &was_set));
    CHECK(was_set == 1);
    EXPECT(FELTER_OK, felter_counter_value(&counters, id, &value));
    CHECK(value == -5);
    felter_free(&counters.handle);
}

static void is_available(felter_counters *counters, uint64_t now, uint32_t wanted) {
    uint32_t available = 99;
    EXPECT(FELTER_OK, felter_counters_available(counters, now, &available));
    CHECK(available == wanted);
}

/* An id that was freed is counted from its deadline on. */
static void availability(void) {
    felter_counters counters = FELTER_EMPTY;
    uint32_t id = 0;
    EXPECT(FELTER_OK, felter_counters_new(3, 50, &counters));
    is_available(&counters, 0, 3);
    for (int i = 0; i < 3; i++) EXPECT(FELTER_OK, felter_counter_allocate(&counters, 0, 1, NULL, 0, NULL, 0, 0, &id));
    is_available(&counters, UINT64_MAX, 0);
    EXPECT(FELTER_OK, felter_counter_free(&counters, 100, 1));
    EXPECT(FELTER_OK, felter_counter_free(&counters, 120, 0));
    is_available(&counters, 149, 0);
    is_available(&counters, 150, 1);
    is_available(&counters, 169, 1);
    is_available(&counters, 170, 2);
    EXPECT(FELTER_OK, felter_counter_allocate(&counters, 170, 1, NULL, 0, NULL, 0, 0, &id));
    is_available(&counters, 170, 1);
    is_available(&counters, 0, 0);
    felter_free(&counters.handle);
}

#define LAST 100000

struct watcher {
    felter_reader reader;
    uint32_t id;
    uint64_t loads;
};

/* Loads a value that rises until it is the last one. */
static void *watch(void *its) {
    struct watcher *it = its;
    int64_t last = 0, value = 0;
    while (last < LAST) {
        EXPECT(FELTER_OK, felter_reader_value(&it->reader, it->id, &value));
        CHECK(value >= last && value <= LAST);
        last = value;
        it->loads++;
        if (it->loads % 1024 == 0) sched_yield();
    }
    return NULL;
}

static void readers(void) {
    felter_counters counters = FELTER_EMPTY;
    static struct watcher watchers[2];
    felter_reader never = FELTER_EMPTY;
    pthread_t ids[2];
    uint32_t id = 0;
    int64_t value = 77;
    EXPECT(FELTER_NO_HANDLE, felter_counters_reader(&counters, &never));
    EXPECT(FELTER_NO_HANDLE, felter_reader_value(&never, 0, &value));
    EXPECT(FELTER_OK, felter_counters_new(3, 0, &counters));
    for (int i = 0; i < 2; i++) {
        EXPECT(FELTER_OK, felter_counter_allocate(&counters, 0, 1, NULL, 0, NULL, 0, 0, &id));
        EXPECT(FELTER_OK, felter_counters_reader(&counters, &watchers[i].reader));
        EXPECT(FELTER_HANDLE_IN_USE, felter_counters_reader(&counters, &watchers[i].reader));
        watchers[i].id = id;
    }
    EXPECT(FELTER_BAD_ID, felter_reader_value(&watchers[0].reader, 3, &value));
    EXPECT(FELTER_WRONG_HANDLE, felter_reader_value((felter_reader *)(void *)&counters, 0, &value));
    EXPECT(FELTER_WRONG_HANDLE, felter_counters_reader((felter_counters *)(void *)&watchers[0].reader, &never));
    CHECK(value == 77);
    EXPECT(FELTER_OK, felter_reader_value(&watchers[0].reader, 2, &value));
    CHECK(value == 0);
    for (int i = 0; i < 2; i++) CHECK(pthread_create(&ids[i], NULL, watch, &watchers[i]) == 0);
    for (int64_t n = 1; n <= LAST; n++) {
        EXPECT(FELTER_OK, felter_counter_set(&counters, 0, n));
        EXPECT(FELTER_OK, felter_counter_add(&counters, 1, 1, &value));
        if (n % 4096 == 0) sched_yield();
    }
    for (int i = 0; i < 2; i++) CHECK(pthread_join(ids[i], NULL) == 0);
    felter_free(&counters.handle);
    EXPECT(FELTER_OK, felter_reader_value(&watchers[1].reader, 0, &value));
    CHECK(value == LAST);
    for (int i = 0; i < 2; i++) felter_free(&watchers[i].reader.handle);
    EXPECT(FELTER_OK, felter_counters_new(1, 0, &counters));
    for (int i = 0; i < 65535; i++) {
        EXPECT(FELTER_OK, felter_counters_reader(&counters, &never));
        felter_free(&never.handle);
    }
    EXPECT(FELTER_NO_SHARES, felter_counters_reader(&counters, &never));
    felter_free(&counters.handle);
}

/* What each call answers of an id. */
static void refuses(felter_counters *counters, uint32_t id, int32_t code) {
    int64_t value = 7;
    uint64_t number = 7;
    int32_t type_id = 7;
    uint32_t was_set = 7;
    EXPECT(code, felter_counter_free(counters, 0, id));
    EXPECT(code, felter_counter_set(counters, id, 1));
    EXPECT(code, felter_counter_add(counters, id, 1, &value));
    EXPECT(code, felter_counter_increment(counters, id, &value));
    EXPECT(code, felter_counter_decrement(counters, id, &value));
    EXPECT(code, felter_counter_get_and_set(counters, id, 1, &value));
    EXPECT(code, felter_counter_compare_and_set(counters, id, 0, 1, &was_set));
    EXPECT(code, felter_counter_value(counters, id, &value));
    EXPECT(code, felter_counter_type_id(counters, id, &type_id));
    EXPECT(code, felter_counter_registration(counters, id, &number));
    EXPECT(code, felter_counter_owner(counters, id, &number));
    size_t len = 7;
    uint8_t buffer[1] = {5};
    EXPECT(code, felter_counter_label(counters, id, &len, buffer, 1));
    EXPECT(code, felter_counter_key(counters, id, buffer, 1));
    CHECK(len == 7 && buffer[0] == 5);
    CHECK(value == 7 && number == 7 && type_id == 7 && was_set == 7);
}

/* What each call answers of a handle. */
static void refuses_handle(felter_counters *counters, int32_t code) {
    uint32_t id = 0;
    refuses(counters, 0, code);
    EXPECT(code, felter_counter_allocate(counters, 0, 1, NULL, 0, NULL, 0, 0, &id));
    EXPECT(code, felter_counter_allocate_owned(counters, 0, 1, NULL, 0, NULL, 0, 0, 5, &id));
    EXPECT(code, felter_counter_find(counters, 1, 0, &id));
    EXPECT(code, felter_counters_count(counters, &id));
    EXPECT(code, felter_counters_available(counters, 0, &id));
    EXPECT(code, felter_counters_close_owner(counters, 0, 5, &id));
    CHECK(id == 0);
}

static void refusals(void) {
    felter_counters counters = FELTER_EMPTY, none = FELTER_EMPTY;
    felter_producer producer = FELTER_EMPTY;
    felter_consumer consumer = FELTER_EMPTY;
    EXPECT(FELTER_OK, felter_counters_new(2, 0, &counters));
    EXPECT(FELTER_OK, felter_many_to_one_new(128, &producer, &consumer));
    refuses(&counters, 0, FELTER_NOT_ALLOCATED);
    refuses(&counters, 2, FELTER_BAD_ID);
    refuses(&counters, UINT32_MAX, FELTER_BAD_ID);
    refuses_handle(&none, FELTER_NO_HANDLE);
    refuses_handle((felter_counters *)(void *)&producer, FELTER_WRONG_HANDLE);
    felter_free(&counters.handle);
    felter_free(&producer.handle);
    felter_free(&consumer.handle);
}

int main(void) {
    makes();
    allocates();
    values();
    changes();
    availability();
    readers();
    refusals();
    puts("counters: each answer as it should be");
    return 0;
}
