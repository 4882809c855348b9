/* The process that is killed: producers and a consumer, each on a thread of its own. */
#define _GNU_SOURCE 1
#include "storm.h"

#include <pthread.h>
#include <stdlib.h>
#include <string.h>
#include <unistd.h>

static struct book *book;
static uint32_t longest;
static felter_producer producers[PRODUCERS];
static felter_consumer consumer;

/* A producer on its thread. */
struct writer {
    unsigned who;
    uint64_t state, next; /* the state of its choices, and the number of its next message */
    struct message one, two;
};
static struct writer writers[PRODUCERS];

/* Ends the process if a call returns a code that it may not return. The parent sees the status. */
static bool is_ok(int32_t code) {
    if (code == FELTER_OK) return true;
    if (code != FELTER_INSUFFICIENT_CAPACITY && code != FELTER_CONTENDED && code != FELTER_NO_MESSAGE) _exit(20);
    return false;
}

static void acknowledge(struct writer *it, uint64_t number) {
    book->of[it->who].acknowledged = number;
    it->next = number + 1;
}

static void put(felter_producer *producer, uint64_t claim, const struct message *message) {
    uint32_t half = message->len / 2;
    if (!is_ok(felter_put(producer, claim, half, message->body + half, message->len - half))) _exit(21);
    if (!is_ok(felter_put(producer, claim, 0, message->body, half))) _exit(22);
}

static bool claim_and_put(struct writer *it, struct message *message, uint64_t number, uint64_t *claim) {
    felter_producer *producer = &producers[it->who];
    make_message(message, it->who, number, longest);
    if (!is_ok(felter_claim(producer, message->type_id, message->len, claim))) return false;
    put(producer, *claim, message);
    return true;
}

/* Claims two messages, and commits the second one first. */
static void write_two(struct writer *it) {
    felter_producer *producer = &producers[it->who];
    uint64_t first, second, number = it->next;
    if (!claim_and_put(it, &it->one, number, &first)) return;
    if (claim_and_put(it, &it->two, number + 1, &second)) {
        if (!is_ok(felter_commit(producer, second))) _exit(23);
        book->of[it->who].later = ++number;
    }
    if (!is_ok(felter_commit(producer, first))) _exit(24);
    acknowledge(it, number);
}

/* Claims a message, and commits or aborts it. */
static void claim_one(struct writer *it, bool commits) {
    felter_producer *producer = &producers[it->who];
    uint64_t claim;
    if (!claim_and_put(it, &it->one, it->next, &claim)) return;
    if (!is_ok(commits ? felter_commit(producer, claim) : felter_abort(producer, claim))) _exit(25);
    if (commits) acknowledge(it, it->next);
}

static void write_one(struct writer *it) {
    make_message(&it->one, it->who, it->next, longest);
    if (is_ok(felter_write(&producers[it->who], it->one.type_id, it->one.body, it->one.len))) acknowledge(it, it->next);
}

static void *write_all(void *of_thread) {
    struct writer *it = of_thread;
    for (;;) {
        uint64_t choice = pick(&it->state, 10);
        if (choice < 6) write_one(it);
        else if (choice < 9) claim_one(it, choice < 8);
        else write_two(it);
    }
    return NULL;
}

/* Notes a message that the consumer was shown. */
static void note(int32_t type_id, const unsigned char *body, size_t len, bool is_peeked) {
    unsigned who = 0;
    uint64_t number = 0;
    if (!know_message(type_id, body, len, longest, &who, &number) || number != book->of[who].shown + 1) {
        book->wrong++;
        return;
    }
    if (is_peeked) book->peeked = 1 + who;
    book->of[who].shown = number;
}

static void read_batch(unsigned char *buffer, size_t room) {
    uint32_t count = 0;
    size_t used = 0, at = 0;
    book->running = BATCH;
    if (is_ok(felter_read_batch(&consumer, BATCH, &count, &used, buffer, room))) {
        for (; count > 0; count--) {
            felter_record record;
            memcpy(&record, buffer + at, sizeof record);
            note((int32_t)record.type_id, buffer + at + sizeof record, record.len, false);
            at += FELTER_SPAN(record.len);
        }
    }
    book->running = 0;
}

/* Looks at a message, and then takes it. */
static void look_and_take(unsigned char *buffer, size_t room, bool waits) {
    int32_t type_id = 0;
    size_t len = 0;
    if (!is_ok(felter_peek(&consumer, &type_id, &len, buffer, room))) return;
    note(type_id, buffer, len, true);
    if (waits) usleep(20);
    if (!is_ok(felter_take(&consumer))) _exit(26);
    book->peeked = 0;
}

static void read_one(unsigned char *buffer, size_t room) {
    int32_t type_id = 0;
    size_t len = 0;
    book->running = 1;
    if (is_ok(felter_read(&consumer, &type_id, &len, buffer, room))) note(type_id, buffer, len, false);
    book->running = 0;
}

static void *read_all(void *of_thread) {
    uint64_t *state = of_thread;
    size_t room = BATCH * (size_t)MAX_LENGTH;
    unsigned char *buffer = malloc(room);
    if (!buffer) _exit(27);
    for (;;) {
        uint64_t choice = pick(state, 64);
        if (choice == 0) usleep((useconds_t)pick(state, 200));
        else if (choice < 16) read_batch(buffer, room);
        else if (choice < 32) look_and_take(buffer, room, choice == 16);
        else read_one(buffer, room);
    }
    return NULL;
}

_Noreturn void run_storm(void *memory, size_t length, uint32_t capacity, bool is_one, struct book *of, uint64_t seed) {
    static uint64_t readers_state;
    unsigned count = is_one ? 1 : PRODUCERS;
    pthread_t thread;
    book = of;
    longest = capacity / 8;
    readers_state = mixed(seed);
    int32_t code = is_one ? felter_one_to_one_new_in(memory, length, capacity, &producers[0], &consumer)
                          : felter_many_to_one_new_in(memory, length, capacity, &producers[0], &consumer);
    if (code != FELTER_OK) _exit(28);
    for (unsigned k = 1; k < count; k++)
        if (felter_split(&producers[0], &producers[k]) != FELTER_OK) _exit(29);
    for (unsigned k = 0; k < count; k++) {
        writers[k].who = k;
        writers[k].next = 1;
        writers[k].state = mixed(seed + k + 1);
        if (pthread_create(&thread, NULL, write_all, &writers[k])) _exit(30);
    }
    read_all(&readers_state);
    _exit(31);
}
