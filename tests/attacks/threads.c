/* Threads that split producers, leave claims open and free what they hold while a consumer reads; and receivers that
 * are made and freed while a transmitter goes on. Some rounds begin close to position 2^62 and end there.
 *
 *     threads SECONDS SEED     rounds until the time is over; prints how much that was
 *
 * Every byte of a message follows from its sender and its number. */
#include "felter.h"

#include <pthread.h>
#include <sched.h>
#include <stdatomic.h>
#include <stdbool.h>
#include <stdio.h>
#include <stdlib.h>
#include <string.h>
#include <time.h>

#define SENDERS 3
#define LISTENERS 2
#define LAST ((uint64_t)1 << 62)
#define MAX_LEN 128
#define MAX_BOARD 8192
#define MESSAGES 4000
#define CLAIMS 3

#define CHECK(holds) \
    do { \
        if (!(holds)) { \
            fprintf(stderr, "threads.c:%d: not so: %s\n", __LINE__, #holds); \
            abort(); \
        } \
    } while (0)

static uint64_t all_messages, all_frees, all_limits, all_copies;

static uint64_t mix(uint64_t *state) {
    *state += 0x9e3779b97f4a7c15;
    uint64_t mixed = (*state ^ *state >> 30) * 0xbf58476d1ce4e5b9;
    return mixed ^ mixed >> 29;
}

/* Messages --------------------------------------------------------------------------------------------------------- */

static size_t length_of(uint32_t sender, uint32_t number, size_t most) {
    return 8 + (sender * 40503u + number * 2654435761u) % (most - 7);
}

static size_t fill(uint8_t *body, uint32_t sender, uint32_t number, size_t most) {
    size_t len = length_of(sender, number, most);
    memcpy(body, &sender, 4);
    memcpy(body + 4, &number, 4);
    for (size_t k = 8; k < len; k++) body[k] = (uint8_t)(sender * 17 + number * 5 + k);
    return len;
}

static void check(const uint8_t *body, size_t len, uint32_t *sender, uint32_t *number, size_t most) {
    uint8_t wanted[MAX_LEN];
    CHECK(len >= 8);
    memcpy(sender, body, 4);
    memcpy(number, body + 4, 4);
    CHECK(fill(wanted, *sender, *number, most) == len && memcmp(wanted, body, len) == 0);
}

/* Rings ------------------------------------------------------------------------------------------------------------ */

struct sender {
    felter_producer producer;
    pthread_t thread;
    uint64_t dice, frees;
    uint32_t id, sent;
    size_t most;
    bool came_to_limit;
};

/* Writes the sender's next message by a producer: whether positions go on. */
static bool send(struct sender *sender, felter_producer *by) {
    uint8_t body[MAX_LEN];
    size_t len = fill(body, sender->id, sender->sent, sender->most);
    for (unsigned turns = 0;; turns++) {
        int32_t code = felter_write(by, 1, body, len);
        if (code == FELTER_OK) break;
        if (code == FELTER_POSITION_LIMIT) return false;
        CHECK(code == FELTER_CONTENDED || code == FELTER_INSUFFICIENT_CAPACITY);
        if (turns > 64) sched_yield();
    }
    sender->sent++;
    return true;
}

/* Claims by a producer that then goes: some are put and committed, the others are open, and aborted with it. */
static void claim_and_go(struct sender *sender, felter_producer *by) {
    uint8_t body[MAX_LEN];
    bool may_commit = true;
    for (int k = 0; k < CLAIMS; k++) {
        uint64_t claim;
        size_t len = fill(body, sender->id, sender->sent, sender->most);
        if (felter_claim(by, 1, len, &claim) != FELTER_OK) continue;
        may_commit &= mix(&sender->dice) % 3 != 0;
        if (!may_commit) continue;
        CHECK(felter_put(by, claim, 0, body, len) == FELTER_OK && felter_commit(by, claim) == FELTER_OK);
        sender->sent++;
    }
}

static void *send_all(void *with) {
    struct sender *sender = with;
    while (sender->sent < MESSAGES && !sender->came_to_limit) {
        sender->came_to_limit = !send(sender, &sender->producer);
        if (mix(&sender->dice) % 8) continue;
        felter_producer other = FELTER_EMPTY;
        CHECK(felter_split(&sender->producer, &other) == FELTER_OK);
        /* (with a claim open it must not wait for room, which may be after that claim) */
        if (mix(&sender->dice) % 2) sender->came_to_limit |= !send(sender, &other);
        claim_and_go(sender, &other);
        felter_free(&other.handle);
        sender->frees++;
    }
    felter_free(&sender->producer.handle);
    return NULL;
}

static atomic_uint senders_left;

static void *send_and_tell(void *with) {
    send_all(with);
    atomic_fetch_sub(&senders_left, 1);
    return NULL;
}

/* Reads until all senders are gone and nothing is left; returns how many messages of each sender came. */
static void read_all(felter_consumer *consumer, size_t most, uint32_t *next) {
    static uint8_t buffer[1 << 14];
    for (unsigned turns = 0;;) {
        bool is_last = atomic_load(&senders_left) == 0;
        uint32_t count = 0;
        size_t used = 0, at = 0;
        int32_t code = felter_read_batch(consumer, 16, &count, &used, buffer, sizeof buffer);
        if (code == FELTER_NO_MESSAGE) {
            if (is_last) return;
            if (++turns > 64) sched_yield();
            continue;
        }
        CHECK(code == FELTER_OK);
        turns = 0;
        for (uint32_t k = 0; k < count; k++) {
            felter_record record;
            uint32_t sender, number;
            memcpy(&record, buffer + at, sizeof record);
            check(buffer + at + sizeof record, record.len, &sender, &number, most);
            CHECK(sender < SENDERS && number == next[sender]++);
            at += FELTER_SPAN(record.len);
        }
    }
}

static void ring_round(uint64_t *dice) {
    struct sender senders[SENDERS];
    felter_producer first = FELTER_EMPTY;
    felter_consumer consumer = FELTER_EMPTY;
    uint32_t capacity = 1u << (8 + mix(dice) % 6), next[SENDERS] = {0};
    uint64_t start = mix(dice) % 3 ? 0 : LAST - (uint64_t)capacity * (1 + mix(dice) % 64);
    size_t most = capacity / 8 < MAX_LEN ? capacity / 8 : MAX_LEN;
    CHECK(felter_many_to_one_new_at(capacity, start, &first, &consumer) == FELTER_OK);
    memset(senders, 0, sizeof senders);
    for (uint32_t id = 0; id < SENDERS; id++) {
        senders[id].id = id;
        senders[id].most = most;
        senders[id].dice = mix(dice);
        for (int shares = 0; shares < 3000; shares++) { /* enough for its frees */
            felter_producer one = FELTER_EMPTY;
            CHECK(felter_split(&first, &one) == FELTER_OK);
            if (!senders[id].producer.handle.at) senders[id].producer = one;
            else CHECK(felter_join(&senders[id].producer, &one) == FELTER_OK);
        }
    }
    felter_free(&first.handle);
    atomic_store(&senders_left, SENDERS);
    for (uint32_t id = 0; id < SENDERS; id++)
        CHECK(pthread_create(&senders[id].thread, NULL, send_and_tell, &senders[id]) == 0);
    read_all(&consumer, most, next);
    for (uint32_t id = 0; id < SENDERS; id++) {
        pthread_join(senders[id].thread, NULL);
        CHECK(senders[id].sent == next[id]);
        all_messages += next[id];
        all_frees += senders[id].frees + 1;
        all_limits += senders[id].came_to_limit;
    }
    felter_free(&consumer.handle);
}

/* Broadcast buffers ------------------------------------------------------------------------------------------------ */

/* Receivers on their way to a listener. */
static struct {
    pthread_mutex_t lock;
    felter_receiver receivers[LISTENERS];
    bool is_over;
    size_t most;
} handed = {.lock = PTHREAD_MUTEX_INITIALIZER};

static bool take_receiver(int at, felter_receiver *receiver) {
    pthread_mutex_lock(&handed.lock);
    bool is_there = handed.receivers[at].handle.at != NULL;
    if (is_there) {
        *receiver = handed.receivers[at];
        handed.receivers[at].handle.at = NULL;
    }
    pthread_mutex_unlock(&handed.lock);
    return is_there;
}

/* Receives some messages: numbers rise, by one unless there was a lap. */
static uint64_t receive_some(felter_receiver *receiver, uint64_t tries) {
    uint8_t buffer[MAX_BOARD / 8];
    uint64_t copies = 0, laps = 0, lapped = 0;
    uint32_t last = 0, sender, number;
    bool has_last = false, may_skip = false;
    for (; tries; tries--) {
        int32_t type_id;
        size_t len;
        int32_t code = felter_receive(receiver, &type_id, &len, &lapped, buffer, sizeof buffer);
        if (code == FELTER_LAPPED) {
            CHECK(lapped == ++laps);
            may_skip = true;
        } else if (code == FELTER_OK) {
            check(buffer, len, &sender, &number, handed.most);
            CHECK(!has_last || (may_skip ? number > last : number == last + 1));
            has_last = true;
            may_skip = false;
            last = number;
            copies++;
        } else {
            CHECK(code == FELTER_NO_MESSAGE);
            sched_yield();
        }
    }
    return copies;
}

static void *listen_on(void *with) {
    int at = (int)(intptr_t)with;
    uint64_t copies = 0, dice = (uint64_t)at;
    for (;;) {
        felter_receiver receiver = FELTER_EMPTY;
        pthread_mutex_lock(&handed.lock);
        bool is_over = handed.is_over;
        pthread_mutex_unlock(&handed.lock);
        if (take_receiver(at, &receiver)) {
            copies += receive_some(&receiver, 1 + mix(&dice) % 2000);
            felter_free(&receiver.handle);
        } else if (is_over) {
            return (void *)(uintptr_t)copies;
        } else {
            sched_yield();
        }
    }
}

/* Makes a receiver for a listener that has none. */
static void hand_out(felter_transmitter *transmitter) {
    pthread_mutex_lock(&handed.lock);
    for (int at = 0; at < LISTENERS; at++)
        if (!handed.receivers[at].handle.at)
            CHECK(felter_subscribe(transmitter, &handed.receivers[at]) == FELTER_OK);
    pthread_mutex_unlock(&handed.lock);
}

static void board_round(uint64_t *dice) {
    felter_transmitter transmitter = FELTER_EMPTY;
    pthread_t threads[LISTENERS];
    uint32_t capacity = MAX_BOARD >> mix(dice) % 4, number = 0;
    uint64_t start = mix(dice) % 3 ? 0 : LAST - (uint64_t)capacity * 64;
    uint8_t body[MAX_LEN];
    CHECK(felter_board_new_at(capacity, start, &transmitter) == FELTER_OK);
    handed.is_over = false;
    handed.most = MAX_LEN;
    for (int at = 0; at < LISTENERS; at++)
        CHECK(pthread_create(&threads[at], NULL, listen_on, (void *)(intptr_t)at) == 0);
    for (; number < 4 * MESSAGES; number++) {
        size_t len = fill(body, 0, number, MAX_LEN);
        int32_t code = felter_transmit(&transmitter, 1, body, len);
        if (code == FELTER_POSITION_LIMIT) break;
        CHECK(code == FELTER_OK);
        if (mix(dice) % 64 == 0) hand_out(&transmitter);
        if (mix(dice) % 16 == 0) sched_yield();
    }
    pthread_mutex_lock(&handed.lock);
    handed.is_over = true;
    pthread_mutex_unlock(&handed.lock);
    felter_free(&transmitter.handle);
    for (int at = 0; at < LISTENERS; at++) {
        void *copies;
        pthread_join(threads[at], &copies);
        all_copies += (uintptr_t)copies;
    }
    all_limits += number < 4 * MESSAGES;
}

int main(int count, char **words) {
    if (count != 3) return 2;
    double seconds = atof(words[1]);
    uint64_t dice = strtoull(words[2], NULL, 10);
    time_t began = time(NULL);
    uint64_t rounds = 0;
    do {
        ring_round(&dice);
        board_round(&dice);
        rounds++;
    } while (difftime(time(NULL), began) < seconds);
    printf("%llu rounds, %llu messages, %llu copies, %llu producers freed under load, the last position reached %llu "
           "times\n", (unsigned long long)rounds, (unsigned long long)all_messages, (unsigned long long)all_copies,
           (unsigned long long)all_frees, (unsigned long long)all_limits);
    return 0;
}
