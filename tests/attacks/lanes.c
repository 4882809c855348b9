/* Rings of both kinds, of one to four producers. Each producer sends a lane of messages of 0 bytes up to the longest, by
 * writes, batches and claims that are put whole, in part or not at all, several of them open and settled in any order,
 * some aborted. The reader reads single messages and batches, or looks at a message before it is taken, and asks what is
 * before it. All handles go from thread to thread between two phases of a round.
 *
 *     lanes SECONDS SEED     rounds until the time is over; prints how much that was
 *
 * Every byte of a message follows from its lane and its number, and the type id is the lane's. */
#include "felter.h"

#include <pthread.h>
#include <sched.h>
#include <stdatomic.h>
#include <stdbool.h>
#include <stdio.h>
#include <stdlib.h>
#include <string.h>
#include <time.h>

#define LANES 4
#define OPEN 6
#define PHASES 3
#define MESSAGES 1500
#define MAX_LEN 2048

#define CHECK(holds) \
    do { \
        if (!(holds)) { \
            fprintf(stderr, "lanes.c:%d: not so: %s\n", __LINE__, #holds); \
            abort(); \
        } \
    } while (0)

static uint64_t all_messages, all_claims, all_aborted, all_peeks, all_asked;

static uint64_t mix(uint64_t *state) {
    *state += 0x9e3779b97f4a7c15;
    uint64_t mixed = (*state ^ *state >> 30) * 0xbf58476d1ce4e5b9;
    return mixed ^ mixed >> 29;
}

/* Messages --------------------------------------------------------------------------------------------------------- */

/* How much of a message its sender puts: the bytes after that are 0. */
struct shape {
    size_t len, put;
};

static struct shape shape_of(uint32_t lane, uint32_t number, size_t most) {
    uint64_t state = ((uint64_t)lane << 32) + number;
    uint64_t one = mix(&state), two = mix(&state);
    /* (short ones, which fill no word, are as likely as all others) */
    size_t len = one % 2 ? (one >> 8) % 9 : (one >> 8) % (most + 1);
    if (len > most) len = most;
    bool is_claim = two % 3 == 0;
    return (struct shape){len, is_claim ? (two >> 8) % (len + 1) : len};
}

static void fill(uint8_t *body, uint32_t lane, uint32_t number, size_t most) {
    struct shape its = shape_of(lane, number, most);
    uint64_t state = ((uint64_t)number << 32) + lane;
    for (size_t k = 0; k < its.len; k++) body[k] = k < its.put ? (uint8_t)(1 + mix(&state) % 255) : 0;
}

/* Senders ---------------------------------------------------------------------------------------------------------- */

struct claim {
    uint64_t place;
    uint32_t number;
    bool is_open, is_lost;
};

struct sender {
    felter_producer producer;
    uint32_t lane, sent;
    size_t most;
    uint64_t dice, claims, aborted;
    struct claim open[OPEN];
    uint32_t until;
};

static bool must_wait(int32_t code) {
    CHECK(code == FELTER_OK || code == FELTER_CONTENDED || code == FELTER_INSUFFICIENT_CAPACITY);
    return code != FELTER_OK;
}

static void settle(struct sender *sender, struct claim *claim) {
    uint8_t body[MAX_LEN];
    struct shape its = shape_of(sender->lane, claim->number, sender->most);
    if (claim->is_lost) {
        CHECK(felter_abort(&sender->producer, claim->place) == FELTER_OK);
        sender->aborted++;
    } else {
        fill(body, sender->lane, claim->number, sender->most);
        /* (in two parts, the second one first) */
        size_t half = its.put / 2;
        CHECK(felter_put(&sender->producer, claim->place, half, body + half, its.put - half) == FELTER_OK);
        CHECK(felter_put(&sender->producer, claim->place, 0, body, half) == FELTER_OK);
        CHECK(felter_commit(&sender->producer, claim->place) == FELTER_OK);
    }
    CHECK(felter_commit(&sender->producer, claim->place) == FELTER_NO_CLAIM);
    claim->is_open = false;
}

static void settle_all(struct sender *sender) {
    for (int k = 0; k < OPEN; k++) {
        struct claim *claim = &sender->open[(k * 5 + (int)(sender->dice % OPEN)) % OPEN];
        if (claim->is_open) settle(sender, claim);
    }
}

/* Claims the next message, or one that will be aborted. */
static bool claim_next(struct sender *sender) {
    struct claim *claim = NULL;
    for (int k = 0; k < OPEN && !claim; k++)
        if (!sender->open[k].is_open) claim = &sender->open[k];
    if (!claim) return false;
    claim->is_lost = mix(&sender->dice) % 4 == 0;
    claim->number = sender->sent;
    struct shape its = shape_of(sender->lane, claim->number, sender->most);
    size_t len = claim->is_lost ? mix(&sender->dice) % (sender->most + 1) : its.len;
    if (must_wait(felter_claim(&sender->producer, 1 + (int32_t)sender->lane, len, &claim->place))) return false;
    claim->is_open = true;
    sender->sent += !claim->is_lost;
    sender->claims++;
    return true;
}

static bool has_open(const struct sender *sender) {
    for (int k = 0; k < OPEN; k++)
        if (sender->open[k].is_open) return true;
    return false;
}

/* Writes some messages by one call, as many as are plain. */
static bool write_some(struct sender *sender) {
    static _Thread_local uint8_t records[4 * (MAX_LEN + 16)] __attribute__((aligned(8)));
    size_t bytes = 0;
    uint32_t count = 0, written = 0;
    for (; count < 4 && sender->sent + count < sender->until; count++) {
        struct shape its = shape_of(sender->lane, sender->sent + count, sender->most);
        felter_record head = {its.len, 1 + (int64_t)sender->lane};
        if (its.put != its.len) break;
        memcpy(records + bytes, &head, sizeof head);
        fill(records + bytes + sizeof head, sender->lane, sender->sent + count, sender->most);
        bytes += FELTER_SPAN(its.len);
    }
    if (!count) return false;
    bool waits = must_wait(felter_write_batch(&sender->producer, records, bytes, &written));
    CHECK(written <= count && (waits || written == count));
    sender->sent += written;
    return written > 0;
}

static bool write_next(struct sender *sender) {
    uint8_t body[MAX_LEN];
    struct shape its = shape_of(sender->lane, sender->sent, sender->most);
    if (its.put != its.len) return claim_next(sender);
    fill(body, sender->lane, sender->sent, sender->most);
    if (must_wait(felter_write(&sender->producer, 1 + (int32_t)sender->lane, its.len ? body : NULL, its.len)))
        return false;
    sender->sent++;
    return true;
}

static atomic_uint senders_left;

static void *send_phase(void *with) {
    struct sender *sender = with;
    for (unsigned turns = 0; sender->sent < sender->until;) {
        uint64_t way = mix(&sender->dice) % 8;
        bool is_done = way < 3 ? claim_next(sender) : way < 5 ? write_some(sender) : write_next(sender);
        if (is_done) {
            turns = 0;
        } else if (has_open(sender)) {
            settle_all(sender);
        } else if (++turns > 64) {
            sched_yield();
        }
        if (mix(&sender->dice) % 16 == 0) settle_all(sender);
    }
    settle_all(sender);
    atomic_fetch_sub(&senders_left, 1);
    return NULL;
}

/* The reader ------------------------------------------------------------------------------------------------------- */

struct reading {
    felter_consumer consumer;
    felter_producer asks; /* of a many-to-one ring: with it the reader asks what is before it */
    uint32_t next[LANES];
    size_t most;
    uint64_t dice, messages, peeks, asked;
};

static void check(struct reading *it, int64_t type_id, const uint8_t *body, size_t len) {
    static uint8_t wanted[MAX_LEN];
    uint32_t lane = (uint32_t)type_id - 1;
    CHECK(lane < LANES);
    fill(wanted, lane, it->next[lane], it->most);
    CHECK(len == shape_of(lane, it->next[lane], it->most).len && memcmp(wanted, body, len) == 0);
    it->next[lane]++;
    it->messages++;
}

static bool read_one(struct reading *it) {
    uint8_t buffer[MAX_LEN];
    size_t len = 0;
    int32_t type_id = 0, code = felter_read(&it->consumer, &type_id, &len, buffer, sizeof buffer);
    if (code == FELTER_NO_MESSAGE) return false;
    CHECK(code == FELTER_OK);
    check(it, type_id, buffer, len);
    return true;
}

static bool peek_and_take(struct reading *it) {
    uint8_t buffer[MAX_LEN], again[MAX_LEN];
    size_t len = 0, same = 0;
    int32_t type_id = 0, its = 0, code = felter_peek(&it->consumer, &type_id, &len, buffer, sizeof buffer);
    if (code == FELTER_NO_MESSAGE) return false;
    CHECK(code == FELTER_OK);
    if (len) CHECK(felter_peek(&it->consumer, &its, &same, again, len - 1) == FELTER_SHORT_BUFFER && same == len);
    CHECK(felter_peek(&it->consumer, &its, &same, again, len) == FELTER_OK);
    CHECK(its == type_id && same == len && memcmp(buffer, again, len) == 0);
    CHECK(felter_take(&it->consumer) == FELTER_OK);
    check(it, type_id, buffer, len);
    it->peeks++;
    return true;
}

static bool read_batch(struct reading *it) {
    static uint8_t buffer[1 << 13] __attribute__((aligned(8)));
    uint32_t count = 0;
    size_t used = 0, at = 0, room = FELTER_SPAN(it->most) + mix(&it->dice) % (sizeof buffer - FELTER_SPAN(it->most));
    int32_t code = felter_read_batch(&it->consumer, 1 + (uint32_t)(mix(&it->dice) % 20), &count, &used, buffer, room);
    if (code == FELTER_NO_MESSAGE) return false;
    CHECK(code == FELTER_OK && used <= room);
    for (uint32_t k = 0; k < count; k++) {
        const felter_record *record = (const void *)(buffer + at);
        check(it, record->type_id, buffer + at + sizeof *record, record->len);
        at += FELTER_SPAN(record->len);
    }
    CHECK(at == used);
    return true;
}

/* Asks what is before the reader: a message that is there is then read. */
static void ask(struct reading *it) {
    uint64_t head = 0;
    int32_t found = -1;
    if (!it->asks.handle.at) return;
    CHECK(felter_standing(&it->asks, &it->consumer, &found, &head) == FELTER_OK);
    CHECK(found >= FELTER_FOUND_MESSAGE && found <= FELTER_FOUND_CHANGE);
    if (found == FELTER_FOUND_MESSAGE) CHECK(read_one(it));
    it->asked++;
}

static void *read_phase(void *with) {
    struct reading *it = with;
    for (unsigned turns = 0;;) {
        bool is_last = atomic_load(&senders_left) == 0;
        uint64_t way = mix(&it->dice) % 8;
        if (way == 7) ask(it);
        bool found = way < 3 ? read_batch(it) : way < 5 ? peek_and_take(it) : read_one(it);
        if (found) turns = 0;
        else if (is_last) return NULL;
        else if (++turns > 64) sched_yield();
    }
}

/* Rounds ----------------------------------------------------------------------------------------------------------- */

static void open_ring(struct reading *reading, struct sender *senders, uint32_t lanes, bool is_one, uint32_t capacity) {
    felter_producer *first = &senders[0].producer;
    CHECK((is_one ? felter_one_to_one_new(capacity, first, &reading->consumer)
                  : felter_many_to_one_new(capacity, first, &reading->consumer)) == FELTER_OK);
    for (uint32_t lane = 1; lane < lanes; lane++) CHECK(felter_split(first, &senders[lane].producer) == FELTER_OK);
    if (!is_one) CHECK(felter_split(first, &reading->asks) == FELTER_OK);
}

/* Takes all producers back, and closes the ring: nothing is left in it. */
static void close_ring(struct reading *reading, struct sender *senders, uint32_t lanes) {
    uint64_t left = 1;
    for (uint32_t lane = 1; lane < lanes; lane++)
        CHECK(felter_join(&senders[0].producer, &senders[lane].producer) == FELTER_OK);
    if (reading->asks.handle.at) CHECK(felter_join(&senders[0].producer, &reading->asks) == FELTER_OK);
    CHECK(felter_close(&reading->consumer, &senders[0].producer) == FELTER_OK);
    CHECK(felter_finish(&reading->consumer, &left) == FELTER_OK && left == 0);
}

static void one_round(uint64_t *dice) {
    struct reading reading = {.dice = mix(dice)};
    struct sender senders[LANES];
    bool is_one = mix(dice) % 3 == 0;
    uint32_t lanes = is_one ? 1 : 1 + (uint32_t)(mix(dice) % LANES), capacity = 128u << mix(dice) % 8;
    memset(senders, 0, sizeof senders);
    reading.most = capacity / 8;
    for (uint32_t lane = 0; lane < lanes; lane++) {
        senders[lane].lane = lane;
        senders[lane].most = reading.most;
        senders[lane].dice = mix(dice);
    }
    open_ring(&reading, senders, lanes, is_one, capacity);
    for (uint32_t phase = 1; phase <= PHASES; phase++) {
        pthread_t threads[LANES], reader;
        atomic_store(&senders_left, lanes);
        for (uint32_t lane = 0; lane < lanes; lane++) {
            senders[lane].until = phase * MESSAGES / PHASES;
            CHECK(pthread_create(&threads[lane], NULL, send_phase, &senders[lane]) == 0);
        }
        CHECK(pthread_create(&reader, NULL, read_phase, &reading) == 0);
        for (uint32_t lane = 0; lane < lanes; lane++) pthread_join(threads[lane], NULL);
        pthread_join(reader, NULL);
        for (uint32_t lane = 0; lane < lanes; lane++) CHECK(reading.next[lane] == senders[lane].sent);
    }
    for (uint32_t lane = 0; lane < lanes; lane++) {
        all_claims += senders[lane].claims;
        all_aborted += senders[lane].aborted;
    }
    close_ring(&reading, senders, lanes);
    all_messages += reading.messages;
    all_peeks += reading.peeks;
    all_asked += reading.asked;
}

int main(int count, char **words) {
    if (count != 3) return 2;
    double seconds = atof(words[1]);
    uint64_t dice = strtoull(words[2], NULL, 10), rounds = 0;
    time_t began = time(NULL);
    do {
        one_round(&dice);
        rounds++;
    } while (difftime(time(NULL), began) < seconds);
    printf("%llu rings, %llu messages, %llu claims of which %llu were aborted, %llu looked at first, asked %llu times\n",
           (unsigned long long)rounds, (unsigned long long)all_messages, (unsigned long long)all_claims,
           (unsigned long long)all_aborted, (unsigned long long)all_peeks, (unsigned long long)all_asked);
    return 0;
}
