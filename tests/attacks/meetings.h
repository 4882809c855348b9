/* What the meetings share: checks, choices, the bytes of messages, what one thread writes for others to load, and
 * handles that go from an owner to a thread and back. */
#ifndef ATTACKS_MEETINGS_H
#define ATTACKS_MEETINGS_H

#include "model.h"

#include <pthread.h>
#include <sched.h>
#include <stdatomic.h>
#include <stdio.h>
#include <stdlib.h>
#include <string.h>

/* Ends the program, and says where. */
_Noreturn void failed(const char *what, const char *file, int line);

#define CHECK(holds) ((holds) ? (void)0 : failed(#holds, __FILE__, __LINE__))

/* A choice below a number. Each thread has dice of its own. */
uint64_t pick(uint64_t *dice, uint64_t below);
static inline bool once_in(uint64_t *dice, uint64_t times) { return pick(dice, times) == 0; }
/* Mostly nothing. Now and then the thread stops for so long that others overtake it. */
void stall(uint64_t *dice);

/* The bytes of a message follow from its lane and its number. Short ones, which fill no word, are as likely as all
 * others. */
size_t len_of(uint32_t lane, uint64_t number, size_t most);
void fill(uint8_t *body, uint32_t lane, uint64_t number, size_t len);
bool is_message(const uint8_t *body, uint32_t lane, uint64_t number, size_t len);

/* The greatest number that any thread has seen. */
void raise_to(_Atomic uint64_t *greatest, uint64_t number);

/* Writes ----------------------------------------------------------------------------------------------------------- */

#define MAX_WRITES 60000
#define WORDS 8

/* What one thread writes into words that begin as 0, one write after another, and how far it is. */
struct story {
    _Atomic uint64_t begun, done;
    struct {
        uint32_t word;
        uint64_t value;
    } writes[MAX_WRITES];
};

/* Says that a write begins, before the call that does it, and that it was done. */
void will_write(struct story *story, uint32_t word, uint64_t value);
void has_written(struct story *story);
bool is_full(const struct story *story);

/* What a thread has seen of a story: the words after the first writes, this many. */
struct view {
    uint64_t seen, words[WORDS];
};

/* Checks a value that a thread loaded: the word has it after some writes. These are at least those that were done when
 * the load began, and those that the thread has seen; and at most those that have begun. */
void check_load(const struct story *story, struct view *view, uint64_t done, uint32_t word, uint64_t value);

/* Handles ---------------------------------------------------------------------------------------------------------- */

/* How many handles an owner gave to threads, how many of these were on their way back, or being freed, and how many
 * were joined or freed. */
struct office {
    _Atomic uint64_t given, leaving, gone;
    atomic_bool is_over;
};

/* A thread that uses one handle after another. It gives each of them back, or frees it. */
struct worker {
    pthread_t thread;
    struct office *office;
    void (*use)(struct worker *worker);
    uint64_t dice, tag;
    union {
        felter_handle handle;
        felter_producer producer;
        felter_receiver receiver;
        felter_raw_receiver raw;
        felter_reader reader;
        felter_adder adder;
        felter_client client;
    } its;
    pthread_mutex_t lock;
    felter_handle given, back;
    bool is_idle;
};

void start(struct worker *worker, struct office *office, uint64_t dice, void (*use)(struct worker *worker));
/* Whether the thread has no handle. The owner asks this before it gives one, which is then empty here. */
bool is_idle(struct worker *worker);
void give(struct worker *worker, felter_handle *handle, uint64_t tag);
/* Takes a handle that the thread gave back. The owner joins it, and then says so by `has_joined`. */
bool take_back(struct worker *worker, felter_handle *handle);
void has_joined(struct office *office);
static inline bool all_gone(struct office *office) { return atomic_load(&office->gone) == office->given; }
static inline bool all_leave(struct office *office) { return atomic_load(&office->leaving) == office->given; }

/* Meetings --------------------------------------------------------------------------------------------------------- */

extern struct totals {
    uint64_t copies, validated, laps, values, writes, additions, messages, loads, controlled, asked, commands, replies,
        structures;
} totals;

/* A round of each. */
void meet_at_board(uint64_t *dice);
void meet_at_counters(uint64_t *dice);
void meet_at_adders(uint64_t *dice);
void meet_at_ring(uint64_t *dice);
void meet_at_conductor(uint64_t *dice);

#endif
