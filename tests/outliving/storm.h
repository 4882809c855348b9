/* What the program of tests/outlive shares: what the threads of a storm note, and what is listed after a kill. */
#ifndef OUTLIVING_STORM_H
#define OUTLIVING_STORM_H

#include "felter.h"

#include <stdbool.h>
#include <stddef.h>
#include <stdint.h>

#define PRODUCERS 4
/* The most messages that a read takes before the consumer notes them. */
#define BATCH 8
#define MAX_CAPACITY 65536
#define MAX_LENGTH (MAX_CAPACITY / 8)
#define MAX_MESSAGES (MAX_CAPACITY / 24)

/* What the threads of a storm note in memory that outlives them. Numbers of messages begin at 1. */
struct book {
    struct {
        volatile uint64_t acknowledged; /* each message up to this number was acknowledged */
        volatile uint64_t later;        /* a later message that was acknowledged, or 0 */
        volatile uint64_t shown;        /* the last message that the consumer was shown and has noted */
    } of[PRODUCERS];
    volatile uint64_t running; /* how many messages the read that is running may take before they are noted */
    volatile uint64_t peeked;  /* 1 plus the producer whose last shown message is not yet taken, or 0 */
    volatile uint64_t wrong;   /* messages that were not the next ones of their producers, or not whole */
};

/* A message of a producer: its type id, its length and its bytes, which follow from its number. */
struct message {
    int32_t type_id;
    uint32_t len;
    unsigned char body[MAX_LENGTH];
};
void make_message(struct message *message, unsigned who, uint64_t number, uint32_t longest);
/* Finds the producer and the number of a message. Returns whether the message is whole. */
bool know_message(int32_t type_id, const unsigned char *body, size_t len, uint32_t longest, unsigned *who,
                  uint64_t *number);

uint64_t mixed(uint64_t number);
/* A number below another one, from a state that is advanced. */
uint64_t pick(uint64_t *state, uint64_t below);

/* Makes a ring in the memory, and lets producers and a consumer run until the process is killed. */
_Noreturn void run_storm(void *memory, size_t length, uint32_t capacity, bool is_one, struct book *book, uint64_t seed);

/* A committed message of an image. */
struct found {
    unsigned who;
    int32_t type_id;
    uint64_t number, place;
    size_t mark, header, body; /* the bytes of the image at which its mark, its header and its body begin */
    uint32_t len;
    bool is_whole;
};

/* What an image has between head and tail. */
struct listing {
    bool is_image, is_wrong;
    uint64_t count, gaps, open, settled; /* messages, words without a mark, open claims, padding and aborted claims */
    struct found of[MAX_MESSAGES];
};
/* Lists an image as docs/FORMATS.md describes it. This is written without a look at the library. */
void list_image(const unsigned char *image, size_t length, struct listing *listing);

/* How many messages there were, and what was wrong. */
struct totals {
    uint64_t kills, unmade, acknowledged, shown, recovered, taken, again, open, gaps;
    uint64_t lost, torn, disordered, twice, damaged;
};
/* Compares a listing with what was noted. Returns whether nothing is wrong. */
bool judge(const struct book *book, const struct listing *listing, struct totals *totals);

/* A fault that is put into an image. */
enum fault { NO_FAULT, FLIPPED, DROPPED, DOUBLED, SWAPPED, FAULTS };
extern const char *const FAULT_NAMES[FAULTS];
/* Puts a fault into an image. Returns whether there was a place for it. */
bool plant(enum fault fault, unsigned char *image, const struct listing *listing, const struct book *book,
           uint64_t *state);

#endif
