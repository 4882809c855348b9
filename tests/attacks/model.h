/* A model in C of rings, broadcast buffers and counters for one thread, written from docs/FORMATS.md and docs/MODEL.md:
 * lists of records in place of words. Calls answer codes of felter.h. It takes no memory. */
#ifndef ATTACKS_MODEL_H
#define ATTACKS_MODEL_H

#include "felter.h"

#include <stdbool.h>

#define MAX_CAPACITY 16384
#define MAX_RECORDS (MAX_CAPACITY / 8)
#define ALL_SHARES 65536
#define LAST ((uint64_t)1 << 62)
#define MAX_COUNTERS 8
#define MAX_KEY 112
#define MAX_LABEL 380

/* Records: those of a ring that were not passed yet, and those of a broadcast buffer that are whole. */
enum record_state { OPEN, COMMITTED, ABORTED, PADDED };

struct record {
    uint64_t place, span;
    enum record_state state;
    int32_t type_id;
    uint32_t len;
    int owner; /* the producer of an open claim */
};

struct records {
    uint32_t capacity, first, count;
    uint64_t tail;
    struct record of[MAX_RECORDS];
    uint8_t bodies[MAX_CAPACITY]; /* by place, modulo the capacity */
};

struct model_ring {
    struct records records;
    uint64_t head, drawn, heartbeat;
};

struct model_board {
    struct records records;
    uint64_t latest;
};

/* What a receiver has seen. */
struct model_receiver {
    uint64_t place, lapped;
    uint64_t lap_place, lap_intent; /* of the last lap */
};

struct model_counter {
    bool was_used, is_used;
    int32_t type_id;
    uint8_t key[MAX_KEY], label[MAX_LABEL];
    uint32_t label_len;
    uint64_t registration, owner, due;
    int64_t value;
};

struct model_counters {
    uint32_t count, reuse_ms, freed[MAX_COUNTERS], waiting;
    struct model_counter of[MAX_COUNTERS];
};

/* What a counter is allocated with. */
struct description {
    int32_t type_id;
    const uint8_t *key, *label;
    uint32_t key_len, label_len;
    uint64_t registration, owner;
};

int32_t model_capacity(uint32_t capacity, uint32_t least, uint64_t start);

void model_ring_open(struct model_ring *ring, uint32_t capacity, uint64_t start);
/* The record of a message that is claimed. */
int32_t model_claim(struct model_ring *ring, int32_t type_id, size_t len, struct record **claimed);
uint8_t *model_body(struct records *records, const struct record *record);
/* The open claim of an owner at a place, or NULL. */
struct record *model_find(struct model_ring *ring, int owner, uint64_t place);
struct record *model_at(struct records *records, uint32_t k);
/* The first message that a read finds, or NULL: padding and aborted claims before it are passed. */
struct record *model_next(struct model_ring *ring);
/* Passes records up to a head that a read left: whether it may have. */
bool model_pass(struct model_ring *ring, uint64_t head);
uint64_t model_left(struct model_ring *ring);

void model_board_open(struct model_board *board, uint32_t capacity, uint64_t start);
int32_t model_transmit(struct model_board *board, int32_t type_id, const uint8_t *body, size_t len);
/* FELTER_OK with the record, FELTER_NO_MESSAGE or FELTER_LAPPED. */
int32_t model_receive(struct model_board *board, struct model_receiver *receiver, struct record **record);
bool model_is_whole(const struct model_board *board, uint64_t place);

void model_counters_open(struct model_counters *counters, uint32_t count, uint32_t reuse_ms);
int32_t model_allocate(struct model_counters *counters, uint64_t now, const struct description *of, uint32_t *id);
int32_t model_used(const struct model_counters *counters, uint32_t id);
void model_free(struct model_counters *counters, uint64_t now, uint32_t id);
/* The state of a record, and the moment from which its id may be allocated again. */
int32_t model_state(const struct model_counters *counters, uint32_t id);
uint64_t model_deadline(const struct model_counters *counters, uint32_t id);
/* How many counters can be allocated, one after another. */
uint32_t model_available(const struct model_counters *counters, uint64_t now);
uint32_t model_close_owner(struct model_counters *counters, uint64_t now, uint64_t owner);

#endif
