/* A ring of the random calls, and the calls of its consumer. */
#ifndef ATTACKS_CALLS_RINGS_H
#define ATTACKS_CALLS_RINGS_H

#include "calls.h"

#define PRODUCERS 4

struct ring {
    bool is_there, is_one, has_consumer, has_closed;
    bool has[PRODUCERS];
    uint32_t shares[PRODUCERS];
    felter_producer producers[PRODUCERS];
    felter_consumer consumer;
    struct model_ring model;
    uint8_t *image; /* the memory of the caller in which the ring is, or NULL */
};

/* One of the producers that are there, or -1. */
int ring_some_producer(const struct ring *ring);

/* Each makes a call, and compares the result with the model. A read stays if its message is to be left in the ring. */
void ring_look_at_positions(struct ring *ring);
void ring_look_ahead(struct ring *ring, int at);
void ring_read_one(struct ring *ring, bool stays);
void ring_read_batch(struct ring *ring);
void ring_take_one(struct ring *ring);

/* Recovers the messages of the ring from its memory, and compares them with the model. Recovers from damaged copies. */
void ring_recover(struct ring *ring);

#endif
