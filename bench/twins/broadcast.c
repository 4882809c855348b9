/* A transmitter at full speed and receivers, each on a thread. */
#include "board.h"
#include "worker.h"

struct listener {
    struct receiver receiver;
    const atomic_bool *is_over;
    atomic_uint *ready;
    uint64_t copies, last;
    pthread_t thread;
};

static void note(struct listener *listener) {
    uint64_t number = look(listener->receiver.copy, listener->receiver.len);
    if (listener->copies && number <= listener->last) wrong("another order of copies");
    listener->last = number;
    listener->copies++;
}

static void *listen_to_all(void *with) {
    struct listener *listener = with;
    unsigned turns = 0;
    atomic_fetch_add(listener->ready, 1);
    for (;;) {
        bool was_over = atomic_load(listener->is_over);
        enum reception got = board_receive(&listener->receiver);
        if (got == COPIED) {
            note(listener);
            turns = 0;
        } else if (got == NOTHING) {
            if (was_over) return NULL;
            rest(&turns);
        }
    }
}

static uint64_t transmit_all(struct board *board, uint32_t size, uint64_t times) {
    uint8_t body[MAX_BODY];
    memset(body, 7, sizeof body);
    uint64_t began = now_ns();
    for (uint64_t number = 0; number < times; number++) {
        memcpy(body, &number, 8);
        if (board_transmit(board, MESSAGE, body, size)) wrong("a transmission was refused");
    }
    return now_ns() - began;
}

uint64_t run_broadcast(const struct request *request, uint64_t times, struct received *received) {
    struct board board;
    static struct listener listeners[MAX_THREADS];
    uint32_t receivers = request->threads;
    atomic_bool is_over = false;
    atomic_uint ready = 0;
    board_open(&board, request->capacity, 0);
    for (uint32_t k = 0; k < receivers; k++) {
        memset(&listeners[k], 0, sizeof listeners[k]);
        listeners[k].is_over = &is_over;
        listeners[k].ready = &ready;
        receiver_open(&listeners[k].receiver, &board);
        start_thread(&listeners[k].thread, listen_to_all, &listeners[k]);
    }
    while (atomic_load(&ready) < receivers) sched_yield();
    uint64_t took = transmit_all(&board, request->size, times);
    atomic_store(&is_over, true);
    *received = (struct received){0, 0};
    for (uint32_t k = 0; k < receivers; k++) {
        pthread_join(listeners[k].thread, NULL);
        if (listeners[k].last != times - 1) wrong("the last message was not copied");
        received->copies += listeners[k].copies;
        received->laps += listeners[k].receiver.lapped;
        receiver_close(&listeners[k].receiver);
    }
    board_close(&board);
    return took;
}
