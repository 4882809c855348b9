/* Messages through a ring: in batches of one thread, and from producers to a consumer on threads of their own. */
#include "ring.h"
#include "worker.h"

#define BATCH 16

/* The body of a message: sevens, of which, if it is sparse, every other word is 0 but for the first and the last. */
static void fill_body(uint8_t *body, const struct request *request) {
    memset(body, 7, MAX_BODY);
    if (strcmp(request->workload, "sparse") != 0) return;
    for (uint32_t k = 8; k + 8 < request->size; k += 16) memset(body + k, 0, 8);
}

/* The messages of a batch that is published at once, and room for their bodies. */
struct batch {
    struct message messages[BATCH];
    uint8_t *bodies;
};

static void open_batch(struct batch *batch, const struct request *request) {
    uint8_t body[MAX_BODY];
    fill_body(body, request);
    batch->bodies = zeroed((size_t)BATCH * request->size);
    for (uint32_t k = 0; k < BATCH; k++) {
        uint8_t *at = memcpy(batch->bodies + (size_t)k * request->size, body, request->size);
        batch->messages[k] = (struct message){at, request->size, MESSAGE};
    }
}

/* Gives messages of a batch first words that count up. */
static void number_batch(struct batch *batch, uint32_t size, uint64_t first, uint64_t count) {
    for (uint64_t k = 0; k < count; k++) {
        uint64_t word = first + k;
        memcpy(batch->bodies + k * size, &word, 8);
    }
}

/* Writes some of the messages of a batch from one on: how many, or a refusal. */
static int32_t write_at_once(struct ring *ring, const struct request *request, struct batch *batch, uint64_t from,
                             uint64_t count) {
#if HAS_BATCHES
    return ring_write_batch(ring, request->is_for_one, batch->messages + from, (uint32_t)(count - from));
#else
    (void)ring, (void)request, (void)batch, (void)from, (void)count;
    wrong("this ring has no batches");
#endif
}

/* One thread ------------------------------------------------------------------------------------------------------- */

struct sum {
    uint64_t of, count;
};

static void add(void *with, int32_t type, const uint8_t *body, uint32_t len) {
    struct sum *sum = with;
    (void)type;
    sum->of += look(body, len);
    sum->count++;
}

static void write_each(struct ring *ring, const struct request *request, uint8_t *body, uint64_t from,
                       uint64_t count) {
    for (uint64_t number = from; number < from + count; number++) {
        memcpy(body, &number, 8);
        if (ring_write(ring, request->is_for_one, MESSAGE, body, request->size)) wrong("a write was refused");
    }
}

uint64_t run_batches(const struct request *request, uint64_t times) {
    struct ring ring;
    ring_open(&ring, request->capacity, 0);
    uint8_t body[MAX_BODY];
    fill_body(body, request);
    struct batch batch;
    open_batch(&batch, request);
    struct sum sum = {0, 0};
    uint64_t began = now_ns();
    for (uint64_t written = 0; written < times;) {
        uint64_t count = times - written < BATCH ? times - written : BATCH;
        if (request->in_batches) {
            number_batch(&batch, request->size, written, count);
            if (write_at_once(&ring, request, &batch, 0, count) != (int32_t)count) wrong("a batch was refused");
        } else {
            write_each(&ring, request, body, written, count);
        }
        written += count;
        for (int turns = 0; sum.count < written; turns++) {
            ring_read(&ring, LIMIT, add, &sum);
            if (turns > 1000000) wrong("a message was lost");
        }
    }
    uint64_t took = now_ns() - began;
    if (sum.of != times * (times - 1) / 2) wrong("other messages were read");
    free(batch.bodies);
    ring_close(&ring);
    return took;
}

/* Threads ---------------------------------------------------------------------------------------------------------- */

/* A producer's part. The first word of a message has the producer in its upper 16 bits, and a number below. */
struct producer {
    const struct request *request;
    struct ring *ring;
    atomic_bool *go;
    uint64_t id, messages;
    pthread_t thread;
};

static void produce_batches(struct producer *producer) {
    struct batch batch;
    open_batch(&batch, producer->request);
    for (uint64_t number = 0, count; number < producer->messages; number += count) {
        uint64_t left = producer->messages - number;
        unsigned turns = 0;
        count = left < BATCH ? left : BATCH;
        number_batch(&batch, producer->request->size, producer->id << 48 | number, count);
        for (uint64_t written = 0; written < count;) {
            int32_t some = write_at_once(producer->ring, producer->request, &batch, written, count);
            if (some > 0) written += (uint64_t)some;
            else rest(&turns);
        }
    }
    free(batch.bodies);
}

static void *produce(void *with) {
    struct producer *producer = with;
    const struct request *request = producer->request;
    uint8_t body[MAX_BODY];
    fill_body(body, request);
    while (!atomic_load(producer->go)) sched_yield();
    if (request->in_batches) {
        produce_batches(producer);
        return NULL;
    }
    for (uint64_t number = 0; number < producer->messages; number++) {
        uint64_t word = producer->id << 48 | number;
        memcpy(body, &word, 8);
        unsigned turns = 0;
        while (ring_write(producer->ring, request->is_for_one, MESSAGE, body, request->size)) rest(&turns);
    }
    return NULL;
}

/* The number of the next message of each producer. */
struct order {
    uint64_t next[MAX_THREADS];
    bool is_broken;
};

static void follow(void *with, int32_t type, const uint8_t *body, uint32_t len) {
    struct order *order = with;
    (void)type;
    uint64_t word = look(body, len), id = word >> 48;
    order->is_broken |= id >= MAX_THREADS || order->next[id % MAX_THREADS]++ != (word & 0xffffffffffff);
}

static void consume(struct ring *ring, uint64_t messages) {
    struct order order = {{0}, false};
    unsigned turns = 0;
    for (uint64_t got = 0; got < messages;) {
        uint32_t came = ring_read(ring, LIMIT, follow, &order);
        got += came;
        if (came) turns = 0;
        else rest(&turns);
    }
    if (order.is_broken) wrong("another order");
}

uint64_t run_flow(const struct request *request, uint64_t times) {
    struct ring ring;
    ring_open(&ring, request->capacity, 0);
    struct producer producers[MAX_THREADS];
    atomic_bool go = false;
    uint64_t given = 0;
    for (uint32_t id = 0; id < request->threads; id++) {
        uint64_t share = (times - given) / (request->threads - id);
        producers[id] = (struct producer){request, &ring, &go, id, share, 0};
        start_thread(&producers[id].thread, produce, &producers[id]);
        given += share;
    }
    uint64_t began = now_ns();
    atomic_store(&go, true);
    consume(&ring, times);
    uint64_t took = now_ns() - began;
    for (uint32_t id = 0; id < request->threads; id++) pthread_join(producers[id].thread, NULL);
    ring_close(&ring);
    return took;
}
