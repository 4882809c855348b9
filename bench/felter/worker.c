/* Measures what felter.h offers: a worker for bench/run, which speaks the line protocol of bench/README.md.
 *
 *     list                                          the workloads and contenders: has WORKLOAD CONTENDER
 *     run W CONTENDER SIZE CAPACITY THREADS MS      one measurement of some MS milliseconds: ns 42.5
 *
 * `felter-o2o` and `felter-m2o` read one message a call, `felter-o2o-batch` and `felter-m2o-batch` up to 64. A message
 * that is lost, doubled or out of order ends the program. */
#include "felter.h"

#include <pthread.h>
#include <sched.h>
#include <stdatomic.h>
#include <stdbool.h>
#include <stdio.h>
#include <stdlib.h>
#include <string.h>
#include <time.h>

/* The workloads, by the names of bench/README.md: batches of one thread, and those of which every other word is 0; two
 * threads; several producers; a command and its reply. */
#define BATCHES "batches"
#define SPARSE "sparse"
#define PAIR "pair"
#define CROWD "producers"
#define TRIPS "trips"

#define MOST_PRODUCERS 16
#define BATCH 64
#define POINTS 256

static void wrong(const char *what) {
    fprintf(stderr, "worker: wrong: %s\n", what);
    exit(3);
}

static uint64_t now_ns(void) {
    struct timespec at;
    clock_gettime(CLOCK_MONOTONIC, &at);
    return (uint64_t)at.tv_sec * 1000000000u + (uint64_t)at.tv_nsec;
}

/* The rest between two tries, as every worker has it: 64 pauses, then the processor is given away. */
static void rest(unsigned *turns) {
    if (++*turns <= 64) __builtin_ia32_pause();
    else sched_yield();
}

/* What a measurement is of. */
struct point {
    char workload[16];
    bool is_one, is_batch;
    uint32_t size, capacity, threads;
};

/* A ring's ends, and the consumer's buffer. */
struct ring {
    felter_producer producer;
    felter_consumer consumer;
    bool is_batch;
    uint8_t *buffer;
    size_t room;
};

static void open_ring(struct ring *ring, const struct point *of) {
    memset(ring, 0, sizeof *ring);
    int32_t code = of->is_one ? felter_one_to_one_new(of->capacity, &ring->producer, &ring->consumer)
                              : felter_many_to_one_new(of->capacity, &ring->producer, &ring->consumer);
    ring->is_batch = of->is_batch;
    ring->room = (size_t)BATCH * FELTER_SPAN(of->size);
    ring->buffer = malloc(ring->room);
    if (code != FELTER_OK || !ring->buffer) wrong("no ring");
}

static void close_ring(struct ring *ring) {
    felter_free(&ring->producer.handle);
    felter_free(&ring->consumer.handle);
    free(ring->buffer);
}

/* Looks at the first and the last 8 bytes of a message. */
static uint64_t look(const uint8_t *body, size_t len) {
    uint64_t first, last;
    memcpy(&first, body, 8);
    memcpy(&last, body + len - 8, 8);
    __asm__ volatile("" : : "r"(last));
    return first;
}

/* Reads what a call gives, up to 64 messages, and shows each its first word. */
static uint32_t drain(struct ring *ring, void (*on)(void *, uint64_t), void *with) {
    if (ring->is_batch) {
        uint32_t count = 0;
        size_t used;
        int32_t code = felter_read_batch(&ring->consumer, BATCH, &count, &used, ring->buffer, ring->room);
        if (code == FELTER_NO_MESSAGE) return 0;
        if (code != FELTER_OK) wrong("a batch was refused");
        const uint8_t *at = ring->buffer;
        for (uint32_t k = 0; k < count; k++) {
            const felter_record *record = (const felter_record *)at;
            on(with, look(at + sizeof *record, record->len));
            at += FELTER_SPAN(record->len);
        }
        return count;
    }
    uint32_t count = 0;
    for (; count < BATCH; count++) {
        int32_t type_id;
        size_t len;
        int32_t code = felter_read(&ring->consumer, &type_id, &len, ring->buffer, ring->room);
        if (code == FELTER_NO_MESSAGE) break;
        if (code != FELTER_OK) wrong("a read was refused");
        on(with, look(ring->buffer, len));
    }
    return count;
}

/* One thread: a batch of 16 is written, then read --------------------------------------------------------------- */

struct sum {
    uint64_t of, got;
};

static void add(void *with, uint64_t first) {
    struct sum *sum = with;
    sum->of += first;
    sum->got++;
}

static uint64_t alone(const struct point *of, uint64_t messages) {
    struct ring ring;
    open_ring(&ring, of);
    uint8_t body[4096];
    memset(body, 7, sizeof body);
    bool is_sparse = strcmp(of->workload, SPARSE) == 0;
    for (uint32_t k = 8; is_sparse && k + 8 < of->size; k += 16) memset(body + k, 0, 8);
    struct sum sum = {0, 0};
    uint64_t began = now_ns(), at = 0;
    while (at < messages) {
        for (int k = 0; k < 16; k++, at++) {
            memcpy(body, &at, 8);
            if (felter_write(&ring.producer, 1, body, of->size) != FELTER_OK) wrong("a write was refused");
        }
        while (sum.got < at)
            if (!drain(&ring, add, &sum)) wrong("a message was lost");
    }
    uint64_t took = now_ns() - began;
    if (sum.of != at * (at - 1) / 2) wrong("other messages were read");
    close_ring(&ring);
    return (uint64_t)((double)took * (double)messages / (double)at);
}

/* Producers and a consumer, each on a thread --------------------------------------------------------------------- */

/* (each on lines of its own, since a call writes its handle) */
struct sender {
    _Alignas(128) felter_producer producer;
    pthread_t thread;
    uint64_t id, messages;
    uint32_t size;
    atomic_bool *go;
};

static void *send(void *its) {
    struct sender *sender = its;
    uint8_t body[4096];
    memset(body, 7, sizeof body);
    while (!atomic_load(sender->go)) sched_yield();
    for (uint64_t k = 0; k < sender->messages; k++) {
        uint64_t word = sender->id << 48 | k;
        memcpy(body, &word, 8);
        for (unsigned turns = 0; felter_write(&sender->producer, 1, body, sender->size) != FELTER_OK;) rest(&turns);
    }
    return NULL;
}

struct order {
    uint64_t next[MOST_PRODUCERS];
};

static void follow(void *with, uint64_t first) {
    struct order *order = with;
    uint64_t id = first >> 48;
    if (id >= MOST_PRODUCERS || order->next[id]++ != (first & 0xffffffffffffu)) wrong("another order");
}

static uint64_t flow(const struct point *of, uint64_t messages) {
    struct ring ring;
    open_ring(&ring, of);
    atomic_bool go = false;
    struct sender senders[MOST_PRODUCERS];
    memset(senders, 0, sizeof senders);
    uint32_t count = strcmp(of->workload, PAIR) == 0 ? 1 : of->threads;
    uint64_t each = messages / count + 1;
    for (uint32_t id = 0; id < count; id++) {
        struct sender *it = &senders[id];
        it->id = id, it->messages = each, it->size = of->size, it->go = &go;
        if (id == 0) it->producer = ring.producer, memset(&ring.producer, 0, sizeof ring.producer);
        else if (felter_split(&senders[0].producer, &it->producer) != FELTER_OK) wrong("no split");
    }
    for (uint32_t id = 0; id < count; id++)
        if (pthread_create(&senders[id].thread, NULL, send, &senders[id])) wrong("no thread");
    struct order order = {{0}};
    uint64_t got = 0, began = now_ns();
    atomic_store(&go, true);
    for (unsigned turns = 0; got < each * count;) {
        uint32_t came = drain(&ring, follow, &order);
        got += came;
        if (came) turns = 0;
        else rest(&turns);
    }
    uint64_t took = now_ns() - began;
    for (uint32_t id = 0; id < count; id++) {
        pthread_join(senders[id].thread, NULL);
        felter_free(&senders[id].producer.handle);
    }
    close_ring(&ring);
    return (uint64_t)((double)took * (double)messages / (double)(each * count));
}

/* A command to the conductor and its reply back -------------------------------------------------------------------- */

struct service {
    felter_conductor conductor;
    atomic_bool stop;
};

static void *conduct(void *its) {
    struct service *service = its;
    unsigned turns = 0;
    while (!atomic_load_explicit(&service->stop, memory_order_relaxed)) {
        uint64_t messages = 0;
        int32_t stopped;
        if (felter_conductor_work(&service->conductor, 0, BATCH, &messages, &stopped) != FELTER_OK) wrong("no work");
        if (messages) turns = 0;
        else rest(&turns);
    }
    return NULL;
}

/* Waits for the reply to a command, and gives its number. */
static int64_t hear(felter_client *client, uint64_t correlation) {
    for (unsigned turns = 0;;) {
        int32_t kind;
        int64_t number;
        uint64_t lapped;
        int32_t code = felter_poll(client, correlation, &kind, &number, &lapped);
        if (code == FELTER_OK) {
            if (kind == FELTER_REPLY_REFUSED) wrong("a command was refused");
            return number;
        }
        if (code == FELTER_NO_MESSAGE) rest(&turns);
        else if (code != FELTER_OTHER_REPLY) wrong("no reply");
    }
}

static void trips(const struct point *of, uint64_t count, uint32_t *ns) {
    struct service service;
    memset(&service, 0, sizeof service);
    felter_client client = FELTER_EMPTY;
    if (felter_conductor_new(of->capacity, of->capacity, 16, 0, &service.conductor) != FELTER_OK ||
        felter_conductor_client(&service.conductor, &client) != FELTER_OK)
        wrong("no conductor");
    pthread_t thread;
    if (pthread_create(&thread, NULL, conduct, &service)) wrong("no thread");
    uint64_t id;
    if (felter_send_allocate(&client, 1, NULL, 0, NULL, 0, &id) != FELTER_OK) wrong("no command");
    uint32_t counter = (uint32_t)hear(&client, id);
    uint64_t last = now_ns();
    for (uint64_t k = 0; k < count; k++) {
        if (felter_send_set(&client, counter, (int64_t)k, &id) != FELTER_OK) wrong("no command");
        hear(&client, id);
        uint64_t now = now_ns();
        ns[k] = (uint32_t)(now - last);
        last = now;
    }
    atomic_store(&service.stop, true);
    pthread_join(thread, NULL);
    uint64_t received = 0, left = 0;
    if (felter_conductor_join(&service.conductor, &client) != FELTER_OK ||
        felter_conductor_finish(&service.conductor, &received, &left) != FELTER_OK)
        wrong("no end");
    if (received != count + 1 || left != 0) wrong("commands were lost");
}

/* Requests ---------------------------------------------------------------------------------------------------------- */

/* How many messages fill a measurement of a line, found once. */
struct filled {
    char line[128];
    uint64_t messages;
};

static bool has_threads(const struct point *of) {
    return strcmp(of->workload, PAIR) == 0 || strcmp(of->workload, CROWD) == 0;
}

static uint64_t run_ring(const struct point *of, uint64_t messages) {
    return has_threads(of) ? flow(of, messages) : alone(of, messages);
}

static uint64_t run_trips(const struct point *of, uint64_t messages) {
    uint32_t *ns = malloc(messages * sizeof *ns);
    if (!ns) wrong("no memory");
    uint64_t began = now_ns();
    trips(of, messages, ns);
    uint64_t took = now_ns() - began;
    free(ns);
    return took;
}

/* Doubles the messages until a measurement takes half of the time that is wanted, and then fills it. */
static uint64_t fill(const char *line, uint64_t (*run)(const struct point *, uint64_t), const struct point *of,
                     double ms) {
    static struct filled known[POINTS];
    static int count;
    for (int k = 0; k < count; k++)
        if (strcmp(known[k].line, line) == 0) return known[k].messages;
    uint64_t messages = 2000;
    uint64_t took = run(of, messages);
    while ((double)took < ms * 5e5 && messages < 50000000) {
        messages *= 2;
        took = run(of, messages);
    }
    messages = (uint64_t)((double)messages * ms * 1e6 / (double)took) + 1;
    if (count < POINTS) {
        snprintf(known[count].line, sizeof known[count].line, "%s", line);
        known[count++].messages = messages;
    }
    return messages;
}

static int rising(const void *one, const void *other) {
    uint32_t a = *(const uint32_t *)one, b = *(const uint32_t *)other;
    return (a > b) - (a < b);
}

static void say_trips(const struct point *of, uint64_t messages) {
    uint32_t *ns = malloc(messages * sizeof *ns);
    if (!ns) wrong("no memory");
    trips(of, messages, ns);
    double sum = 0;
    for (uint64_t k = 0; k < messages; k++) sum += ns[k];
    qsort(ns, messages, sizeof *ns, rising);
    static const struct {
        const char *name;
        uint64_t part;
    } metrics[] = {{"p50", 5000}, {"p90", 9000}, {"p99", 9900}, {"p999", 9990}, {"p9999", 9999}};
    printf("mean %.1f\n", sum / (double)messages);
    for (size_t k = 0; k < sizeof metrics / sizeof *metrics; k++)
        printf("%s %u\n", metrics[k].name, ns[messages * metrics[k].part / 10000]);
    free(ns);
}

static void answer(const char *line) {
    struct point of;
    memset(&of, 0, sizeof of);
    char name[64];
    double ms;
    if (sscanf(line, "run %15s %63s %u %u %u %lf", of.workload, name, &of.size, &of.capacity, &of.threads, &ms) != 6 ||
        strncmp(name, "felter-", 7) != 0 || of.size < 8 || of.size > 4096 || of.threads > MOST_PRODUCERS) {
        printf("error no such line\n");
        return;
    }
    of.is_one = strncmp(name + 7, "o2o", 3) == 0;
    of.is_batch = strstr(name, "-batch") != NULL;
    if (strcmp(of.workload, TRIPS) == 0) {
        say_trips(&of, fill(line, run_trips, &of, ms));
        return;
    }
    uint64_t messages = fill(line, run_ring, &of, ms);
    printf("ns %.3f\n", (double)run_ring(&of, messages) / (double)messages);
}

static void list(void) {
    static const char *const names[] = {"felter-o2o", "felter-m2o", "felter-o2o-batch", "felter-m2o-batch"};
    for (int k = 0; k < 4; k++) {
        printf("has " BATCHES " %s\nhas " SPARSE " %s\nhas " PAIR " %s\n", names[k], names[k], names[k]);
        if (strstr(names[k], "m2o")) printf("has " CROWD " %s\n", names[k]);
    }
    printf("has " TRIPS " felter-m2o\n");
}

int main(void) {
    char line[128];
    while (fgets(line, sizeof line, stdin)) {
        line[strcspn(line, "\n")] = 0;
        if (strcmp(line, "quit") == 0) break;
        if (strcmp(line, "list") == 0) list();
        else answer(line);
        printf("end\n");
        fflush(stdout);
    }
    return 0;
}
