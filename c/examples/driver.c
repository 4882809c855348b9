/* A conductor, two clients and a monitor, each on a thread of its own. The program prints c/examples/driver.out, as the
 * same program in Rust and crates/ring_uses/src/driver.rt do. To compile it:
 * cc -pthread -o driver c/examples/driver.c -Ic/out c/out/libfelter.a */
#include "felter.h"

#include <inttypes.h>
#include <pthread.h>
#include <sched.h>
#include <stdatomic.h>
#include <stdio.h>
#include <string.h>

/* The capacity of the command ring, in bytes. The ring takes commands of up to 32 bytes, and is often full. */
#define RING 256
/* The capacity of the board, in bytes. A reply takes at most 24 bytes. So the board has room for all 2,002 replies, and
 * no client is lapped. */
#define BOARD 65536
#define CLIENTS 2
#define BATCH 8
#define BATCHES 125

/* A client that counts up, with the results of its run. */
struct caller {
    const char *label;
    felter_client client;
    int64_t counter;
    uint64_t replies, laps;
};

static felter_conductor conductor = FELTER_EMPTY;
static felter_reader reader = FELTER_EMPTY;
static struct caller callers[CLIENTS] = {{"requests", FELTER_EMPTY, -1, 0, 0}, {"errors", FELTER_EMPTY, -1, 0, 0}};
static atomic_int stop;
static int saw_fall;

/* Returns whether the caller should send the command again. If another client was faster, the caller tries again at
 * once. If the ring is full, the conductor must take a command first. */
static int again(int32_t code) {
    if (code == FELTER_INSUFFICIENT_CAPACITY) sched_yield();
    return code == FELTER_INSUFFICIENT_CAPACITY || code == FELTER_CONTENDED;
}

/* Waits for the reply to the command with this id. Returns its kind, or 0 if replies were missed. */
static int32_t hear(struct caller *it, uint64_t id, int64_t *number) {
    for (;;) {
        int32_t kind = 0;
        uint64_t lapped = 0;
        switch (felter_poll(&it->client, id, &kind, number, &lapped)) {
        case FELTER_OK:
            it->replies++;
            return kind;
        case FELTER_OTHER_REPLY:
            break;
        case FELTER_NO_MESSAGE:
            sched_yield();
            break;
        default:
            it->laps++;
            return 0;
        }
    }
}

/* Sends commands that set the counter to the next numbers, and then waits for the replies. */
static int set_batch(struct caller *it, int64_t first) {
    uint64_t ids[BATCH];
    int64_t number;
    for (int i = 0; i < BATCH; i++) {
        int32_t code;
        while (again(code = felter_send_set(&it->client, (uint32_t)it->counter, first + i, &ids[i]))) continue;
        if (code != FELTER_OK) return 0;
    }
    for (int i = 0; i < BATCH; i++)
        if (!hear(it, ids[i], &number)) return 0;
    return 1;
}

/* Allocates a counter with the caller's label, and sets it to 1, 2 and so on. */
static void *count_up(void *its) {
    struct caller *it = its;
    const uint8_t *label = (const uint8_t *)it->label;
    uint64_t id = 0;
    int64_t number = -1;
    int32_t code;
    while (again(code = felter_send_allocate(&it->client, 1, NULL, 0, label, strlen(it->label), &id))) continue;
    if (code != FELTER_OK || hear(it, id, &number) != FELTER_REPLY_ALLOCATED) return NULL;
    it->counter = number;
    for (int64_t batch = 0; batch < BATCHES && set_batch(it, BATCH * batch + 1); batch++) continue;
    return NULL;
}

/* Works until it is asked to stop and no command is left. */
static void *conduct(void *unused) {
    for (;;) {
        /* Load this first: then the work below takes all commands that were sent before the stop. */
        int is_last = stop;
        uint64_t messages = 0;
        int32_t stopped = 0;
        if (felter_conductor_work(&conductor, 0, UINT32_MAX, &messages, &stopped) != FELTER_OK) return unused;
        /* If the call stopped at the end of the buffer, there can be more commands, which the next call takes. */
        if (stopped == FELTER_STOP_LIMIT || stopped == FELTER_STOP_BLOCK) continue;
        if (stopped == FELTER_STOP_BOARD_END || is_last) return unused;
        sched_yield();
    }
}

/* Reads all values until it is asked to stop, and notes whether a value ever falls. */
static void *watch(void *unused) {
    int64_t latest[CLIENTS] = {0};
    while (!stop) {
        for (uint32_t id = 0; id < CLIENTS; id++) {
            int64_t now;
            saw_fall |= felter_reader_value(&reader, id, &now) != FELTER_OK || now < latest[id];
            latest[id] = now;
        }
        sched_yield();
    }
    return unused;
}

/* Makes the conductor, its clients and its reader. After that only the conductor's thread uses the conductor. */
static int make(void) {
    if (felter_conductor_new(RING, BOARD, CLIENTS, 0, &conductor) != FELTER_OK) return 0;
    for (int i = 0; i < CLIENTS; i++)
        if (felter_conductor_client(&conductor, &callers[i].client) != FELTER_OK) return 0;
    return felter_conductor_reader(&conductor, &reader) == FELTER_OK;
}

/* Runs the clients on threads, and runs the conductor and the monitor until the clients have ended. */
static int run(void) {
    pthread_t calling[CLIENTS], conducting, watching;
    if (pthread_create(&conducting, NULL, conduct, NULL) || pthread_create(&watching, NULL, watch, NULL)) return 0;
    for (int i = 0; i < CLIENTS; i++)
        if (pthread_create(&calling[i], NULL, count_up, &callers[i])) return 0;
    for (int i = 0; i < CLIENTS; i++) pthread_join(calling[i], NULL);
    stop = 1;
    return !pthread_join(conducting, NULL) && !pthread_join(watching, NULL);
}

int main(void) {
    uint64_t received = 0, left = 0, replies = 0, laps = 0;
    if (!make() || !run()) return 1;
    for (int i = 0; i < CLIENTS; i++) {
        int64_t value = 0;
        int is_there = callers[i].counter >= 0
            && felter_reader_value(&reader, (uint32_t)callers[i].counter, &value) == FELTER_OK;
        if (is_there) printf("counter %s %" PRId64 "\n", callers[i].label, value);
        else printf("counter %s missing\n", callers[i].label);
        replies += callers[i].replies;
        laps += callers[i].laps;
    }
    /* The conductor takes back its clients and readers, and can then finish. */
    for (int i = 0; i < CLIENTS; i++)
        if (felter_conductor_join(&conductor, &callers[i].client) != FELTER_OK) return 1;
    if (felter_conductor_join_reader(&conductor, &reader) != FELTER_OK) return 1;
    if (felter_conductor_finish(&conductor, &received, &left) != FELTER_OK) return 1;
    printf("commands %" PRIu64 " replies %" PRIu64 " laps %" PRIu64 "\n", received, replies, laps);
    printf("values %s\n", saw_fall ? "fell" : "never fell");
    printf("left %" PRIu64 "\n", left);
    return 0;
}
