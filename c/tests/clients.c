/* A conductor, clients and a monitor, each on a thread: clients CLIENTS COUNT REPLIES, which is the board's bytes.
 *
 * Each client allocates a counter, sets it to 1, 2 .. COUNT, and waits for the replies of eight commands at a time by
 * their ids; then it frees the counter, or its owner's. A client that is lapped does not know what became of commands:
 * it goes on, and asks again if it has to know. No id is given twice, so that no value may fall. */
#include "check.h"

#include <pthread.h>

#define MOST 8
#define BATCH 8
#define IDS 4096

struct caller {
    felter_client client;
    uint64_t owner, sent, heard, laps, beat;
    int64_t last;
    uint32_t counter;
    int tries;
};

struct house {
    felter_conductor conductor;
    felter_reader reader;
    int64_t last;
    uint64_t received, rounds, seen;
    pthread_mutex_t lock;
    int is_over;
};

static int is_over(struct house *house) {
    pthread_mutex_lock(&house->lock);
    int answer = house->is_over;
    pthread_mutex_unlock(&house->lock);
    return answer;
}

/* Whether a command has to be sent again. */
static int again(struct caller *it, int32_t code) {
    CHECK(code == FELTER_OK || code == FELTER_CONTENDED || code == FELTER_INSUFFICIENT_CAPACITY);
    it->sent += code == FELTER_OK;
    if (code == FELTER_OK) it->tries = 0;
    if (code == FELTER_INSUFFICIENT_CAPACITY) rest(&it->tries);
    return code != FELTER_OK;
}

/* Waits for the reply to a command. Answers its kind, or 0 where the client was lapped. */
static int32_t hear(struct caller *it, uint64_t id, int64_t *number) {
    for (int tries = 0;;) {
        int32_t kind = 0;
        uint64_t lapped = 0;
        int32_t code = felter_poll(&it->client, id, &kind, number, &lapped);
        if (code == FELTER_OK) {
            it->heard++;
            return kind;
        }
        if (code == FELTER_LAPPED) {
            CHECK(lapped == ++it->laps);
            return 0;
        }
        CHECK(code == FELTER_NO_MESSAGE || code == FELTER_OTHER_REPLY);
        if (code == FELTER_NO_MESSAGE) rest(&tries);
        else tries = 0;
    }
}

/* Frees the counters of the client until it knows that, and says how many the last command freed. */
static int64_t close_owner(struct caller *it) {
    int32_t kind = 0;
    int64_t number = -1;
    while (!kind) {
        uint64_t id = 0;
        while (again(it, felter_send_close_owner(&it->client, it->owner, &id))) {
        }
        kind = hear(it, id, &number);
    }
    CHECK(kind == FELTER_REPLY_CLOSED);
    return number;
}

/* Allocates a counter. Where the reply was missed, the one that was made is freed, and another is asked for. */
static void allocate(struct caller *it) {
    int32_t kind = 0;
    int64_t number = -1;
    while (!kind) {
        uint64_t id = 0;
        while (again(it, felter_send_allocate_owned(&it->client, 7, it->owner, NULL, 0, BYTES("mine"), &id))) {
        }
        kind = hear(it, id, &number);
        if (!kind) close_owner(it);
    }
    CHECK(kind == FELTER_REPLY_ALLOCATED && number >= 0 && number < IDS);
    it->counter = (uint32_t)number;
}

/* Sets the counter to the next numbers, and waits for their replies, or up to a lap. */
static void set_batch(struct caller *it, int64_t first) {
    uint64_t ids[BATCH] = {0}, beat = 0;
    for (int i = 0; i < BATCH; i++) {
        while (again(it, felter_send_set(&it->client, it->counter, first + i, &ids[i]))) {
        }
        CHECK(i == 0 || ids[i] > ids[i - 1]);
    }
    for (int i = 0; i < BATCH; i++) {
        int64_t number = -1;
        int32_t kind = hear(it, ids[i], &number);
        if (!kind) break;
        CHECK(kind == FELTER_REPLY_DONE && number == 0);
    }
    EXPECT(FELTER_OK, felter_client_heartbeat(&it->client, &beat));
    CHECK(beat >= it->beat);
    it->beat = beat;
}

/* Frees the counter until the client knows that. */
static void let_go(struct caller *it) {
    uint64_t laps = it->laps;
    int32_t kind = 0;
    int64_t number = -1;
    while (!kind) {
        uint64_t id = 0;
        while (again(it, felter_send_free(&it->client, it->counter, &id))) {
        }
        kind = hear(it, id, &number);
    }
    int was_free = kind == FELTER_REPLY_REFUSED && number == FELTER_NOT_ALLOCATED;
    CHECK((kind == FELTER_REPLY_DONE && number == 0) || (was_free && it->laps > laps));
}

static void *run_client(void *its) {
    struct caller *it = its;
    allocate(it);
    for (int64_t value = 1; value <= it->last; value += BATCH) set_batch(it, value);
    uint64_t laps = it->laps;
    if (it->owner % 2) let_go(it);
    int64_t freed = close_owner(it);
    CHECK(freed == !(it->owner % 2) || (freed == 0 && it->laps > laps));
    CHECK(it->beat > 0);
    return NULL;
}

/* Works until the clients are done and no command is left. */
static void *conduct(void *its) {
    struct house *house = its;
    for (int tries = 0;;) {
        int is_last = is_over(house);
        uint64_t took = 0;
        int32_t why = 77;
        EXPECT(FELTER_OK, felter_conductor_set_heartbeat(&house->conductor, ++house->rounds));
        EXPECT(FELTER_OK, felter_conductor_work(&house->conductor, 0, 64, &took, &why));
        house->received += took;
        CHECK(why == FELTER_STOP_LIMIT || why == FELTER_STOP_BLOCK || why == FELTER_STOP_UNPUBLISHED);
        CHECK(why == FELTER_STOP_LIMIT ? took == 64 : took < 64);
        if (took > 0) tries = 0;
        if (why != FELTER_STOP_UNPUBLISHED) continue;
        if (is_last) return NULL;
        rest(&tries);
    }
}

/* Reads the values of the first ids until the clients are done. */
static void *watch(void *its) {
    struct house *house = its;
    int64_t latest[2 * MOST] = {0};
    int tries = 0;
    for (int is_last = 0; !is_last; rest(&tries)) {
        is_last = is_over(house);
        tries %= 100;
        for (uint32_t id = 0; id < 2 * MOST; id++) {
            int64_t value = -1;
            EXPECT(FELTER_OK, felter_reader_value(&house->reader, id, &value));
            CHECK(value >= latest[id] && value <= house->last);
            house->seen += value != latest[id];
            latest[id] = value;
        }
    }
    return NULL;
}

/* Leaves three commands in the ring, takes all back, and finishes. */
static void end(struct house *house, struct caller *callers, int clients) {
    uint64_t sent = 0, received = 0, left = 0, id = 0;
    for (int i = 0; i < clients; i++) {
        int64_t value = -1;
        EXPECT(FELTER_OK, felter_reader_value(&house->reader, callers[i].counter, &value));
        CHECK(value == callers[i].last);
        sent += callers[i].sent;
    }
    CHECK(sent == house->received);
    for (int i = 0; i < 3; i++) EXPECT(FELTER_OK, felter_send_close_owner(&callers[0].client, 1, &id));
    for (int i = 0; i < clients; i++) {
        EXPECT(FELTER_PRODUCERS_OUT, felter_conductor_finish(&house->conductor, &received, &left));
        EXPECT(FELTER_OK, felter_conductor_join(&house->conductor, &callers[i].client));
    }
    EXPECT(FELTER_IN_USE, felter_conductor_finish(&house->conductor, &received, &left));
    EXPECT(FELTER_OK, felter_conductor_join_reader(&house->conductor, &house->reader));
    EXPECT(FELTER_OK, felter_conductor_finish(&house->conductor, &received, &left));
    CHECK(received == sent && left == 3);
}

int main(int argc, char **argv) {
    static struct house house = {FELTER_EMPTY, FELTER_EMPTY, 0, 0, 0, 0, PTHREAD_MUTEX_INITIALIZER, 0};
    static struct caller callers[MOST];
    pthread_t threads[MOST], conducting, watching;
    CHECK(argc == 4);
    int clients = atoi(argv[1]);
    uint32_t replies = (uint32_t)atol(argv[3]);
    uint64_t heard = 0, laps = 0;
    house.last = atol(argv[2]) / BATCH * BATCH;
    CHECK(clients >= 1 && clients <= MOST && house.last > 0);
    EXPECT(FELTER_OK, felter_conductor_new(512, replies, IDS, UINT32_MAX, &house.conductor));
    EXPECT(FELTER_OK, felter_conductor_reader(&house.conductor, &house.reader));
    for (int i = 0; i < clients; i++) {
        callers[i].owner = (uint64_t)i + 1;
        callers[i].last = house.last;
        EXPECT(FELTER_OK, felter_conductor_client(&house.conductor, &callers[i].client));
    }
    CHECK(pthread_create(&conducting, NULL, conduct, &house) == 0);
    CHECK(pthread_create(&watching, NULL, watch, &house) == 0);
    for (int i = 0; i < clients; i++) CHECK(pthread_create(&threads[i], NULL, run_client, &callers[i]) == 0);
    for (int i = 0; i < clients; i++) CHECK(pthread_join(threads[i], NULL) == 0);
    pthread_mutex_lock(&house.lock);
    house.is_over = 1;
    pthread_mutex_unlock(&house.lock);
    CHECK(pthread_join(conducting, NULL) == 0 && pthread_join(watching, NULL) == 0);
    for (int i = 0; i < clients; i++) {
        heard += callers[i].heard;
        laps += callers[i].laps;
    }
    CHECK(laps > 0 || heard == house.received);
    end(&house, callers, clients);
    printf("clients: %d sent %" PRIu64 " commands, heard %" PRIu64 " replies, lapped %" PRIu64 " times, saw %" PRIu64
           " values\n",
           clients, house.received, heard, laps, house.seen);
    return 0;
}
