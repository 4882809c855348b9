/* A conductor, two clients, a receiver and a reader go from thread to thread, each by a lock, in the middle of their
 * work; and the conductor is finished on a thread that did not make it. */
#include "check.h"

#include <pthread.h>
#include <sched.h>

#define THREADS 4
#define CLIENTS 2
#define TURNS 2000
#define PART 10
#define OPEN 4
/* A command for each turn of a client, and the one that allocated its counter. */
#define COMMANDS (CLIENTS * (TURNS + 1))

/* A client, and the commands that one thread has sent and perhaps another waits for. */
struct caller {
    felter_client client;
    uint64_t ids[OPEN];
    uint32_t sent, heard;
};

static struct caller callers[CLIENTS];
static felter_conductor conductor = FELTER_EMPTY;
static felter_receiver receiver = FELTER_EMPTY;
static felter_reader reader = FELTER_EMPTY;
static int64_t latest[CLIENTS];

/* Sends the next command while fewer than OPEN are on their way, and otherwise receives the first of their replies. */
static int call(int which) {
    struct caller *it = &callers[which];
    for (int i = 0; i < PART && it->heard < TURNS; i++) {
        uint64_t *id = &it->ids[it->sent % OPEN], lapped = 0;
        int32_t code, kind = 0;
        int64_t number = -1;
        if (it->sent < TURNS && it->sent < it->heard + OPEN) {
            code = felter_send_set(&it->client, (uint32_t)which, it->sent + 1, id);
            CHECK(code == FELTER_OK || code == FELTER_CONTENDED || code == FELTER_INSUFFICIENT_CAPACITY);
            it->sent += code == FELTER_OK;
            if (code == FELTER_INSUFFICIENT_CAPACITY) break;
            continue;
        }
        code = felter_poll(&it->client, it->ids[it->heard % OPEN], &kind, &number, &lapped);
        if (code == FELTER_NO_MESSAGE) break;
        CHECK(code == FELTER_OK || code == FELTER_OTHER_REPLY);
        CHECK(code == FELTER_OTHER_REPLY || (kind == FELTER_REPLY_DONE && number == 0));
        it->heard += code == FELTER_OK;
    }
    return it->heard == TURNS;
}

static int call_first(void) { return call(0); }
static int call_second(void) { return call(1); }

static int conduct(void) {
    static uint64_t taken = CLIENTS;
    uint64_t took = 0;
    int32_t why = 77;
    EXPECT(FELTER_OK, felter_conductor_work(&conductor, 0, PART, &took, &why));
    taken += took;
    CHECK(taken <= COMMANDS);
    return taken == COMMANDS;
}

/* Receives the replies as they lie on the board: those of a client in the order of its commands. */
static int receive(void) {
    static uint64_t received, last;
    for (int i = 0; i < PART && received < COMMANDS; i++) {
        uint8_t buffer[65536 * 2 / 8];
        uint64_t lapped = 0, id = 0;
        int32_t type_id = 0;
        size_t len = 0;
        int32_t code = felter_receive(&receiver, &type_id, &len, &lapped, buffer, sizeof buffer);
        if (code == FELTER_NO_MESSAGE) break;
        CHECK(code == FELTER_OK && len >= 8);
        memcpy(&id, buffer, 8);
        CHECK(type_id == (received < CLIENTS ? FELTER_REPLY_ALLOCATED : FELTER_REPLY_DONE));
        CHECK(received < CLIENTS ? id == received : id >= CLIENTS);
        last = id > last ? id : last;
        received++;
    }
    return received == COMMANDS && last >= COMMANDS - 1;
}

static int watch(void) {
    int is_last = 1;
    for (uint32_t id = 0; id < CLIENTS; id++) {
        int64_t value = -1;
        EXPECT(FELTER_OK, felter_reader_value(&reader, id, &value));
        CHECK(value >= latest[id] && value <= TURNS);
        latest[id] = value;
        is_last &= value == TURNS;
    }
    return is_last;
}

/* What one thread at a time works on, and whether that is done. */
static struct shelf {
    pthread_mutex_t lock;
    int (*const work)(void);
    int is_done;
} shelves[] = {
    {PTHREAD_MUTEX_INITIALIZER, call_first, 0}, {PTHREAD_MUTEX_INITIALIZER, call_second, 0},
    {PTHREAD_MUTEX_INITIALIZER, conduct, 0},    {PTHREAD_MUTEX_INITIALIZER, receive, 0},
    {PTHREAD_MUTEX_INITIALIZER, watch, 0},
};

#define SHELVES (sizeof shelves / sizeof *shelves)

static void *work(void *its) {
    size_t turn = (size_t)its, done;
    do {
        done = 0;
        for (size_t i = 0; i < SHELVES; i++, turn++) {
            struct shelf *shelf = &shelves[turn % SHELVES];
            pthread_mutex_lock(&shelf->lock);
            shelf->is_done = shelf->is_done || shelf->work();
            done += (size_t)shelf->is_done;
            pthread_mutex_unlock(&shelf->lock);
        }
        sched_yield();
    } while (done < SHELVES);
    return NULL;
}

static void *finish(void *its) {
    uint64_t received = 0, left = 77;
    for (int i = 0; i < CLIENTS; i++) EXPECT(FELTER_OK, felter_conductor_join(&conductor, &callers[i].client));
    EXPECT(FELTER_OK, felter_conductor_join_receiver(&conductor, &receiver));
    EXPECT(FELTER_OK, felter_conductor_join_reader(&conductor, &reader));
    EXPECT(FELTER_OK, felter_conductor_finish(&conductor, &received, &left));
    CHECK(received == COMMANDS && left == 0);
    return its;
}

int main(void) {
    pthread_t threads[THREADS];
    EXPECT(FELTER_OK, felter_conductor_new(256, 65536 * 2, CLIENTS, 0, &conductor));
    EXPECT(FELTER_OK, felter_conductor_subscribe(&conductor, &receiver));
    EXPECT(FELTER_OK, felter_conductor_reader(&conductor, &reader));
    for (int i = 0; i < CLIENTS; i++) {
        uint64_t id = 0, took = 0;
        int32_t why = 77;
        EXPECT(FELTER_OK, felter_conductor_client(&conductor, &callers[i].client));
        EXPECT(FELTER_OK, felter_send_allocate(&callers[i].client, 1, NULL, 0, NULL, 0, &id));
        EXPECT(FELTER_OK, felter_conductor_work(&conductor, 0, 1, &took, &why));
        CHECK(took == 1);
    }
    for (size_t i = 0; i < THREADS; i++) CHECK(pthread_create(&threads[i], NULL, work, (void *)i) == 0);
    for (int i = 0; i < THREADS; i++) CHECK(pthread_join(threads[i], NULL) == 0);
    CHECK(pthread_create(&threads[0], NULL, finish, NULL) == 0);
    CHECK(pthread_join(threads[0], NULL) == 0);
    printf("relay: %d commands over %d threads\n", COMMANDS, THREADS);
    return 0;
}
