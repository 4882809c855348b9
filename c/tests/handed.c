/* Two producers and the consumer of a ring go from thread to thread, each by a lock, in the middle of their work. */
#include "check.h"

#include <pthread.h>
#include <sched.h>

#define THREADS 4
#define TURNS 2000
#define PART 10

/* Something that one thread at a time works on, and how far it came. */
struct shelf {
    pthread_mutex_t lock;
    uint32_t done;
};

static struct shelf shelves[3] = {
    {PTHREAD_MUTEX_INITIALIZER, 0}, {PTHREAD_MUTEX_INITIALIZER, 0}, {PTHREAD_MUTEX_INITIALIZER, 0}};
static felter_producer producers[2] = {FELTER_EMPTY, FELTER_EMPTY};
static felter_consumer consumer = FELTER_EMPTY;
static uint32_t next_of[2];

/* Writes up to PART messages of a producer; the first of them into a claim that the last thread has opened. */
static void write_some(int which, uint32_t *done) {
    static uint64_t claims[2];
    static int open[2];
    for (int i = 0; i < PART && *done < TURNS; i++) {
        uint32_t body[2] = {*done, ~*done};
        if (!open[which]) {
            int32_t code = felter_claim(&producers[which], 1 + which, sizeof body, &claims[which]);
            if (code != FELTER_OK) {
                CHECK(code == FELTER_CONTENDED || code == FELTER_INSUFFICIENT_CAPACITY);
                return;
            }
            open[which] = 1;
            if (i == PART - 1) return;
        }
        EXPECT(FELTER_OK, felter_put(&producers[which], claims[which], 0, (uint8_t *)body, sizeof body));
        EXPECT(FELTER_OK, felter_commit(&producers[which], claims[which]));
        open[which] = 0;
        ++*done;
    }
}

static void read_some(uint32_t *done) {
    for (int i = 0; i < PART && *done < 2 * TURNS; i++) {
        uint32_t body[2];
        int32_t type_id = 0;
        size_t len = 0;
        int32_t code = felter_read(&consumer, &type_id, &len, (uint8_t *)body, sizeof body);
        if (code == FELTER_NO_MESSAGE) return;
        CHECK(code == FELTER_OK && len == sizeof body && (type_id == 1 || type_id == 2));
        CHECK(body[0] == next_of[type_id - 1]++ && body[1] == ~body[0]);
        ++*done;
    }
}

static void *work(void *its) {
    size_t turn = (size_t)its;
    int ended;
    do {
        ended = 1;
        for (int i = 0; i < 3; i++, turn++) {
            struct shelf *shelf = &shelves[turn % 3];
            pthread_mutex_lock(&shelf->lock);
            if (turn % 3 < 2) write_some((int)(turn % 3), &shelf->done);
            else read_some(&shelf->done);
            ended &= shelf->done == (turn % 3 < 2 ? TURNS : 2 * TURNS);
            pthread_mutex_unlock(&shelf->lock);
        }
        sched_yield();
    } while (!ended);
    return NULL;
}

int main(void) {
    pthread_t threads[THREADS];
    EXPECT(FELTER_OK, felter_many_to_one_new(128, &producers[0], &consumer));
    EXPECT(FELTER_OK, felter_split(&producers[0], &producers[1]));
    for (size_t i = 0; i < THREADS; i++) CHECK(pthread_create(&threads[i], NULL, work, (void *)i) == 0);
    for (int i = 0; i < THREADS; i++) CHECK(pthread_join(threads[i], NULL) == 0);
    CHECK(next_of[0] == TURNS && next_of[1] == TURNS);
    felter_free(&producers[0].handle);
    felter_free(&consumer.handle);
    felter_free(&producers[1].handle);
    printf("handed: %d messages over %d threads\n", 2 * TURNS, THREADS);
    return 0;
}
