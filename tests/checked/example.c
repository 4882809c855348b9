/* A run of a queue with a lock, recorded for ring-check: example FILE. docs/CHECKING.md explains it. */
#include "ring_record.h"

#include <pthread.h>
#include <sched.h>

#define PRODUCERS 3
#define MESSAGES 200
#define ROOM 8

struct message {
    uint16_t producer;
    uint64_t number;
};

/* The queue that is tested. */
static struct message queue[ROOM];
static unsigned first, used;
static pthread_mutex_t lock = PTHREAD_MUTEX_INITIALIZER;

static int queue_offer(uint16_t producer, uint64_t number) {
    pthread_mutex_lock(&lock);
    int has_room = used < ROOM;
    if (has_room) queue[(first + used++) % ROOM] = (struct message){producer, number};
    pthread_mutex_unlock(&lock);
    return has_room;
}

static int queue_poll(struct message *message) {
    pthread_mutex_lock(&lock);
    int has_message = used > 0;
    if (has_message) {
        *message = queue[first];
        first = (first + 1) % ROOM;
        used--;
    }
    pthread_mutex_unlock(&lock);
    return has_message;
}

struct producer {
    uint16_t id;
    ring_record_log log;
};

static void *produce(void *its) {
    struct producer *it = its;
    for (uint64_t number = 0; number < MESSAGES; number++) {
        while (!queue_offer(it->id, number)) sched_yield();
        ring_record_sent(&it->log, it->id, number, 0);
    }
    return NULL;
}

int main(int count, char **words) {
    struct producer producers[PRODUCERS];
    pthread_t threads[PRODUCERS];
    ring_record_log logs[PRODUCERS + 1] = {RING_RECORD_EMPTY};
    ring_record_log *shown = &logs[PRODUCERS];
    struct message message;
    if (count != 2) return 2;
    for (int i = 0; i < PRODUCERS; i++) {
        producers[i] = (struct producer){(uint16_t)i, RING_RECORD_EMPTY};
        if (pthread_create(&threads[i], NULL, produce, &producers[i]) != 0) return 1;
    }
    for (int left = PRODUCERS * MESSAGES; left > 0;) {
        if (queue_poll(&message)) {
            ring_record_got(shown, message.producer, message.number, 0);
            left--;
        } else {
            sched_yield();
        }
    }
    for (int i = 0; i < PRODUCERS; i++) {
        pthread_join(threads[i], NULL);
        logs[i] = producers[i].log;
    }
    if (!queue_poll(&message)) ring_record_nothing(shown);
    FILE *file = fopen(words[1], "w");
    return file == NULL || ring_record_write(file, logs, PRODUCERS + 1) != 0 || fclose(file) != 0;
}
