/* The tasks of docs/USING.md in C. The program prints c/examples/tasks.out, as the same tasks in Rust and Python do. To
 * compile it: cc -pthread -o tasks c/examples/tasks.c -Ic/out c/out/libfelter.a */
#include "felter.h"
#include "felter_wait.h"

#include <inttypes.h>
#include <pthread.h>
#include <sched.h>
#include <stdatomic.h>
#include <stdio.h>
#include <string.h>

enum { NUMBER = 1, TEXT = 7, LAST = 1000, FOREVER = -1 };

/* Writes the numbers from 1 on, and waits while the ring is full. */
static void *send_numbers(void *given) {
    felter_producer *producer = given;
    for (int32_t number = 1; number <= LAST; number++)
        if (felter_write_wait(producer, NUMBER, &number, sizeof number, FOREVER) != FELTER_OK) return NULL;
    return producer;
}

/* Sends messages to another thread. One thread sends numbers, and this thread adds them up. */
static int add_up(void) {
    felter_producer producer = FELTER_EMPTY;
    felter_consumer consumer = FELTER_EMPTY;
    pthread_t sender;
    int32_t type_id, number, sum = 0;
    size_t len;
    if (felter_one_to_one_new(1024, &producer, &consumer) != FELTER_OK) return 0;
    if (pthread_create(&sender, NULL, send_numbers, &producer)) return 0;
    for (int32_t count = 0; count < LAST; count++) {
        if (felter_read_wait(&consumer, &type_id, &len, &number, sizeof number, FOREVER) != FELTER_OK) return 0;
        sum += number;
    }
    pthread_join(sender, NULL);
    printf("sum %" PRId32 "\n", sum);
    felter_free(&producer.handle);
    felter_free(&consumer.handle);
    return 1;
}

/* Tries to write a message once, and prints the result. */
static const char *offer(felter_producer *producer, const char *text) {
    int32_t code = felter_write(producer, TEXT, text, strlen(text));
    if (code == FELTER_OK) return "sent";
    if (code == FELTER_INSUFFICIENT_CAPACITY) return "full: read first, or drop it";
    if (code == FELTER_CONTENDED) return "another producer was faster: at once again";
    return felter_text(code);
}

/* Prints what a consumer finds next. */
static const char *standing(felter_producer *producer, felter_consumer *consumer) {
    static const char *const texts[] = {"a message", "empty", "blocked by a claim", "changing: ask again"};
    int32_t found = FELTER_FOUND_CHANGE;
    uint64_t head = 0;
    int32_t code = felter_standing(producer, consumer, &found, &head);
    return code == FELTER_OK ? texts[found] : felter_text(code);
}

/* Closes a ring. Afterwards no producer is left, and unread messages can still be read. */
static int close_ring(felter_producer *producer, felter_consumer *consumer) {
    char body[64];
    int32_t type_id;
    size_t len;
    uint64_t left;
    if (felter_close(consumer, producer) != FELTER_OK) return 0;
    while (felter_read(consumer, &type_id, &len, body, sizeof body) == FELTER_OK)
        printf("%" PRId32 " %.*s\n", type_id, (int)len, body);
    if (felter_finish(consumer, &left) != FELTER_OK) return 0;
    printf("left %" PRIu64 "\n", left);
    return 1;
}

/* Shows a ring in four states: empty, full, blocked and closed. */
static int look_at_ring(void) {
    felter_producer producer = FELTER_EMPTY;
    felter_consumer consumer = FELTER_EMPTY;
    uint64_t claim;
    if (felter_many_to_one_new(128, &producer, &consumer) != FELTER_OK) return 0;
    printf("%s\n", standing(&producer, &consumer));
    if (felter_claim(&producer, TEXT, 5, &claim) != FELTER_OK) return 0;
    for (int count = 0; count < 7; count++) offer(&producer, "hello");
    printf("%s\n", offer(&producer, "hello"));
    printf("%s\n", standing(&producer, &consumer));
    if (felter_abort(&producer, claim) != FELTER_OK) return 0;
    return close_ring(&producer, &consumer);
}

/* Shows a lapped receiver, which goes on with the message that was transmitted last. */
static int is_lapped(void) {
    felter_transmitter transmitter = FELTER_EMPTY;
    felter_receiver receiver = FELTER_EMPTY;
    char text[32];
    int32_t type_id;
    size_t len;
    uint64_t laps, place, lapped_at, intent;
    if (felter_board_new(256, &transmitter) != FELTER_OK) return 0;
    if (felter_subscribe(&transmitter, &receiver) != FELTER_OK) return 0;
    for (int tick = 1; tick <= 20; tick++) {
        int bytes = snprintf(text, sizeof text, "tick %d", tick);
        if (felter_transmit(&transmitter, TEXT, text, (size_t)bytes) != FELTER_OK) return 0;
    }
    if (felter_receive(&receiver, &type_id, &len, &laps, text, sizeof text) != FELTER_LAPPED) return 0;
    if (felter_receiver_place(&receiver, &place) != FELTER_OK) return 0;
    if (felter_receiver_lap(&receiver, &lapped_at, &intent) != FELTER_OK) return 0;
    printf("lapped %" PRIu64 ", missed %" PRIu64 " bytes\n", laps, place - lapped_at);
    if (felter_receive(&receiver, &type_id, &len, &laps, text, sizeof text) != FELTER_OK) return 0;
    printf("%.*s\n", (int)len, text);
    felter_free(&transmitter.handle);
    felter_free(&receiver.handle);
    return 1;
}

/* Shows a counter that another thread watches. */
static int watch_counter(void) {
    felter_counters counters = FELTER_EMPTY;
    felter_reader reader = FELTER_EMPTY;
    uint32_t id;
    int64_t before, value;
    if (felter_counters_new(4, 1000, &counters) != FELTER_OK) return 0;
    if (felter_counters_reader(&counters, &reader) != FELTER_OK) return 0;
    if (felter_counter_allocate(&counters, 0, 1, "", 0, "requests", 8, 0, &id) != FELTER_OK) return 0;
    if (felter_counter_add(&counters, id, 5, &before) != FELTER_OK) return 0;
    if (felter_reader_value(&reader, id, &value) != FELTER_OK) return 0;
    printf("requests %" PRId64 "\n", value);
    felter_free(&counters.handle);
    felter_free(&reader.handle);
    return 1;
}

static felter_conductor conductor = FELTER_EMPTY;
static atomic_int stop;

/* Serves commands until it is stopped and no command is left. */
static void *serve(void *unused) {
    uint64_t taken;
    int32_t why;
    for (;;) {
        /* Load this first: then the work below takes all commands that were sent before the stop. */
        int is_last = stop;
        if (felter_conductor_work(&conductor, 0, UINT32_MAX, &taken, &why) != FELTER_OK) return unused;
        if (taken == 0 && is_last) return unused;
        if (taken == 0) sched_yield();
    }
}

/* Sends a Set and waits for its reply. After FELTER_OK the call has written the kind and the number of the reply. */
static int32_t set_counter(felter_client *client, uint32_t counter, int64_t value, int32_t *kind, int64_t *number) {
    uint64_t id = 0, laps = 0;
    int32_t code;
    while ((code = felter_send_set(client, counter, value, &id)) != FELTER_OK) {
        if (code != FELTER_INSUFFICIENT_CAPACITY && code != FELTER_CONTENDED) return code;
        sched_yield();
    }
    while ((code = felter_poll(client, id, kind, number, &laps)) != FELTER_OK) {
        if (code == FELTER_NO_MESSAGE) sched_yield();
        else if (code != FELTER_OTHER_REPLY) return code;
    }
    return FELTER_OK;
}

/* Shows a conductor with one client, which sets a counter that was never allocated. */
static int ask_conductor(void) {
    felter_client client = FELTER_EMPTY;
    pthread_t serving;
    int32_t kind = 0;
    int64_t number = 0;
    uint64_t received, left;
    if (felter_conductor_new(1024, 1024, 4, 1000, &conductor) != FELTER_OK) return 0;
    if (felter_conductor_client(&conductor, &client) != FELTER_OK) return 0;
    if (pthread_create(&serving, NULL, serve, NULL)) return 0;
    int32_t code = set_counter(&client, 0, 42, &kind, &number);
    stop = 1;
    pthread_join(serving, NULL);
    if (code != FELTER_OK || felter_conductor_join(&conductor, &client) != FELTER_OK) return 0;
    printf("%s %" PRId64 "\n", kind == FELTER_REPLY_REFUSED ? "refused" : "reply", number);
    if (felter_conductor_finish(&conductor, &received, &left) != FELTER_OK) return 0;
    printf("received %" PRIu64 " left %" PRIu64 "\n", received, left);
    return 1;
}

int main(void) {
    return add_up() && look_at_ring() && is_lapped() && watch_counter() && ask_conductor() ? 0 : 1;
}
