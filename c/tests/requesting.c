/* Requests of clients: their codes and outcomes, also of clients that the conductor has overtaken.
 * Link with -Wl,--wrap=nanosleep,--wrap=sched_yield. */
#include "pausing.h"

#include <pthread.h>

struct working {
    felter_conductor conductor;
    int stop;
};

static void *work(void *its) {
    struct working *it = its;
    uint64_t messages;
    int32_t stopped;
    while (!__atomic_load_n(&it->stop, __ATOMIC_SEQ_CST))
        EXPECT(FELTER_OK, felter_conductor_work(&it->conductor, 0, 100, &messages, &stopped));
    return its;
}

static void requests(void) {
    struct working it = {FELTER_EMPTY, 0};
    felter_client client = FELTER_EMPTY;
    felter_answer answer;
    pthread_t thread;
    uint64_t id;
    EXPECT(FELTER_OK, felter_conductor_new(256, 4096, 4, 0, &it.conductor));
    EXPECT(FELTER_OK, felter_conductor_client(&it.conductor, &client));
    EXPECT(FELTER_NULL_POINTER, felter_request_set(&client, 0, 1, 5, NULL));
    EXPECT(FELTER_TOO_LONG, felter_request_allocate(&client, 1, 0, NULL, 0, "a long label", 13, -1, &answer));
    CHECK(answer.outcome == FELTER_OUTCOME_NOT_SENT);
    EXPECT(FELTER_NO_MESSAGE, felter_request_free(&client, 3, 10, &answer));
    CHECK(answer.outcome == FELTER_OUTCOME_PENDING);
    while (felter_send_set(&client, 0, 1, &id) == FELTER_OK) continue;
    EXPECT(FELTER_INSUFFICIENT_CAPACITY, felter_request_close_owner(&client, 7, 10, &answer));
    CHECK(answer.outcome == FELTER_OUTCOME_NOT_SENT);
    felter_free(&client.handle);
    felter_free(&it.conductor.handle);

    EXPECT(FELTER_OK, felter_conductor_new(1024, 4096, 4, 0, &it.conductor));
    EXPECT(FELTER_OK, felter_conductor_client(&it.conductor, &client));
    CHECK(pthread_create(&thread, NULL, work, &it) == 0);
    EXPECT(FELTER_OK, felter_request_allocate(&client, 1, 7, "k", 1, "label", 5, -1, &answer));
    CHECK(answer.outcome == FELTER_OUTCOME_REPLIED && answer.kind == FELTER_REPLY_ALLOCATED && answer.number == 0);
    EXPECT(FELTER_OK, felter_request_set(&client, 0, 5, -1, &answer));
    CHECK(answer.kind == FELTER_REPLY_DONE);
    EXPECT(FELTER_OK, felter_request_close_owner(&client, 7, -1, &answer));
    CHECK(answer.kind == FELTER_REPLY_CLOSED && answer.number == 1);
    EXPECT(FELTER_OK, felter_request_free(&client, 0, -1, &answer));
    CHECK(answer.kind == FELTER_REPLY_REFUSED && answer.number == FELTER_NOT_ALLOCATED);
    __atomic_store_n(&it.stop, 1, __ATOMIC_SEQ_CST);
    pthread_join(thread, NULL);
    felter_free(&client.handle);
    felter_free(&it.conductor.handle);
}

/* A conductor whose board has room for a few replies, and two clients. All is done by one thread: the conductor works
 * during the pauses of the first client, so it does not matter how busy the machine is. */
static struct {
    felter_conductor conductor;
    felter_client client, other;
    int works_at, laps_at; /* the pauses at which it works, and at which it also overtakes the client */
} lapping;

static void conduct(void) {
    uint64_t messages;
    int32_t stopped;
    do EXPECT(FELTER_OK, felter_conductor_work(&lapping.conductor, 0, 99, &messages, &stopped));
    while (messages > 0 || stopped == FELTER_STOP_BLOCK);
}

/* The replies to other commands overtake the client. */
static void overtake(void) {
    uint64_t id;
    for (int i = 0; i < 40; i++) {
        EXPECT(FELTER_OK, felter_send_set(&lapping.other, 0, 1, &id));
        conduct();
    }
}

static void work_at_pause(int pause) {
    if (pause == lapping.works_at || pause == lapping.laps_at) conduct();
    if (pause == lapping.laps_at) overtake();
}

/* Makes a request of a client that the conductor has overtaken, and compares its code and its outcome. */
static void expect_request(int works_at, int laps_at, int64_t timeout, int32_t wanted, int32_t outcome) {
    felter_answer answer = {77, 77, 77, 77};
    EXPECT(FELTER_OK, felter_conductor_new(4096, 256, 4, 0, &lapping.conductor));
    EXPECT(FELTER_OK, felter_conductor_client(&lapping.conductor, &lapping.client));
    EXPECT(FELTER_OK, felter_conductor_client(&lapping.conductor, &lapping.other));
    overtake();
    lapping.works_at = works_at;
    lapping.laps_at = laps_at;
    paused = 0;
    at_pause = work_at_pause;
    int32_t code = felter_request_set(&lapping.client, 0, 5, timeout, &answer);
    CHECK(code == wanted && answer.outcome == outcome && answer.id == 40);
    /* (the reply to another command is no answer) */
    if (code == FELTER_OK) CHECK(answer.kind == FELTER_REPLY_REFUSED && answer.number == FELTER_NOT_ALLOCATED);
    else CHECK(answer.kind == 77 && answer.number == 77);
    if (timeout < 0) {
        /* The next request gets its own reply. */
        lapping.works_at = paused + 1;
        EXPECT(FELTER_OK, felter_request_free(&lapping.client, 9, -1, &answer));
        CHECK(answer.kind == FELTER_REPLY_REFUSED && answer.number == FELTER_BAD_ID);
    }
    at_pause = NULL;
    felter_free(&lapping.client.handle);
    felter_free(&lapping.other.handle);
    felter_free(&lapping.conductor.handle);
}

/* A client that was overtaken looks for its reply a few times, and then asks by another command whether the first one
 * was taken. */
static void requests_after_lap(void) {
    expect_request(0, 0, 50, FELTER_LAPPED, FELTER_OUTCOME_UNKNOWN);
    /* The conductor works before the client has asked, and the reply comes. */
    expect_request(3, 0, -1, FELTER_OK, FELTER_OUTCOME_REPLIED);
    /* It works after that, or the reply is lost. */
    expect_request(40, 0, -1, FELTER_LAPPED, FELTER_OUTCOME_TAKEN);
    expect_request(40, 3, -1, FELTER_LAPPED, FELTER_OUTCOME_TAKEN);
}

int main(void) {
    requests();
    requests_after_lap();
    puts("requesting: each outcome as it should be");
    return 0;
}
