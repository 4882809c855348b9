/* Threads that meet in calls of different handles: receivers of both kinds with a transmitter, readers of values with
 * the owner of counters, adders with each other, clients with a conductor, and threads that load positions, heartbeats
 * and ids of a ring with its producers and its consumer. Each thread checks what the documents and felter.h state, and
 * nothing that only the code says.
 *
 *     meetings SECONDS SEED     rounds until the time is over; prints how much that was */
#include "meetings.h"

#include <sys/mman.h>
#include <sys/resource.h>
#include <time.h>

struct totals totals;

void failed(const char *what, const char *file, int line) {
    const char *name = strrchr(file, '/');
    fprintf(stderr, "%s:%d: not so: %s\n", name ? name + 1 : file, line, what);
    abort();
}

/* Choices ---------------------------------------------------------------------------------------------------------- */

static uint64_t mix(uint64_t *dice) {
    *dice += 0x9e3779b97f4a7c15;
    uint64_t mixed = (*dice ^ *dice >> 30) * 0xbf58476d1ce4e5b9;
    mixed = (mixed ^ mixed >> 27) * 0x94d049bb133111eb;
    return mixed ^ mixed >> 31;
}

uint64_t pick(uint64_t *dice, uint64_t below) { return mix(dice) % below; }

void stall(uint64_t *dice) {
    uint64_t way = pick(dice, 1024);
    if (way < 16) sched_yield();
    else if (way == 16) nanosleep(&(struct timespec){0, (long)pick(dice, 200000)}, NULL);
}

/* Messages --------------------------------------------------------------------------------------------------------- */

size_t len_of(uint32_t lane, uint64_t number, size_t most) {
    uint64_t dice = (uint64_t)lane << 48 ^ number, way = mix(&dice);
    size_t len = way % 2 ? (way >> 8) % 9 : (way >> 8) % (most + 1);
    return len < most ? len : most;
}

void fill(uint8_t *body, uint32_t lane, uint64_t number, size_t len) {
    uint64_t dice = number << 16 ^ lane, word = 0;
    for (size_t k = 0; k < len; k++, word >>= 8) {
        if (k % 8 == 0) word = mix(&dice);
        body[k] = (uint8_t)word;
    }
}

bool is_message(const uint8_t *body, uint32_t lane, uint64_t number, size_t len) {
    uint8_t wanted[MAX_CAPACITY / 8];
    fill(wanted, lane, number, len);
    return memcmp(wanted, body, len) == 0;
}

void raise_to(_Atomic uint64_t *greatest, uint64_t number) {
    uint64_t was = atomic_load(greatest);
    while (was < number && !atomic_compare_exchange_weak(greatest, &was, number)) continue;
}

/* Writes ----------------------------------------------------------------------------------------------------------- */

void will_write(struct story *story, uint32_t word, uint64_t value) {
    uint64_t at = atomic_load(&story->begun);
    story->writes[at].word = word;
    story->writes[at].value = value;
    atomic_store(&story->begun, at + 1);
}

void has_written(struct story *story) { atomic_store(&story->done, atomic_load(&story->begun)); }

bool is_full(const struct story *story) { return atomic_load(&story->begun) == MAX_WRITES; }

void check_load(const struct story *story, struct view *view, uint64_t done, uint32_t word, uint64_t value) {
    uint64_t begun = atomic_load(&story->begun);
    while (view->seen < done || view->words[word] != value) {
        CHECK(view->seen < begun && "a value is one that was written, and none that is older than one seen before");
        view->words[story->writes[view->seen].word] = story->writes[view->seen].value;
        view->seen++;
    }
}

/* Handles ---------------------------------------------------------------------------------------------------------- */

static void leave(struct worker *it) {
    bool frees = once_in(&it->dice, 2);
    atomic_fetch_add(&it->office->leaving, 1);
    if (frees) {
        felter_free(&it->its.handle);
        CHECK(it->its.handle.at == NULL);
        atomic_fetch_add(&it->office->gone, 1);
    }
    pthread_mutex_lock(&it->lock);
    it->is_idle = frees;
    it->back = it->its.handle;
    it->its.handle.at = NULL;
    pthread_mutex_unlock(&it->lock);
}

static void *run(void *with) {
    struct worker *it = with;
    for (;;) {
        bool is_over = atomic_load(&it->office->is_over);
        pthread_mutex_lock(&it->lock);
        it->its.handle = it->given;
        it->given.at = NULL;
        pthread_mutex_unlock(&it->lock);
        if (it->its.handle.at) {
            it->use(it);
            leave(it);
        } else if (is_over) {
            return NULL;
        } else {
            sched_yield();
        }
    }
}

void start(struct worker *worker, struct office *office, uint64_t dice, void (*use)(struct worker *worker)) {
    worker->office = office;
    worker->dice = dice;
    worker->use = use;
    worker->given.at = worker->back.at = NULL;
    worker->is_idle = true;
    CHECK(pthread_mutex_init(&worker->lock, NULL) == 0);
    CHECK(pthread_create(&worker->thread, NULL, run, worker) == 0);
}

bool is_idle(struct worker *worker) {
    pthread_mutex_lock(&worker->lock);
    bool is = worker->is_idle;
    pthread_mutex_unlock(&worker->lock);
    return is;
}

void give(struct worker *worker, felter_handle *handle, uint64_t tag) {
    worker->office->given++;
    pthread_mutex_lock(&worker->lock);
    worker->given = *handle;
    worker->tag = tag;
    worker->is_idle = false;
    pthread_mutex_unlock(&worker->lock);
    handle->at = NULL;
}

bool take_back(struct worker *worker, felter_handle *handle) {
    pthread_mutex_lock(&worker->lock);
    bool is_there = worker->back.at != NULL;
    if (is_there) {
        *handle = worker->back;
        worker->back.at = NULL;
        worker->is_idle = true;
    }
    pthread_mutex_unlock(&worker->lock);
    return is_there;
}

void has_joined(struct office *office) { atomic_fetch_add(&office->gone, 1); }

/* Makers ----------------------------------------------------------------------------------------------------------- */

#define MAKERS 3
#define EACH 6
#define MADE (MAKERS * EACH)

/* What makers make at the same time. Each call draws a number, and no two of them draw the same. */
static struct made {
    felter_producer producer;
    felter_consumer consumer;
    felter_transmitter transmitter;
    felter_receiver receiver;
    felter_counters counters;
    felter_reader reader;
    felter_adder adder, other;
    felter_conductor conductor;
    felter_client client;
} made[MADE];
static atomic_uint makers_left;

#define MEMORY 4096

/* Makes a ring, a broadcast buffer and counters in mapped memory, which the library unmaps. */
static void make_in(struct made *it, bool is_one) {
    uint8_t *memory = mmap(NULL, 3 * MEMORY, PROT_READ | PROT_WRITE, MAP_SHARED | MAP_ANONYMOUS, -1, 0);
    CHECK(memory != MAP_FAILED);
    CHECK((is_one ? felter_one_to_one_new_in(memory, MEMORY, 128, &it->producer, &it->consumer)
                  : felter_many_to_one_new_in(memory, MEMORY, 128, &it->producer, &it->consumer)) == FELTER_OK);
    CHECK(felter_board_new_in(memory + MEMORY, MEMORY, 256, &it->transmitter) == FELTER_OK);
    CHECK(felter_counters_new_in(memory + 2 * MEMORY, MEMORY, 1, 0, &it->counters) == FELTER_OK);
    for (int k = 0; k < 3; k++) CHECK(felter_unmap_at_end(memory + k * MEMORY, MEMORY) == FELTER_OK);
}

static void *make(void *with) {
    struct made *mine = with;
    /* (they begin together) */
    atomic_fetch_sub(&makers_left, 1);
    while (atomic_load(&makers_left)) sched_yield();
    for (int k = 0; k < EACH; k++) {
        struct made *it = &mine[k];
        memset(it, 0, sizeof *it);
        if (k < 2) {
            make_in(it, k == 0);
        } else {
            CHECK((k % 2 ? felter_one_to_one_new(128, &it->producer, &it->consumer)
                         : felter_many_to_one_new(128, &it->producer, &it->consumer)) == FELTER_OK);
            CHECK(felter_board_new(256, &it->transmitter) == FELTER_OK);
            CHECK(felter_counters_new(1, 0, &it->counters) == FELTER_OK);
        }
        CHECK(felter_adder_new(&it->adder) == FELTER_OK);
        CHECK(felter_conductor_new(128, 256, 1, 0, &it->conductor) == FELTER_OK);
        CHECK(felter_subscribe(&it->transmitter, &it->receiver) == FELTER_OK);
        CHECK(felter_counters_reader(&it->counters, &it->reader) == FELTER_OK);
        CHECK(felter_adder_split(&it->adder, &it->other) == FELTER_OK);
        CHECK(felter_conductor_client(&it->conductor, &it->client) == FELTER_OK);
    }
    return NULL;
}

/* A call with handles of two structures is refused, so all their numbers differ. */
static void check_numbers(struct made *one, struct made *other) {
    int32_t wanted = one == other ? FELTER_OK : FELTER_OTHER_RING;
    CHECK(felter_close(&one->consumer, &other->producer) == wanted);
    CHECK(felter_board_join(&one->transmitter, &other->receiver) == wanted);
    CHECK(felter_counters_join(&one->counters, &other->reader) == wanted);
    CHECK(felter_adder_join(&one->adder, &other->other) == wanted);
    CHECK(felter_conductor_join(&one->conductor, &other->client) == wanted);
}

static void meet_as_makers(void) {
    pthread_t threads[MAKERS];
    atomic_store(&makers_left, MAKERS);
    for (int k = 0; k < MAKERS; k++) CHECK(pthread_create(&threads[k], NULL, make, &made[k * EACH]) == 0);
    for (int k = 0; k < MAKERS; k++) pthread_join(threads[k], NULL);
    for (int k = 0; k < MADE; k++)
        for (int other = 0; other < MADE; other++)
            if (k != other) check_numbers(&made[k], &made[other]);
    for (int k = 0; k < MADE; k++) {
        check_numbers(&made[k], &made[k]);
        felter_free(&made[k].consumer.handle);
        felter_free(&made[k].transmitter.handle);
        felter_free(&made[k].counters.handle);
        felter_free(&made[k].adder.handle);
        felter_free(&made[k].conductor.handle);
    }
    totals.structures += 5 * MADE;
}

int main(int count, char **words) {
    if (count != 3) return 2;
    double seconds = atof(words[1]);
    uint64_t dice = strtoull(words[2], NULL, 10), rounds = 0;
    time_t began = time(NULL);
    /* (a thread that waits for what is lost would wait for ever) */
    struct rlimit most = {60 + 10 * (rlim_t)seconds, 60 + 10 * (rlim_t)seconds};
    CHECK(setrlimit(RLIMIT_CPU, &most) == 0);
    do {
        meet_at_board(&dice);
        meet_at_counters(&dice);
        meet_at_adders(&dice);
        meet_at_ring(&dice);
        meet_at_conductor(&dice);
        meet_as_makers();
        rounds++;
    } while (difftime(time(NULL), began) < seconds);
    const struct totals *it = &totals;
    const struct { const char *name; uint64_t count; } said[] = {
        {"rounds", rounds}, {"copies", it->copies}, {"validated", it->validated}, {"laps", it->laps},
        {"values", it->values}, {"writes of values", it->writes}, {"additions", it->additions},
        {"messages", it->messages}, {"controlled", it->controlled}, {"positions", it->loads}, {"standings", it->asked},
        {"commands", it->commands}, {"replies", it->replies}, {"structures", it->structures}};
    for (size_t k = 0; k < sizeof said / sizeof *said; k++)
        printf("%s%llu %s", k ? ", " : "", (unsigned long long)said[k].count, said[k].name);
    printf("\n");
    return 0;
}
