/* Whether work takes in proportion to what is done: costs [NAME]. Each row does some work, and then four times as much.
 * Instructions are counted, and not time, so it does not matter how fast or how busy the machine is, and what other
 * programs do with the caches. The instructions of forty calls of each kind are counted, which are spread evenly.
 * The status is 1 if a row took more than ten times as many instructions for four times as much: what grows with the
 * square takes sixteen times as many.
 *
 * The rows of the second table do the same work on messages with records of 2 KiB, and then of 2 MiB. No call needs
 * their bytes. The status is 1 if the long messages took more than ten times as many instructions as the short ones. */
#define _GNU_SOURCE 1
#include "../../c/tests/stepping.h"

#define MUST(call)                                                                  \
    do {                                                                            \
        int32_t code = (call);                                                      \
        if (code) {                                                                 \
            fprintf(stderr, "%s: %s: %s\n", __FILE__, #call, felter_text(code));    \
            exit(2);                                                                \
        }                                                                           \
    } while (0)

/* Times as many instructions that four times as much work may take. */
#define MOST 10
#define SAMPLES 40

static uint32_t every;    /* one call of this many is counted */
static uint64_t counted;  /* the instructions of these calls */

static void count_one_of(uint32_t n) {
    every = n;
    counted = 0;
}

/* The instructions of all calls, if those that were not counted take as many as the others. */
static uint64_t all(void) {
    return counted * every;
}

/* Makes the i-th call of its kind. The call succeeds, or does not. */
#define MAKE(i, succeeds, call)                                                     \
    do {                                                                            \
        int32_t made;                                                               \
        if ((i) % every != every / 2) {                                             \
            made = (call);                                                          \
        } else {                                                                    \
            STEP(made, call, 0);                                                    \
            counted += steps_made;                                                  \
        }                                                                           \
        if ((made == FELTER_OK) != (succeeds)) {                                    \
            fprintf(stderr, "%s: %s: %s\n", __FILE__, #call, felter_text(made));    \
            exit(2);                                                                \
        }                                                                           \
    } while (0)

static felter_producer producer;
static felter_consumer consumer;

static void make(void) {
    MUST(felter_many_to_one_new(1 << 24, &producer, &consumer));
}

static void end(void) {
    felter_free(&producer.handle);
    felter_free(&consumer.handle);
}

/* Claims n messages, of which the places rise. */
static uint64_t *claim_all(uint32_t n) {
    uint64_t *claims = malloc(n * sizeof *claims);
    if (!claims) exit(2);
    for (uint32_t i = 0; i < n; i++) MAKE(i, 1, felter_claim(&producer, 1, 8, &claims[i]));
    return claims;
}

/* Each row does n pieces of work, and returns their instructions. */
static uint64_t claims_settled(uint32_t n, int is_backwards) {
    make();
    count_one_of(n / SAMPLES);
    uint64_t *claims = claim_all(n);
    for (uint32_t i = 0; i < n; i++) MAKE(i, 1, felter_commit(&producer, claims[is_backwards ? n - 1 - i : i]));
    free(claims);
    end();
    return all();
}

static uint64_t claims_settled_in_order(uint32_t n) { return claims_settled(n, 0); }
static uint64_t claims_settled_backwards(uint32_t n) { return claims_settled(n, 1); }

static uint64_t numbers_of_no_claim(uint32_t n) {
    make();
    count_one_of(n / SAMPLES);
    uint64_t *claims = claim_all(n);
    for (uint32_t i = 0; i < n; i++) MAKE(i, 0, felter_commit(&producer, claims[i] + 8));
    free(claims);
    end();
    return all();
}

static uint64_t claims_settled_twice(uint32_t n) {
    make();
    count_one_of(n / SAMPLES);
    uint64_t *claims = claim_all(n);
    for (uint32_t i = 0; i < n; i++) {
        MAKE(i, 1, felter_commit(&producer, claims[i]));
        MAKE(i, 0, felter_commit(&producer, claims[i]));
    }
    free(claims);
    end();
    return all();
}

/* Joins n producers, each with an open claim, the first one first or the last one first. */
static uint64_t joined(uint32_t n, int is_backwards) {
    felter_producer *others = calloc(n, sizeof *others);
    uint64_t *claims = malloc(n * sizeof *claims);
    if (!others || !claims) exit(2);
    make();
    count_one_of(n / SAMPLES);
    for (uint32_t i = 0; i < n; i++) {
        MUST(felter_split(&producer, &others[i]));
        MUST(felter_claim(&others[i], 1, 8, &claims[i]));
    }
    for (uint32_t i = 0; i < n; i++) MAKE(i, 1, felter_join(&producer, &others[is_backwards ? n - 1 - i : i]));
    for (uint32_t i = 0; i < n; i++) MAKE(i, 1, felter_commit(&producer, claims[i]));
    free(others);
    free(claims);
    end();
    return all();
}

static uint64_t joins(uint32_t n) { return joined(n, 0); }
static uint64_t joins_backwards(uint32_t n) { return joined(n, 1); }

static uint64_t rings(uint32_t n) {
    felter_producer *producers = calloc(n, sizeof *producers);
    felter_consumer *consumers = calloc(n, sizeof *consumers);
    if (!producers || !consumers) exit(2);
    count_one_of(n / SAMPLES);
    for (uint32_t i = 0; i < n; i++) MAKE(i, 1, felter_many_to_one_new(128, &producers[i], &consumers[i]));
    for (uint32_t i = 0; i < n; i++) {
        MAKE(i, 1, (felter_free(&producers[i].handle), FELTER_OK));
        MAKE(i, 1, (felter_free(&consumers[i].handle), FELTER_OK));
    }
    free(producers);
    free(consumers);
    return all();
}

static uint64_t receivers(uint32_t n) {
    felter_transmitter transmitter = FELTER_EMPTY;
    felter_receiver *its = calloc(n, sizeof *its);
    if (!its) exit(2);
    MUST(felter_board_new(256, &transmitter));
    count_one_of(n / SAMPLES);
    for (uint32_t i = 0; i < n; i++) {
        MAKE(i, 1, felter_subscribe(&transmitter, &its[i]));
        MAKE(i, 1, felter_transmit(&transmitter, 1, "x", 1));
    }
    for (uint32_t i = 0; i < n; i++) MAKE(i, 1, felter_board_join(&transmitter, &its[i]));
    free(its);
    felter_free(&transmitter.handle);
    return all();
}

/* Counters that are made, set and freed; those who look for one by its type go through all, as the header says. */
static uint64_t counters(uint32_t n) {
    felter_counters its = FELTER_EMPTY;
    uint32_t id;
    count_one_of(n / SAMPLES);
    for (uint32_t round = 0; round < n / 4096; round++) {
        MUST(felter_counters_new(4096, 0, &its));
        for (uint32_t i = 0; i < 4096; i++)
            MAKE(i, 1, felter_counter_allocate(&its, 0, 1, NULL, 0, "label", 5, i, &id));
        for (uint32_t i = 0; i < 4096; i++) MAKE(i, 1, felter_counter_set(&its, i, 1));
        for (uint32_t i = 0; i < 4096; i++) MAKE(i, 1, felter_counter_free(&its, 0, i));
        felter_free(&its.handle);
    }
    return all();
}

/* Records of these lengths leave no padding at the end of the buffer, which a read would clear word by word. */
#define SHORT_BODY ((1 << 11) - 8)
#define LONG_BODY ((1 << 21) - 8)
/* A ring of 16 MiB has room for this many of the long messages. */
#define MESSAGES_AT_ONCE 6

static void write_messages(size_t len) {
    static uint8_t body[LONG_BODY];
    for (int i = 0; i < MESSAGES_AT_ONCE; i++) MUST(felter_write(&producer, 1, body, len));
}

/* Each row of messages: 60 calls that need no byte of a message of this length. */
static uint64_t messages_taken(size_t len) {
    make();
    count_one_of(1);
    for (int round = 0; round < 10; round++) {
        write_messages(len);
        for (int i = 0; i < MESSAGES_AT_ONCE; i++) MAKE(0, 1, felter_take(&consumer));
    }
    end();
    return all();
}

static void look(size_t len) {
    int32_t found = -1;
    uint64_t head;
    MAKE(0, 1, felter_standing(&producer, &consumer, &found, &head));
    if (found != FELTER_FOUND_MESSAGE || len == 0) exit(2);
}

static uint8_t short_buffer[1024];

static void read_short(size_t len) {
    int32_t type_id;
    size_t its = 0;
    MAKE(0, 0, felter_read(&consumer, &type_id, &its, short_buffer, sizeof short_buffer));
    if (its != len) exit(2);
}

static void peek_short(size_t len) {
    int32_t type_id;
    size_t its = 0;
    MAKE(0, 0, felter_peek(&consumer, &type_id, &its, short_buffer, sizeof short_buffer));
    if (its != len) exit(2);
}

static void read_short_batch(size_t len) {
    uint32_t count = 0;
    size_t used = 0;
    MAKE(0, 0, felter_read_batch(&consumer, 8, &count, &used, short_buffer, sizeof short_buffer));
    if (count > 0 || used > 0 || len == 0) exit(2);
}

static uint64_t calls(void (*call)(size_t), size_t len) {
    make();
    write_messages(len);
    count_one_of(1);
    for (int i = 0; i < 60; i++) call(len);
    end();
    return all();
}

static uint64_t messages_looked_at(size_t len) { return calls(look, len); }
static uint64_t reads_too_short(size_t len) { return calls(read_short, len); }
static uint64_t peeks_too_short(size_t len) { return calls(peek_short, len); }
static uint64_t batches_too_short(size_t len) { return calls(read_short_batch, len); }

static const struct {
    const char *name;
    uint64_t (*work)(uint32_t);
    uint32_t n;
} ROWS[] = {
    {"claims settled in order", claims_settled_in_order, 100000},
    {"claims settled backwards", claims_settled_backwards, 100000},
    {"numbers of no claim", numbers_of_no_claim, 5000},
    {"claims settled twice", claims_settled_twice, 5000},
    {"joins", joins, 3000},
    {"joins backwards", joins_backwards, 3000},
    {"rings", rings, 10000},
    {"receivers", receivers, 15000},
    {"counters", counters, 8192},
};

static const struct {
    const char *name;
    uint64_t (*work)(size_t);
} MESSAGES[] = {
    {"messages taken", messages_taken},
    {"messages looked at", messages_looked_at},
    {"reads with too little room", reads_too_short},
    {"peeks with too little room", peeks_too_short},
    {"batches with too little room", batches_too_short},
};

static int is_row(int count, char **words, const char *name) {
    return count <= 1 || strcmp(words[1], name) == 0;
}

/* Says what a row took, and returns whether that is too much. */
static int says(const char *name, uint64_t one, const char *more, uint64_t its) {
    int is_bad = one == 0 || its > MOST * one;
    printf("%-34s %11" PRIu64 " instructions, of %s %11" PRIu64 "%s\n", name, one, more, its,
           is_bad ? ": TOO MUCH" : "");
    return is_bad;
}

int main(int count, char **words) {
    int worst = 0;
    prepare_steps();
    for (size_t i = 0; i < sizeof ROWS / sizeof *ROWS; i++) {
        if (!is_row(count, words, ROWS[i].name)) continue;
        uint64_t one = ROWS[i].work(ROWS[i].n);
        worst |= says(ROWS[i].name, one, "four times as much", ROWS[i].work(4 * ROWS[i].n));
    }
    for (size_t i = 0; i < sizeof MESSAGES / sizeof *MESSAGES; i++) {
        if (!is_row(count, words, MESSAGES[i].name)) continue;
        uint64_t one = MESSAGES[i].work(SHORT_BODY);
        worst |= says(MESSAGES[i].name, one, "1024 times as long", MESSAGES[i].work(LONG_BODY));
    }
    return worst;
}
