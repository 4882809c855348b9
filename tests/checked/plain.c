/* Records a run of a small ring of its own, which may have a fault: plain CAPACITY CALLS SEED FAULT FILE. One thread
 * plays up to three producers and the consumer. The ring is Agrona's many-to-one ring, with its words in one buffer. It
 * shares no code with felter. FAULT is 0, or the number of a fault of the list below. */
#include "ring_record.h"

#include <string.h>

enum fault {
    RIGHT,
    NO_PADDING,        /* a record crosses the end of the buffer */
    PADDING_TOO_EARLY, /* padding is put before a record that just fits */
    OVERLAPS,          /* a record is claimed 8 bytes too early */
    OVERWRITES,        /* a claim does not look at the head */
    REFUSES,           /* a claim needs 8 bytes more than its record has */
    SHOWS_ABORTED,     /* the consumer is shown aborted claims */
    SHOWS_PADDING,     /* the consumer is shown padding */
    PASSES_OPEN,       /* the consumer passes open claims */
    SHOWS_OPEN,        /* the consumer is shown open claims */
    DOES_NOT_CLEAR,    /* the consumer clears no words */
    CLEARS_HEADERS,    /* the consumer clears only headers */
    STAYS,             /* the head does not move at the last message of a read */
    LOSES,             /* the consumer passes a message without showing it */
    TEARS,             /* the consumer is shown the last byte changed */
    FAULTS
};

/* The most bytes of the buffer and of a record after it. */
#define MOST 4096
#define OPEN 3

struct claim {
    uint64_t place, sum;
    uint32_t length;
    int32_t type_id;
    uint16_t producer;
};

static unsigned char buffer[MOST];
static uint32_t capacity;
static uint64_t head, tail, random_state;
static enum fault fault;
static struct claim open_claims[OPEN];
static int open_count;
static ring_record_log logs[4];
#define CONSUMER 3

static uint64_t next_random(uint64_t below) {
    random_state ^= random_state << 13;
    random_state ^= random_state >> 7;
    random_state ^= random_state << 17;
    return random_state % below;
}

/* Tests whether a fault happens now. It happens at every third chance. */
static int happens(enum fault it) {
    return fault == it && next_random(3) == 0;
}

static void store_header(uint64_t place, int32_t length, int32_t type_id) {
    memcpy(buffer + place % capacity, &length, 4);
    memcpy(buffer + place % capacity + 4, &type_id, 4);
}

static void load_header(uint64_t place, int32_t *length, int32_t *type_id) {
    memcpy(length, buffer + place % capacity, 4);
    memcpy(type_id, buffer + place % capacity + 4, 4);
}

static uint32_t span(uint32_t length) {
    return (8 + length + 7) / 8 * 8;
}

/* Claims room for a message. Returns 0 if there is none. */
static int claim(uint16_t producer, int32_t type_id, uint32_t length) {
    uint64_t limit = head + capacity, room = capacity - tail % capacity, place = tail;
    int is_over = span(length) > room || (span(length) == room && happens(PADDING_TOO_EARLY));
    if (is_over && !happens(NO_PADDING)) place += room;
    if (place == tail && place > head && happens(OVERLAPS)) place -= 8;
    uint64_t needed = place + span(length) + (fault == REFUSES ? 8 : 0);
    if (needed > limit && !happens(OVERWRITES)) {
        ring_record_full(&logs[producer], producer, length);
        return 0;
    }
    if (place > tail) store_header(tail, (int32_t)(place - tail), -1);
    tail = place + span(length);
    if (place % capacity + span(length) <= capacity) store_header(place, -(int32_t)(8 + length), type_id);
    ring_record_claimed(&logs[producer], producer, place, type_id, length);
    struct claim *it = &open_claims[open_count++];
    *it = (struct claim){place, 0, length, type_id, producer};
    unsigned char body[MOST];
    for (uint32_t i = 0; i < length; i++) body[i] = (unsigned char)next_random(256);
    if (place % capacity + span(length) <= capacity) memcpy(buffer + place % capacity + 8, body, length);
    it->sum = ring_record_sum(body, length);
    return 1;
}

/* Commits or aborts one of the open claims. */
static void settle(void) {
    int at = (int)next_random((uint64_t)open_count);
    struct claim it = open_claims[at];
    open_claims[at] = open_claims[--open_count];
    if (next_random(4) == 0) {
        store_header(it.place, (int32_t)(8 + it.length), -1);
        ring_record_aborted(&logs[it.producer], it.place);
        return;
    }
    store_header(it.place, (int32_t)(8 + it.length), it.type_id);
    ring_record_committed(&logs[it.producer], it.place, it.sum);
}

/* Shows the consumer the record at this place. */
static void show(uint64_t place, int32_t length, int32_t type_id) {
    unsigned char body[MOST];
    uint32_t bytes = (uint32_t)length - 8;
    memcpy(body, buffer + place % capacity + 8, bytes);
    if (bytes > 0 && happens(TEARS)) body[bytes - 1] ^= 1;
    if (!happens(LOSES))
        ring_record_shown(&logs[CONSUMER], place, type_id < 0 ? 1 : type_id, bytes, ring_record_sum(body, bytes));
}

/* Reads up to `limit` messages, as far as the end of the buffer. */
static void read_some(uint64_t limit) {
    uint64_t at = head, from = head, end = head - head % capacity + capacity, shown = 0, before = head;
    while (at < end && at < tail && shown < limit) {
        int32_t length, type_id;
        load_header(at, &length, &type_id);
        int is_open = length <= 0;
        if (is_open && (happens(PASSES_OPEN) || happens(SHOWS_OPEN))) length = -length;
        if (length < 8 || (uint32_t)length > capacity) break;
        before = at;
        int is_padding = type_id < 0 && (uint64_t)length + 8 > capacity / 8 + 8 + 7;
        if (type_id > 0 && !(is_open && fault == PASSES_OPEN)) show(at, length, type_id), shown++;
        if (type_id < 0 && happens(is_padding ? SHOWS_PADDING : SHOWS_ABORTED)) show(at, length, type_id);
        at += span((uint32_t)length - 8);
    }
    for (uint64_t i = from; i < at; i += 8)
        if (!happens(DOES_NOT_CLEAR) && !(fault == CLEARS_HEADERS && i != from)) memset(buffer + i % capacity, 0, 8);
    head = at > from && happens(STAYS) ? before : at;
    ring_record_head(&logs[CONSUMER], head);
}

int main(int count, char **words) {
    if (count != 6) return fprintf(stderr, "usage: plain CAPACITY CALLS SEED FAULT FILE\n"), 2;
    capacity = (uint32_t)strtoul(words[1], NULL, 10);
    random_state = strtoull(words[3], NULL, 10) * UINT64_C(0x9e3779b97f4a7c15) + 1;
    fault = (enum fault)atoi(words[4]);
    if (fault >= FAULTS || capacity > MOST / 2) return 2;
    for (int calls = atoi(words[2]); calls > 0; calls--) {
        uint64_t what = next_random(5);
        if (what < 2 && open_count < OPEN)
            claim((uint16_t)next_random(3), (int32_t)(1 + next_random(9)), (uint32_t)next_random(capacity / 8 + 1));
        else if (what < 4 && open_count > 0)
            settle();
        else
            read_some(1 + next_random(4));
    }
    ring_record_positions(&logs[CONSUMER], head, tail);
    ring_record_words(&logs[CONSUMER], buffer, capacity, head);
    FILE *file = fopen(words[5], "w");
    return file == NULL || ring_record_write_ring(file, capacity, 0, logs, 4) != 0 || fclose(file) != 0 ? 3 : 0;
}
