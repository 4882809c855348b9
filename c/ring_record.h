/* ring_record: records a run of any ring or queue for the program ring-check.
 *
 * Each thread has a log of its own. Initialise the log with RING_RECORD_EMPTY. The thread notes the result of each of
 * its calls in the log. After all threads have ended, ring_record_write writes the logs into a file, one after another.
 * A message is named by its producer, by a number that the producer gave to the call, and by a checksum of its bytes.
 * ring_record_sum returns such a checksum. A call that is tried again may keep its number. Note each refusal with this
 * number, and then the call that was accepted. In a run of a broadcast buffer, a message is named by its number alone.
 * The first message that was transmitted is message 0. In a run of a ring, each claim is named by its position.
 *
 * docs/CHECKING.md shows a whole program. This header needs no other header of felter. */
#ifndef RING_RECORD_H
#define RING_RECORD_H

#include <inttypes.h>
#include <stddef.h>
#include <stdint.h>
#include <stdio.h>
#include <stdlib.h>
#include <string.h>

/* The kinds of lines of a log. A line says that a call of a producer was accepted, that such a call was refused, that
 * the consumer was shown a message, or that the consumer found nothing after the last calls of all producers had
 * returned. In a run of a broadcast buffer a line says that a message was transmitted, that a receiver was given a
 * copy, that a receiver was lapped, or that a receiver found nothing after the last call of the transmitter had
 * returned. In a run of a ring a line says that a producer has an open claim, committed a claim, aborted a claim, or was
 * refused a claim for lack of room, that the consumer was shown a message, at which positions the head and the tail
 * were, which value a word of the buffer had, or that all other words were 0. */
enum ring_record_kind {
    RING_RECORD_SENT,
    RING_RECORD_REFUSED,
    RING_RECORD_GOT,
    RING_RECORD_NOTHING,
    RING_RECORD_TRANSMITTED,
    RING_RECORD_RECEIVED,
    RING_RECORD_LAPPED,
    RING_RECORD_CAUGHT_UP,
    RING_RECORD_OPEN,
    RING_RECORD_COMMITTED,
    RING_RECORD_ABORTED,
    RING_RECORD_FULL,
    RING_RECORD_SHOWN,
    RING_RECORD_HEAD,
    RING_RECORD_POSITIONS,
    RING_RECORD_WORD,
    RING_RECORD_REST
};

/* In a line of a receiver, `producer` is the number of the receiver. In a line about a lap, `number` is how often the
 * receiver was lapped. In a run of a ring, `number` is the position of a claim or of the head, and `body` is also the
 * position of the tail. `number` is also the position of a word, and `body` its value. */
typedef struct ring_record_line {
    uint64_t number, body;
    uint32_t length;
    int32_t type_id;
    uint16_t producer;
    uint8_t kind;
} ring_record_line;

/* The log of a thread. `is_short` is 1 if lines are missing because memory ran out. */
typedef struct ring_record_log {
    ring_record_line *lines;
    size_t count, room;
    int is_short;
} ring_record_log;

#define RING_RECORD_EMPTY {NULL, 0, 0, 0}

static inline void ring_record_note_message(ring_record_log *log, enum ring_record_kind kind, uint16_t producer,
                                            uint64_t number, int32_t type_id, uint32_t length, uint64_t body) {
    if (log->count == log->room) {
        size_t room = log->room == 0 ? 1024 : 2 * log->room;
        ring_record_line *lines =
            room > SIZE_MAX / sizeof *lines ? NULL : (ring_record_line *)realloc(log->lines, room * sizeof *lines);
        if (lines == NULL) {
            log->is_short = 1;
            return;
        }
        log->lines = lines;
        log->room = room;
    }
    log->lines[log->count].number = number;
    log->lines[log->count].body = body;
    log->lines[log->count].length = length;
    log->lines[log->count].type_id = type_id;
    log->lines[log->count].producer = producer;
    log->lines[log->count].kind = (uint8_t)kind;
    log->count++;
}

static inline void ring_record_note(ring_record_log *log, enum ring_record_kind kind, uint16_t producer,
                                    uint64_t number, uint64_t body) {
    ring_record_note_message(log, kind, producer, number, 0, 0, body);
}

/* Notes that a call of a producer was accepted. */
static inline void ring_record_sent(ring_record_log *log, uint16_t producer, uint64_t number, uint64_t body) {
    ring_record_note(log, RING_RECORD_SENT, producer, number, body);
}

/* Notes that a call of a producer was refused, or that its claim was aborted. */
static inline void ring_record_refused(ring_record_log *log, uint16_t producer, uint64_t number, uint64_t body) {
    ring_record_note(log, RING_RECORD_REFUSED, producer, number, body);
}

/* Notes that the consumer was shown a message. */
static inline void ring_record_got(ring_record_log *log, uint16_t producer, uint64_t number, uint64_t body) {
    ring_record_note(log, RING_RECORD_GOT, producer, number, body);
}

/* Notes that the consumer found nothing, although the last calls of all producers had returned before it looked. */
static inline void ring_record_nothing(ring_record_log *log) {
    ring_record_note(log, RING_RECORD_NOTHING, 0, 0, 0);
}

/* Notes that a message was transmitted. `number` is the number of messages that were transmitted before this one. */
static inline void ring_record_transmitted(ring_record_log *log, uint64_t number, uint64_t body) {
    ring_record_note(log, RING_RECORD_TRANSMITTED, 0, number, body);
}

/* Notes that a receiver was given a copy of a message. */
static inline void ring_record_received(ring_record_log *log, uint16_t receiver, uint64_t number, uint64_t body) {
    ring_record_note(log, RING_RECORD_RECEIVED, receiver, number, body);
}

/* Notes that a receiver was lapped. `count` is how often the receiver was lapped so far. */
static inline void ring_record_lapped(ring_record_log *log, uint16_t receiver, uint64_t count) {
    ring_record_note(log, RING_RECORD_LAPPED, receiver, count, 0);
}

/* Notes that a receiver found nothing, although the last call of the transmitter had returned before the receiver
 * looked. */
static inline void ring_record_caught_up(ring_record_log *log, uint16_t receiver) {
    ring_record_note(log, RING_RECORD_CAUGHT_UP, receiver, 0, 0);
}

/* Notes that a producer claimed room for a message of `length` bytes. `place` is the position of the claim in the ring,
 * in bytes from the beginning of the first lap. The claim is open until ring_record_committed or ring_record_aborted. */
static inline void ring_record_claimed(ring_record_log *log, uint16_t producer, uint64_t place, int32_t type_id,
                                       uint32_t length) {
    ring_record_note_message(log, RING_RECORD_OPEN, producer, place, type_id, length, 0);
}

static inline void ring_record_settled(ring_record_log *log, enum ring_record_kind kind, uint64_t place,
                                       uint64_t body) {
    for (size_t i = log->count; i > 0; i--) {
        ring_record_line *it = &log->lines[i - 1];
        if (it->kind != RING_RECORD_OPEN || it->number != place) continue;
        it->kind = (uint8_t)kind;
        it->body = body;
        return;
    }
}

/* Notes that the producer of this log committed its open claim at this place. */
static inline void ring_record_committed(ring_record_log *log, uint64_t place, uint64_t body) {
    ring_record_settled(log, RING_RECORD_COMMITTED, place, body);
}

/* Notes that the producer of this log aborted its open claim at this place. */
static inline void ring_record_aborted(ring_record_log *log, uint64_t place) {
    ring_record_settled(log, RING_RECORD_ABORTED, place, 0);
}

/* Notes that the ring had no room for a message of `length` bytes of a producer. */
static inline void ring_record_full(ring_record_log *log, uint16_t producer, uint32_t length) {
    ring_record_note_message(log, RING_RECORD_FULL, producer, 0, 0, length, 0);
}

/* The place of a message whose position the consumer does not know. */
#define RING_RECORD_NO_PLACE UINT64_MAX

/* Notes that the consumer was shown a message of a ring. */
static inline void ring_record_shown(ring_record_log *log, uint64_t place, int32_t type_id, uint32_t length,
                                     uint64_t body) {
    ring_record_note_message(log, RING_RECORD_SHOWN, 0, place, type_id, length, body);
}

/* Notes the position of the head, which the consumer loaded after a read had returned. */
static inline void ring_record_head(ring_record_log *log, uint64_t head) {
    ring_record_note(log, RING_RECORD_HEAD, 0, head, 0);
}

/* Notes the positions of the head and the tail after all threads had ended. Note them in the log of the consumer. */
static inline void ring_record_positions(ring_record_log *log, uint64_t head, uint64_t tail) {
    ring_record_note(log, RING_RECORD_POSITIONS, 0, head, tail);
}

/* Notes the words of a buffer after all threads have ended, directly after ring_record_positions with this head. The
 * buffer has `capacity` bytes. Its words are read in the byte order of the machine. */
static inline void ring_record_words(ring_record_log *log, const void *buffer, uint32_t capacity, uint64_t head) {
    for (uint64_t at = head; at - head < capacity; at += 8) {
        uint64_t word;
        memcpy(&word, (const unsigned char *)buffer + at % capacity, sizeof word);
        if (word != 0) ring_record_note(log, RING_RECORD_WORD, 0, at, word);
    }
    ring_record_note(log, RING_RECORD_REST, 0, 0, 0);
}

/* Returns a checksum of these bytes: FNV-1a of 64 bits. */
static inline uint64_t ring_record_sum(const void *bytes, size_t length) {
    const unsigned char *at = (const unsigned char *)bytes;
    uint64_t sum = UINT64_C(14695981039346656037);
    for (size_t i = 0; i < length; i++) sum = (sum ^ at[i]) * UINT64_C(1099511628211);
    return sum;
}

static inline int ring_record_write_message(FILE *file, const ring_record_line *it) {
    if (it->kind == RING_RECORD_COMMITTED)
        return fprintf(file, "committed %u %" PRIu64 " %" PRId32 " %" PRIu32 " %" PRIu64 "\n", (unsigned)it->producer,
                       it->number, it->type_id, it->length, it->body);
    if (it->kind != RING_RECORD_SHOWN)
        return fprintf(file, "%s %u %" PRIu64 " %" PRId32 " %" PRIu32 "\n",
                       it->kind == RING_RECORD_OPEN ? "open" : "aborted", (unsigned)it->producer, it->number,
                       it->type_id, it->length);
    if (it->number == RING_RECORD_NO_PLACE)
        return fprintf(file, "got - %" PRId32 " %" PRIu32 " %" PRIu64 "\n", it->type_id, it->length, it->body);
    return fprintf(file, "got %" PRIu64 " %" PRId32 " %" PRIu32 " %" PRIu64 "\n", it->number, it->type_id, it->length,
                   it->body);
}

static inline int ring_record_write_line(FILE *file, const ring_record_line *it) {
    static const char *const words[] = {"sent", "refused", "got", "", "", "received"};
    unsigned client = it->producer;
    switch (it->kind) {
    case RING_RECORD_NOTHING: return fprintf(file, "empty\n");
    case RING_RECORD_TRANSMITTED: return fprintf(file, "transmitted %" PRIu64 " %" PRIu64 "\n", it->number, it->body);
    case RING_RECORD_LAPPED: return fprintf(file, "lapped %u %" PRIu64 "\n", client, it->number);
    case RING_RECORD_CAUGHT_UP: return fprintf(file, "empty %u\n", client);
    case RING_RECORD_OPEN:
    case RING_RECORD_COMMITTED:
    case RING_RECORD_ABORTED:
    case RING_RECORD_SHOWN: return ring_record_write_message(file, it);
    case RING_RECORD_FULL: return fprintf(file, "full %u %" PRIu32 "\n", client, it->length);
    case RING_RECORD_HEAD: return fprintf(file, "head %" PRIu64 "\n", it->number);
    case RING_RECORD_POSITIONS: return fprintf(file, "positions %" PRIu64 " %" PRIu64 "\n", it->number, it->body);
    case RING_RECORD_WORD: return fprintf(file, "word %" PRIu64 " %" PRIu64 "\n", it->number, it->body);
    case RING_RECORD_REST: return fprintf(file, "rest\n");
    default: return fprintf(file, "%s %u %" PRIu64 " %" PRIu64 "\n", words[it->kind], client, it->number, it->body);
    }
}

static inline int ring_record_write_as(FILE *file, const char *what, const ring_record_log *logs, size_t count) {
    if (fprintf(file, "%s\n", what) < 0) return -1;
    for (size_t i = 0; i < count; i++) {
        if (logs[i].is_short) return -1;
        for (size_t j = 0; j < logs[i].count; j++)
            if (ring_record_write_line(file, &logs[i].lines[j]) < 0) return -1;
    }
    return fflush(file) == 0 ? 0 : -1;
}

/* Writes the logs as a run of a queue. Returns 0, or -1 if a write failed or a log is short. */
static inline int ring_record_write(FILE *file, const ring_record_log *logs, size_t count) {
    return ring_record_write_as(file, "queue", logs, count);
}

/* Writes the logs of the transmitter and of the receivers as a run of a broadcast buffer. Returns 0, or -1 if a write
 * failed or a log is short. */
static inline int ring_record_write_broadcast(FILE *file, const ring_record_log *logs, size_t count) {
    return ring_record_write_as(file, "broadcast", logs, count);
}

/* Writes the logs of the producers and of the consumer as a run of a ring with this capacity, whose positions began at
 * `start`. Returns 0, or -1 if a write failed or a log is short. */
static inline int ring_record_write_ring(FILE *file, uint32_t capacity, uint64_t start, const ring_record_log *logs,
                                         size_t count) {
    char what[48];
    snprintf(what, sizeof what, "ring %" PRIu32 " %" PRIu64, capacity, start);
    return ring_record_write_as(file, what, logs, count);
}

/* Frees the memory of a log, and empties the log. */
static inline void ring_record_free(ring_record_log *log) {
    free(log->lines);
    log->lines = NULL;
    log->count = log->room = 0;
    log->is_short = 0;
}

#endif
