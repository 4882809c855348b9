/* Faults put before calls of the C library, one for each build: SABOTAGE_NAME says which, and the linker wraps the
 * call. tests/attacks/sabotages.py has the table. Most happen once in twenty to three hundred calls. */
#include "felter.h"

#include <string.h>

/* (several threads may count) */
#define ONCE_IN(times) (__atomic_add_fetch(&turns, 1, __ATOMIC_RELAXED) % (times) == 0)
static unsigned turns;

#if defined SABOTAGE_LOST || defined SABOTAGE_DOUBLED || defined SABOTAGE_FULL
int32_t __real_felter_write(felter_producer *producer, int32_t type_id, const uint8_t *body, size_t len);

int32_t __wrap_felter_write(felter_producer *producer, int32_t type_id, const uint8_t *body, size_t len) {
#if defined SABOTAGE_LOST
    if (len && ONCE_IN(300)) return FELTER_OK;
#elif defined SABOTAGE_FULL
    if (len && ONCE_IN(300)) return FELTER_INSUFFICIENT_CAPACITY;
#endif
    int32_t code = __real_felter_write(producer, type_id, body, len);
#if defined SABOTAGE_DOUBLED
    if (code == FELTER_OK && ONCE_IN(300)) __real_felter_write(producer, type_id, body, len);
#endif
    return code;
}
#endif

#if defined SABOTAGE_TORN || defined SABOTAGE_BEYOND
int32_t __real_felter_read(felter_consumer *consumer, int32_t *type_id, size_t *len, uint8_t *buffer, size_t room);

int32_t __wrap_felter_read(felter_consumer *consumer, int32_t *type_id, size_t *len, uint8_t *buffer, size_t room) {
    int32_t code = __real_felter_read(consumer, type_id, len, buffer, room);
    if (code != FELTER_OK || !*len || !ONCE_IN(200)) return code;
#if defined SABOTAGE_TORN
    buffer[*len - 1] ^= 1;
#else
    buffer[*len] = 0;
#endif
    return code;
}
#endif

#if defined SABOTAGE_UNABORTED
int32_t __real_felter_abort(felter_producer *producer, uint64_t claim);

/* An aborted claim is shown. */
int32_t __wrap_felter_abort(felter_producer *producer, uint64_t claim) {
    return ONCE_IN(50) ? felter_commit(producer, claim) : __real_felter_abort(producer, claim);
}
#endif

#if defined SABOTAGE_SHORT_PUT
int32_t __real_felter_put(felter_producer *producer, uint64_t claim, size_t offset, const uint8_t *bytes, size_t len);

/* The last byte is not put. */
int32_t __wrap_felter_put(felter_producer *producer, uint64_t claim, size_t offset, const uint8_t *bytes, size_t len) {
    return __real_felter_put(producer, claim, offset, bytes, len > 1 && ONCE_IN(50) ? len - 1 : len);
}
#endif

#if defined SABOTAGE_LEAK
void __real_felter_free(felter_handle *handle);

void __wrap_felter_free(felter_handle *handle) {
    if (ONCE_IN(50)) handle->at = NULL;
    else __real_felter_free(handle);
}
#endif

#if defined SABOTAGE_UNSAID_LAP
int32_t __real_felter_receive(felter_receiver *receiver, int32_t *type_id, size_t *len, uint64_t *lapped,
                              uint8_t *buffer, size_t room);

int32_t __wrap_felter_receive(felter_receiver *receiver, int32_t *type_id, size_t *len, uint64_t *lapped,
                              uint8_t *buffer, size_t room) {
    int32_t code = __real_felter_receive(receiver, type_id, len, lapped, buffer, room);
    return code == FELTER_LAPPED ? __real_felter_receive(receiver, type_id, len, lapped, buffer, room) : code;
}
#endif

#if defined SABOTAGE_STALE
int32_t __real_felter_reader_value(felter_reader *reader, uint32_t id, int64_t *value);

/* The value that was loaded before, of whatever counter. */
int32_t __wrap_felter_reader_value(felter_reader *reader, uint32_t id, int64_t *value) {
    static int64_t last;
    int32_t code = __real_felter_reader_value(reader, id, value);
    if (code != FELTER_OK) return code;
    int64_t loaded = *value;
    if (ONCE_IN(20)) *value = last;
    last = loaded;
    return code;
}
#endif

#if defined SABOTAGE_OTHER_REPLY
int32_t __real_felter_poll(felter_client *client, uint64_t correlation, int32_t *kind, int64_t *number,
                           uint64_t *lapped);

/* A reply to another command is taken for one's own. */
int32_t __wrap_felter_poll(felter_client *client, uint64_t correlation, int32_t *kind, int64_t *number,
                           uint64_t *lapped) {
    int32_t code = __real_felter_poll(client, correlation, kind, number, lapped);
    if (code != FELTER_OTHER_REPLY || !ONCE_IN(20)) return code;
    *kind = FELTER_REPLY_DONE;
    *number = 0;
    return FELTER_OK;
}
#endif

#if defined SABOTAGE_TAKING_PEEK
int32_t __real_felter_peek(felter_consumer *consumer, int32_t *type_id, size_t *len, void *buffer, size_t room);

/* A message that is looked at does not stay. */
int32_t __wrap_felter_peek(felter_consumer *consumer, int32_t *type_id, size_t *len, void *buffer, size_t room) {
    int32_t code = __real_felter_peek(consumer, type_id, len, buffer, room);
    if (code == FELTER_OK && ONCE_IN(50) && felter_take(consumer) != FELTER_OK) return FELTER_NO_MESSAGE;
    return code;
}
#endif

#if defined SABOTAGE_UNTAKEN
int32_t __real_felter_take(felter_consumer *consumer);

/* A message that is taken stays. */
int32_t __wrap_felter_take(felter_consumer *consumer) {
    return ONCE_IN(50) ? FELTER_OK : __real_felter_take(consumer);
}
#endif

#if defined SABOTAGE_UNRAISED
int32_t __real_felter_counter_propose_max(felter_counters *counters, uint32_t id, int64_t value, uint32_t *raised);

/* A value that was raised is said to be as it was. */
int32_t __wrap_felter_counter_propose_max(felter_counters *counters, uint32_t id, int64_t value, uint32_t *raised) {
    int32_t code = __real_felter_counter_propose_max(counters, id, value, raised);
    if (code == FELTER_OK && ONCE_IN(20)) *raised = 0;
    return code;
}
#endif

#if defined SABOTAGE_SET_ANYWAY
int32_t __real_felter_counter_compare_and_set(felter_counters *counters, uint32_t id, int64_t expected, int64_t value,
                                              uint32_t *was_set);

/* A value that was not expected is replaced all the same. */
int32_t __wrap_felter_counter_compare_and_set(felter_counters *counters, uint32_t id, int64_t expected, int64_t value,
                                              uint32_t *was_set) {
    int32_t code = __real_felter_counter_compare_and_set(counters, id, expected, value, was_set);
    return code == FELTER_OK && *was_set == 0 && ONCE_IN(20) ? felter_counter_set(counters, id, value) : code;
}
#endif

#if defined SABOTAGE_SHORT_LAP
int32_t __real_felter_receiver_lap(felter_receiver *receiver, uint64_t *place, uint64_t *intent);

/* A receiver is said to have been further on when it was lapped. */
int32_t __wrap_felter_receiver_lap(felter_receiver *receiver, uint64_t *place, uint64_t *intent) {
    int32_t code = __real_felter_receiver_lap(receiver, place, intent);
    if (code == FELTER_OK && ONCE_IN(5)) *place += 8;
    return code;
}
#endif

#if defined SABOTAGE_EARLY_DEADLINE
int32_t __real_felter_conductor_deadline(felter_conductor *conductor, uint32_t id, uint64_t *deadline);

/* A freed id is said to rest for a millisecond less. */
int32_t __wrap_felter_conductor_deadline(felter_conductor *conductor, uint32_t id, uint64_t *deadline) {
    int32_t code = __real_felter_conductor_deadline(conductor, id, deadline);
    if (code == FELTER_OK && *deadline > 0 && *deadline < INT64_MAX && ONCE_IN(5)) --*deadline;
    return code;
}
#endif

/* Faults that threads can notice which meet in a call. What each thread had before is kept for it alone. */

#if defined SABOTAGE_OLD_COPY
int32_t __real_felter_receive(felter_receiver *receiver, int32_t *type_id, size_t *len, uint64_t *lapped,
                              uint8_t *buffer, size_t room);

/* The copy that the thread got before, in place of the next one. */
int32_t __wrap_felter_receive(felter_receiver *receiver, int32_t *type_id, size_t *len, uint64_t *lapped,
                              uint8_t *buffer, size_t room) {
    static _Thread_local uint8_t last[2048];
    static _Thread_local size_t last_len;
    static _Thread_local int32_t last_type_id;
    int32_t code = __real_felter_receive(receiver, type_id, len, lapped, buffer, room);
    if (code != FELTER_OK || *len > sizeof last) return code;
    if (last_type_id && last_len <= room && ONCE_IN(100)) {
        memcpy(buffer, last, *len = last_len);
        *type_id = last_type_id;
        return code;
    }
    memcpy(last, buffer, last_len = *len);
    last_type_id = *type_id;
    return code;
}
#endif

#if defined SABOTAGE_TORN_COPY
int32_t __real_felter_load_body(felter_raw_receiver *receiver, uint8_t *buffer, size_t room);

int32_t __wrap_felter_load_body(felter_raw_receiver *receiver, uint8_t *buffer, size_t room) {
    int32_t code = __real_felter_load_body(receiver, buffer, room);
    if (code == FELTER_OK && room && ONCE_IN(50)) buffer[0] ^= 1;
    return code;
}
#endif

#if defined SABOTAGE_OVERWRITTEN
int32_t __real_felter_validate(felter_raw_receiver *receiver);

int32_t __wrap_felter_validate(felter_raw_receiver *receiver) {
    int32_t code = __real_felter_validate(receiver);
    return code == FELTER_LAPPED && ONCE_IN(5) ? FELTER_OK : code;
}
#endif

#if defined SABOTAGE_OLD_VALUE
int32_t __real_felter_reader_value(felter_reader *reader, uint32_t id, int64_t *value);

/* The value that the thread saw in this counter before the newest one. */
int32_t __wrap_felter_reader_value(felter_reader *reader, uint32_t id, int64_t *value) {
    static _Thread_local int64_t newest[8], before[8];
    int32_t code = __real_felter_reader_value(reader, id, value);
    if (code != FELTER_OK || id >= 8) return code;
    if (*value != newest[id]) {
        before[id] = newest[id];
        newest[id] = *value;
    } else if (ONCE_IN(20)) {
        *value = before[id];
    }
    return code;
}
#endif

#if defined SABOTAGE_UNSET
int32_t __real_felter_counter_set(felter_counters *counters, uint32_t id, int64_t value);

int32_t __wrap_felter_counter_set(felter_counters *counters, uint32_t id, int64_t value) {
    int64_t is;
    return ONCE_IN(50) ? felter_counter_value(counters, id, &is) : __real_felter_counter_set(counters, id, value);
}
#endif

#if defined SABOTAGE_ADDED_TWICE || defined SABOTAGE_UNADDED
int32_t __real_felter_adder_add(felter_adder *adder, int64_t delta, int64_t *before);

int32_t __wrap_felter_adder_add(felter_adder *adder, int64_t delta, int64_t *before) {
#if defined SABOTAGE_ADDED_TWICE
    int64_t sum;
    int32_t code = __real_felter_adder_add(adder, delta, before);
    if (code == FELTER_OK && ONCE_IN(50)) code = __real_felter_adder_add(adder, delta, &sum);
    return code;
#else
    return ONCE_IN(300) ? felter_adder_value(adder, before) : __real_felter_adder_add(adder, delta, before);
#endif
}
#endif

#if defined SABOTAGE_OLD_SUM
int32_t __real_felter_adder_value(felter_adder *adder, int64_t *value);

/* The sum that the thread saw before the newest one. */
int32_t __wrap_felter_adder_value(felter_adder *adder, int64_t *value) {
    static _Thread_local int64_t newest, before;
    int32_t code = __real_felter_adder_value(adder, value);
    if (code != FELTER_OK) return code;
    if (*value != newest) {
        before = newest;
        newest = *value;
    }
    if (ONCE_IN(20)) *value = before;
    return code;
}
#endif

#if defined SABOTAGE_SAME_ID
int32_t __real_felter_next_id(felter_producer *producer, uint64_t *id);

int32_t __wrap_felter_next_id(felter_producer *producer, uint64_t *id) {
    int32_t code = __real_felter_next_id(producer, id);
    if (code == FELTER_OK && *id && ONCE_IN(50)) --*id;
    return code;
}
#endif

#if defined SABOTAGE_OLD_HEAD
int32_t __real_felter_positions(felter_producer *producer, uint64_t *head, uint64_t *tail);

/* The head that the thread saw before the newest one. */
int32_t __wrap_felter_positions(felter_producer *producer, uint64_t *head, uint64_t *tail) {
    static _Thread_local uint64_t newest, before;
    int32_t code = __real_felter_positions(producer, head, tail);
    if (code != FELTER_OK) return code;
    if (*head != newest) {
        before = newest;
        newest = *head;
    } else if (ONCE_IN(20)) {
        *head = before;
    }
    return code;
}
#endif

#if defined SABOTAGE_OLD_BEAT
int32_t __real_felter_heartbeat(felter_producer *producer, uint64_t *value);

/* The heartbeat that the thread saw before the newest one. */
int32_t __wrap_felter_heartbeat(felter_producer *producer, uint64_t *value) {
    static _Thread_local uint64_t newest, before;
    int32_t code = __real_felter_heartbeat(producer, value);
    if (code != FELTER_OK) return code;
    if (*value != newest) {
        before = newest;
        newest = *value;
    } else if (ONCE_IN(20)) {
        *value = before;
    }
    return code;
}
#endif

#if defined SABOTAGE_HELD_BACK
int32_t __real_felter_read(felter_consumer *consumer, int32_t *type_id, size_t *len, uint8_t *buffer, size_t room);

int32_t __wrap_felter_read(felter_consumer *consumer, int32_t *type_id, size_t *len, uint8_t *buffer, size_t room) {
    return ONCE_IN(50) ? FELTER_NO_MESSAGE : __real_felter_read(consumer, type_id, len, buffer, room);
}
#endif

#if defined SABOTAGE_UNRECOVERED || defined SABOTAGE_TORN_BACK
int32_t __real_felter_recover(const void *image, size_t length, uint64_t *open_claims, uint32_t *count, size_t *used,
                              void *buffer, size_t room);

int32_t __wrap_felter_recover(const void *image, size_t length, uint64_t *open_claims, uint32_t *count, size_t *used,
                              void *buffer, size_t room) {
    int32_t code = __real_felter_recover(image, length, open_claims, count, used, buffer, room);
    felter_record first;
    if (code != FELTER_OK || !*count || !ONCE_IN(50)) return code;
    memcpy(&first, buffer, sizeof first);
#if defined SABOTAGE_UNRECOVERED
    *count -= 1;
    *used -= FELTER_SPAN(first.len);
    memmove(buffer, (uint8_t *)buffer + FELTER_SPAN(first.len), *used);
#else
    if (first.len) ((uint8_t *)buffer)[sizeof first] ^= 1;
#endif
    return code;
}
#endif
