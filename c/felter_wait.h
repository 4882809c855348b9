/* felter_wait: calls that wait, requests, and doorbells for epoll. The calls of the proved library never wait. The
 * functions of this header call the library, and are tested and not proved. This header needs Linux and the
 * declarations of POSIX. Compile with -D_POSIX_C_SOURCE=200809L, or in the compiler's default mode.
 *
 * A timeout is in milliseconds. With the timeout 0 a call tries once, and with a negative timeout it waits for ever.
 *
 * To wait for a message, use felter_read_asleep or felter_receive_asleep, and call felter_wake after each write. The
 * reader then wakes after some tens of microseconds. A call of felter_wake costs one load if no reader sleeps.
 *
 * felter_read_wait and felter_receive_wait are for rings and boards whose writers do not call felter_wake. They try
 * again and again with pauses, so they find a message up to about a millisecond late. */
#ifndef FELTER_WAIT_H
#define FELTER_WAIT_H

#include "felter.h"

#include <errno.h>
#include <limits.h>
#include <linux/futex.h>
#include <poll.h>
#include <sched.h>
#include <sys/eventfd.h>
#include <sys/syscall.h>
#include <time.h>
#include <unistd.h>

#ifndef CLOCK_MONOTONIC
#error "felter_wait.h needs POSIX: compile with -D_POSIX_C_SOURCE=200809L, or with -std=gnu99 or later"
#endif

#ifdef __cplusplus
extern "C" {
#else
/* The header unistd.h declares this function only together with names that are not in POSIX. */
extern long syscall(long number, ...);
#endif

/* Stores how long a call has waited. Initialise a felter_pause with {0, 0, timeout}. */
typedef struct felter_pause {
    int64_t began; /* in nanoseconds, 0 before the first pause */
    int turns;
    int64_t timeout; /* in milliseconds */
} felter_pause;

/* Pauses. Later calls pause for longer, up to a millisecond. Returns 1 after the pause. Returns 0 without a pause if
 * the timeout has passed. */
static inline int felter_pauses(felter_pause *it) {
    struct timespec now;
    int64_t left = 1000000, nanos;
    if (it->timeout == 0) return 0;
    if (it->timeout > 0) {
        clock_gettime(CLOCK_MONOTONIC, &now);
        nanos = (int64_t)now.tv_sec * 1000000000 + now.tv_nsec;
        if (it->began == 0) it->began = nanos;
        left = (it->timeout < INT64_MAX / 1000000 ? it->timeout * 1000000 : INT64_MAX) - (nanos - it->began);
        if (left <= 0) return 0;
    }
    /* The count stays at 16, since a wait may last for months. From then on all pauses are equally long. */
    if (it->turns < 16) it->turns++;
    if (it->turns <= 10) {
        sched_yield();
        return 1;
    }
    nanos = 16000L << (it->turns - 10);
    now.tv_sec = 0;
    now.tv_nsec = (long)(nanos < left ? nanos : left < 999999999 ? left : 999999999);
    nanosleep(&now, 0);
    return 1;
}

/* Calls felter_write again and again while the ring is full or another producer is faster. After the timeout the call
 * returns the code of the last try. */
FELTER_GUARD int32_t felter_write_wait(felter_producer *producer, int32_t type_id, const void *body, size_t len,
                                       int64_t timeout) {
    felter_pause pause = {0, 0, timeout};
    for (;;) {
        int32_t code = felter_write(producer, type_id, body, len);
        if (code != FELTER_INSUFFICIENT_CAPACITY && code != FELTER_CONTENDED) return code;
        if (!felter_pauses(&pause)) return code;
    }
}

/* Calls felter_read again and again, with pauses in between, until there is a message. After the timeout the call
 * returns FELTER_NO_MESSAGE. felter_read_asleep wakes sooner, if the writers call felter_wake. */
FELTER_GUARD int32_t felter_read_wait(felter_consumer *consumer, int32_t *type_id, size_t *len, void *buffer,
                                      size_t room, int64_t timeout) {
    felter_pause pause = {0, 0, timeout};
    for (;;) {
        int32_t code = felter_read(consumer, type_id, len, buffer, room);
        if (code != FELTER_NO_MESSAGE || !felter_pauses(&pause)) return code;
    }
}

/* Calls felter_receive again and again, with pauses in between, until there is a message. After the timeout the call
 * returns FELTER_NO_MESSAGE. felter_receive_asleep wakes sooner, if the transmitter's thread calls felter_wake. */
FELTER_GUARD int32_t felter_receive_wait(felter_receiver *receiver, int32_t *type_id, size_t *len, uint64_t *lapped,
                                         void *buffer, size_t room, int64_t timeout) {
    felter_pause pause = {0, 0, timeout};
    for (;;) {
        int32_t code = felter_receive(receiver, type_id, len, lapped, buffer, room);
        if (code != FELTER_NO_MESSAGE || !felter_pauses(&pause)) return code;
    }
}

/* Sleepers ---------------------------------------------------------------------------------------------------------
 *
 * A reader sleeps until a writer wakes it. The reader wakes some tens of microseconds later. The writers and the reader
 * share a felter_sleepers. Initialise this object with FELTER_NO_SLEEPERS. It must live as long as a thread uses it.
 *
 * Each writer calls felter_wake after each write, commit, abort or transmission, and after felter_free of a producer,
 * since felter_free aborts the open claims of the producer. The call costs one load if no reader sleeps. Only
 * felter_wake and the timeout wake a reader. A reader that is woken and finds no message sleeps again. A reader in C
 * does not learn that no writer is left, so the last writer should write a message that means the end.
 */
typedef struct felter_sleepers {
    uint32_t count; /* how many readers sleep, or are about to sleep */
    uint32_t turn;  /* how often readers were woken */
} felter_sleepers;

#define FELTER_NO_SLEEPERS {0, 0}

/* Wakes all readers that sleep. Any thread may call this. A reader that is woken finds the messages that were written
 * before this call. The reason is that a write ends with an exchange, and an x86-64 processor never does the load of
 * this function before that exchange. If `it` is NULL, the call does nothing. */
static inline void felter_wake(felter_sleepers *it) {
    if (!it || __atomic_load_n(&it->count, __ATOMIC_SEQ_CST) == 0) return;
    __atomic_add_fetch(&it->turn, 1, __ATOMIC_SEQ_CST);
    syscall(SYS_futex, &it->turn, FUTEX_WAKE_PRIVATE, INT_MAX, NULL, NULL, 0);
}

/* Returns what is left of the timeout of a pause, in nanoseconds, or -1 if the pause has no timeout. */
static inline int64_t felter_time_left(felter_pause *it) {
    struct timespec now;
    int64_t nanos, left;
    if (it->timeout < 0) return -1;
    clock_gettime(CLOCK_MONOTONIC, &now);
    nanos = (int64_t)now.tv_sec * 1000000000 + now.tv_nsec;
    if (it->began == 0) it->began = nanos;
    left = (it->timeout < INT64_MAX / 1000000 ? it->timeout * 1000000 : INT64_MAX) - (nanos - it->began);
    return left > 0 ? left : 0;
}

/* Sleeps, unless readers were woken after `turn` was loaded. Returns 1 after the sleep. Returns 0 without a sleep if
 * the timeout has passed. */
static inline int felter_sleeps(felter_sleepers *it, uint32_t turn, felter_pause *pause) {
    const int64_t left = felter_time_left(pause);
    struct timespec most;
    if (left == 0) return 0;
    most.tv_sec = (time_t)(left / 1000000000);
    most.tv_nsec = (long)(left % 1000000000);
    syscall(SYS_futex, &it->turn, FUTEX_WAIT_PRIVATE, turn, left < 0 ? NULL : &most, NULL, 0);
    return 1;
}

/* Makes a call again and again, with sleeps in between, until its result is not FELTER_NO_MESSAGE. */
#define FELTER_UNTIL_WOKEN(sleepers, timeout, call)                                  \
    felter_pause pause = {0, 0, (timeout)};                                          \
    int32_t code = (call);                                                           \
    int goes_on = pause.timeout != 0;                                                \
    while (code == FELTER_NO_MESSAGE && goes_on) {                                   \
        uint32_t turn;                                                               \
        __atomic_add_fetch(&(sleepers)->count, 1, __ATOMIC_SEQ_CST);                 \
        turn = __atomic_load_n(&(sleepers)->turn, __ATOMIC_SEQ_CST);                 \
        code = (call);                                                               \
        if (code == FELTER_NO_MESSAGE) goes_on = felter_sleeps(sleepers, turn, &pause); \
        __atomic_sub_fetch(&(sleepers)->count, 1, __ATOMIC_SEQ_CST);                 \
        if (code == FELTER_NO_MESSAGE) code = (call);                                \
    }                                                                                \
    return code

/* Calls felter_read, and sleeps until there is a message. After the timeout the call returns FELTER_NO_MESSAGE. */
FELTER_GUARD int32_t felter_read_asleep(felter_consumer *consumer, felter_sleepers *sleepers, int32_t *type_id,
                                        size_t *len, void *buffer, size_t room, int64_t timeout) {
    if (consumer && !sleepers) return felter_refuse("felter_read_asleep", FELTER_NULL_POINTER);
    FELTER_UNTIL_WOKEN(sleepers, timeout, felter_read(consumer, type_id, len, buffer, room));
}

/* Calls felter_receive, and sleeps until there is a message. After the timeout the call returns FELTER_NO_MESSAGE. */
FELTER_GUARD int32_t felter_receive_asleep(felter_receiver *receiver, felter_sleepers *sleepers, int32_t *type_id,
                                           size_t *len, uint64_t *lapped, void *buffer, size_t room, int64_t timeout) {
    if (receiver && !sleepers) return felter_refuse("felter_receive_asleep", FELTER_NULL_POINTER);
    FELTER_UNTIL_WOKEN(sleepers, timeout, felter_receive(receiver, type_id, len, lapped, buffer, room));
}

/* Requests ---------------------------------------------------------------------------------------------------------
 *
 * A request sends a command of a client, and waits for the reply to this command until a deadline. The call sends the
 * command, and sends it again while the ring is full or another client is faster. Then the call polls for the reply,
 * and passes over the replies to other commands. So a client has one request at a time.
 *
 * If the conductor overtakes the client, the reply may be lost. Then the call soon sends a second command, which frees
 * an id that no counter has, and so changes nothing. Replies to one client come in the order of its commands. So the
 * reply to the second command shows that the conductor had already taken the first one.
 */

/* The outcomes of a request. Each comment says what is known of the command, and which code the call returns. */
enum felter_outcome {
    FELTER_OUTCOME_REPLIED = 0,  /* the reply came: FELTER_OK */
    FELTER_OUTCOME_NOT_SENT = 1, /* the command was not sent: the code of the refusal */
    FELTER_OUTCOME_PENDING = 2,  /* no reply came in time, and the command may still be applied: FELTER_NO_MESSAGE */
    FELTER_OUTCOME_TAKEN = 3,    /* the command was applied or refused, but the reply is lost: FELTER_LAPPED */
    FELTER_OUTCOME_UNKNOWN = 4   /* no reply came in time, and the reply may be lost: FELTER_LAPPED */
};

/* The kind and the number are written only if the outcome is FELTER_OUTCOME_REPLIED, and the id only if the command was
 * sent. */
typedef struct felter_answer {
    int32_t outcome; /* enum felter_outcome */
    int32_t kind;    /* the kind of the reply: enum felter_reply */
    int64_t number;  /* the number of the reply */
    uint64_t id;     /* the correlation id of the command */
} felter_answer;

/* An id that no counter has. */
#define FELTER_NO_COUNTER UINT32_MAX

/* Returns 1 after a pause if the command should be sent again, and otherwise 0. */
static inline int felter_sends_again(int32_t code, felter_pause *pause) {
    return (code == FELTER_INSUFFICIENT_CAPACITY || code == FELTER_CONTENDED) && felter_pauses(pause);
}

/* What a request knows while it waits for the reply. Initialise a felter_waiting with FELTER_NOT_WAITED. */
typedef struct felter_waiting {
    uint64_t after;  /* the id of the second command */
    unsigned others; /* the replies to other commands */
    unsigned waits;  /* the polls since the client was lapped */
    int is_lapped;   /* whether the reply may be lost */
    int has_after;   /* whether the second command was sent */
} felter_waiting;

#define FELTER_NOT_WAITED {0, 0, 0, 0, 0}

/* Polls once for the reply to a command that was sent. Returns 1 if the request has ended, and writes its code. Returns
 * 0 if the caller should poll again. Then the function has paused, if a pause was due. */
static inline int felter_awaits(felter_client *client, felter_waiting *it, felter_pause *pause, felter_answer *answer,
                                int32_t *code) {
    uint64_t lapped = 0;
    int32_t kind = 0;
    int64_t number = 0;
    *code = felter_poll(client, it->has_after ? it->after : answer->id, &kind, &number, &lapped);
    answer->outcome = it->is_lapped ? FELTER_OUTCOME_UNKNOWN : FELTER_OUTCOME_PENDING;
    if (*code == FELTER_OK) {
        answer->outcome = it->has_after ? FELTER_OUTCOME_TAKEN : FELTER_OUTCOME_REPLIED;
        if (it->has_after) {
            *code = FELTER_LAPPED;
            return 1;
        }
        answer->kind = kind;
        answer->number = number;
        return 1;
    }
    if (*code == FELTER_LAPPED) {
        it->is_lapped = 1;
        it->has_after = 0;
        it->waits = 0;
        return 0;
    }
    if (*code != FELTER_NO_MESSAGE && *code != FELTER_OTHER_REPLY) return 1;
    /* While replies to other commands come, the call does not sleep. It looks at the time once in 64 replies. */
    if (*code == FELTER_OTHER_REPLY) pause->turns = 0;
    if (*code == FELTER_OTHER_REPLY && ++it->others % 64 != 0) return 0;
    if (!felter_pauses(pause)) {
        *code = it->is_lapped ? FELTER_LAPPED : FELTER_NO_MESSAGE;
        return 1;
    }
    /* The reply may still come, so the call first waits for the reply. */
    if (it->is_lapped && !it->has_after && ++it->waits > 16)
        it->has_after = felter_send_free(client, FELTER_NO_COUNTER, &it->after) == FELTER_OK;
    return 0;
}

/* Polls for the reply to a command, unless `sent` says that the command was refused. */
FELTER_GUARD int32_t felter_await(felter_client *client, int32_t sent, felter_pause *pause, felter_answer *answer) {
    felter_waiting waiting = FELTER_NOT_WAITED;
    int32_t code = sent;
    answer->outcome = FELTER_OUTCOME_NOT_SENT;
    if (sent != FELTER_OK) return sent;
    while (!felter_awaits(client, &waiting, pause, answer, &code)) continue;
    return code;
}

/* Makes a request with the command of felter_send_allocate_owned. The owner 0 means that the counter has no owner. */
FELTER_GUARD int32_t felter_request_allocate(felter_client *client, int32_t type_id, uint64_t owner, const void *key,
                                             size_t key_len, const void *label, size_t label_len, int64_t timeout,
                                             felter_answer *answer) {
    felter_pause pause = {0, 0, timeout};
    int32_t code;
    if (!answer) return felter_refuse("felter_request_allocate", FELTER_NULL_POINTER);
    do {
        code = owner ? felter_send_allocate_owned(client, type_id, owner, key, key_len, label, label_len, &answer->id)
                     : felter_send_allocate(client, type_id, key, key_len, label, label_len, &answer->id);
    } while (felter_sends_again(code, &pause));
    return felter_await(client, code, &pause, answer);
}

/* Makes a request with the command of felter_send_free. */
FELTER_GUARD int32_t felter_request_free(felter_client *client, uint32_t counter, int64_t timeout,
                                         felter_answer *answer) {
    felter_pause pause = {0, 0, timeout};
    int32_t code;
    if (!answer) return felter_refuse("felter_request_free", FELTER_NULL_POINTER);
    do code = felter_send_free(client, counter, &answer->id);
    while (felter_sends_again(code, &pause));
    return felter_await(client, code, &pause, answer);
}

/* Makes a request with the command of felter_send_set. */
FELTER_GUARD int32_t felter_request_set(felter_client *client, uint32_t counter, int64_t value, int64_t timeout,
                                        felter_answer *answer) {
    felter_pause pause = {0, 0, timeout};
    int32_t code;
    if (!answer) return felter_refuse("felter_request_set", FELTER_NULL_POINTER);
    do code = felter_send_set(client, counter, value, &answer->id);
    while (felter_sends_again(code, &pause));
    return felter_await(client, code, &pause, answer);
}

/* Makes a request with the command of felter_send_close_owner. */
FELTER_GUARD int32_t felter_request_close_owner(felter_client *client, uint64_t owner, int64_t timeout,
                                                felter_answer *answer) {
    felter_pause pause = {0, 0, timeout};
    int32_t code;
    if (!answer) return felter_refuse("felter_request_close_owner", FELTER_NULL_POINTER);
    do code = felter_send_close_owner(client, owner, &answer->id);
    while (felter_sends_again(code, &pause));
    return felter_await(client, code, &pause, answer);
}

/* Doorbells --------------------------------------------------------------------------------------------------------
 *
 * A doorbell is an eventfd, for poll and epoll. The descriptor becomes readable when the doorbell is rung, and stays
 * readable until the doorbell is cleared. Writers ring the doorbell after they have written, since a write does not
 * ring a doorbell. The reader clears the doorbell first, and then reads until no message is there.
 */

/* Opens a doorbell, and returns its descriptor, or -1 with errno. To close the doorbell, call close with the
 * descriptor. */
static inline int felter_doorbell(void) {
    return eventfd(0, EFD_CLOEXEC | EFD_NONBLOCK);
}

/* Rings a doorbell. Any thread may call this. Returns 0, or -1 with errno. */
static inline int felter_ring_doorbell(int bell) {
    const uint64_t one = 1;
    return write(bell, &one, sizeof one) == (ssize_t)sizeof one || errno == EAGAIN ? 0 : -1;
}

/* Clears a doorbell. Returns 1 if the doorbell was rung, 0 if it was not rung, or -1 with errno. */
static inline int felter_clear_doorbell(int bell) {
    uint64_t count;
    if (read(bell, &count, sizeof count) == (ssize_t)sizeof count) return 1;
    return errno == EAGAIN ? 0 : -1;
}

/* Waits until a doorbell is rung, for at most `timeout` milliseconds. If `timeout` is negative, waits for ever. Returns
 * the result of poll. If a signal interrupts the wait, this is -1, and errno is EINTR. */
static inline int felter_wait_doorbell(int bell, int timeout) {
    struct pollfd it;
    it.fd = bell;
    it.events = POLLIN;
    it.revents = 0;
    return poll(&it, 1, timeout);
}

#ifdef __cplusplus
}
#endif
#endif
