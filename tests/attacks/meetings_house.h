/* A conductor with its clients, readers and receivers: the commands that were sent, the replies in their order, and
 * what readers loaded. */
#ifndef ATTACKS_MEETINGS_HOUSE_H
#define ATTACKS_MEETINGS_HOUSE_H

#include "meetings.h"

#define CALLERS 3
#define WATCHERS 2
#define COMMANDS 500 /* of each caller */
#define ALL_COMMANDS (CALLERS * COMMANDS)
#define FLIGHTS 6
#define MAX_IDS (1 << 18)
#define MAX_LOADS 100000
#define MAX_COPIES (2 * ALL_COMMANDS)

enum kind { ALLOCATE, FREE, SET, CLOSE };

struct command {
    enum kind kind;
    uint32_t caller, turn; /* which of its caller's commands it is */
    uint32_t counter, key_len, label_len;
    uint64_t owner;
    int64_t value;
    bool is_known; /* the caller got this reply */
    int32_t reply;
    int64_t number;
    uint64_t position; /* in the order of the replies */
};

/* What a key or a label of a command begins with. */
extern const uint8_t command_bytes[MAX_LABEL + 1];

/* A reply, and the moment of the call that transmitted it. */
struct reply {
    uint64_t id, now;
    int32_t kind;
    int64_t number;
};

/* A copy of a reply, by a receiver that was made after `made` replies, and had been lapped this often. */
struct copy {
    uint64_t session, made, laps;
    struct reply reply;
};

/* A value that a reader loaded, after at least `done` commands and at most `may`. */
struct load {
    uint32_t word;
    int64_t value;
    uint64_t done, may;
};

struct caller {
    struct worker worker;
    _Atomic uint64_t sent;
    atomic_bool has_begun; /* a command that is not sent yet */
    bool is_done;
    uint32_t name, first, flying;
    uint64_t most, flights[FLIGHTS], laps, all_laps, replies;
    struct view view;
};

struct watcher {
    struct worker worker;
    uint64_t count;
    struct load loads[MAX_LOADS];
};

struct listener {
    struct worker worker;
    uint64_t count, sessions, all_laps;
    struct copy copies[MAX_COPIES];
};

extern struct house {
    felter_conductor conductor;
    felter_receiver witness; /* of the conductor's own thread: it gets all replies */
    struct office office;
    bool is_whole; /* all replies of a round have room on the board, so that no client is lapped */
    uint32_t board, counters, reuse_ms; /* (the board's capacity) */
    size_t most;                        /* the bytes of the longest command */
    uint64_t now, applied;
    atomic_uint busy;            /* callers that have not sent all */
    _Atomic uint64_t done, may;  /* how many commands were applied, and may have been */
    _Atomic uint64_t greatest;   /* one more than the greatest correlation id */
    atomic_uint places[MAX_IDS]; /* by correlation id: one more than the place of its command */
    atomic_bool is_replied[MAX_IDS];
    struct command commands[ALL_COMMANDS];
    struct reply order[ALL_COMMANDS];
    int32_t codes[WORDS]; /* of the conductor's own loads in the end, */
    int64_t values[WORDS]; /* and what they loaded */
    struct story beats;
    struct caller callers[CALLERS];
    struct watcher watchers[WATCHERS];
    struct listener listener;
} house;

/* Reads what a reply says, whose kind is known. */
void decode(struct reply *reply, const uint8_t *body, size_t len);

/* The threads. */
void call(struct worker *worker);
void watch(struct worker *worker);
void listen_on(struct worker *worker);

/* Applies the commands to the model, in the order of their replies, and compares the replies, the values that readers
 * loaded, the copies that a receiver got, and the conductor's values in the end. The threads have ended. */
void check_house(void);

#endif
