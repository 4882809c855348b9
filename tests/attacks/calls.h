/* What the random calls share: where choices come from, buffers that end at a guard page, memory that is refused, and
 * checks. */
#ifndef ATTACKS_CALLS_H
#define ATTACKS_CALLS_H

#include "model.h"

#include <stdio.h>
#include <stdlib.h>
#include <string.h>

/* A choice below a number. */
uint64_t pick(uint64_t below);
static inline bool once_in(uint64_t times) { return pick(times) == 0; }
/* One of these. */
#define ONE_OF(...) (((uint64_t[]){__VA_ARGS__})[pick(sizeof(uint64_t[]){__VA_ARGS__} / sizeof(uint64_t))])

/* A position at which a ring or a broadcast buffer may start, or nearly so. */
static inline uint64_t some_start(uint64_t capacity) {
    return ONE_OF(0, capacity, 77 * capacity, LAST - capacity, LAST, LAST + capacity, 8);
}

/* Bytes to be read by a call, and a buffer to be written; each ends at the beginning of a page that no call may touch. */
uint8_t *input(size_t len);
uint8_t *output(size_t room);

/* Ends the program, and says where and after how many calls. */
_Noreturn void fail(const char *what, const char *file, int line);

#define CHECK(holds) \
    do { \
        if (!(holds)) fail(#holds, __FILE__, __LINE__); \
    } while (0)

/* Makes a call with this code, or FELTER_OUT_OF_MEMORY if a request of it for memory was refused; gives the code. */
#define CALL(wanted, call) (before_call(), after_call((call), (wanted), #call, __FILE__, __LINE__))
void before_call(void);
int32_t after_call(int32_t code, int32_t wanted, const char *call, const char *file, int line);

/* What a number has before a call that must not write it. */
#define UNTOUCHED 0x5a5a5a5a

/* A number for what is made next, apart from those that the header draws. */
uint64_t some_number(void);
/* Asks a handle for its sizes. */
void look_at_sizes(felter_handle *handle, uint32_t capacity);

/* Memory for a structure. Each part has numbers of its own. */
enum { RING_MEMORY = 0, BOARD_MEMORY = 2, COUNTER_MEMORY = 4, MEMORIES = 6 };

struct lent {
    uint8_t *at, *before; /* the memory, and a copy of it */
    size_t length, needed;
    int32_t code;         /* what a call returns with this memory */
    bool is_mapped;
};
/* Memory that a call may refuse. It has this many bytes or more. */
struct lent lend_memory(int which, size_t needed);
/* Checks the memory after a call. Memory that was mapped is unmapped, or the library gets it. */
void check_memory(const struct lent *lent, int32_t code);

/* Each asks a conductor about its counters, and compares the result with the model. `drawn` is how many correlation ids
 * were drawn. */
void look_at_conducted(felter_conductor *conductor, const struct model_counters *counters);
void look_at_conducted_texts(felter_conductor *conductor, const struct model_counters *counters);
void find_conducted(felter_conductor *conductor, const struct model_counters *counters, uint64_t drawn);

/* A step of each part, and its end, in which all handles are freed. */
void ring_step(void);
void ring_end(void);
void board_step(void);
void board_end(void);
void counter_step(void);
void counter_end(void);
void adder_step(void);
void adder_end(void);
void conductor_step(void);
void conductor_end(void);

#endif
