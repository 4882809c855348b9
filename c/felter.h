/* felter: rings, boards, counters and conductors for the threads of one process. A board is a broadcast buffer.
 *
 * The library of this header is proved, except the functions of the last part, "Memory of the caller". This header is
 * not proved. Callers must keep the rules below.
 *
 * Layouts. The headers and the bodies of messages are stored separately from the words that threads share. So the
 * memory of these rings does not have the layout of Agrona's rings. Boards and the metadata of counters have Agrona's
 * layout.
 *
 * Handles. A handle owns an endpoint (a producer, a consumer, ..) together with its ring. The ring lives as long as one
 * of its handles does. Handles may be freed in any order. These are the rules for callers:
 *   1. Initialise each handle with FELTER_EMPTY, and free it by felter_free at the end. Never use two copies of a
 *      handle, since both would free the same object. Never read or write the contents of a handle. A call with an
 *      empty or freed handle returns FELTER_NO_HANDLE.
 *   2. Only one call at a time may use a handle. A handle may go to another thread if its last call is ordered before
 *      the first call of that thread. The start or the join of a thread, a lock or a seq_cst atomic can order the two
 *      calls. A message of a ring also orders the two calls, if the message was written after the last call and read
 *      before the first one. Otherwise the two calls race. Different handles may be used at the same time, even if they
 *      are of one ring.
 *   3. The handles of one call must be different handles. The buffers, numbers and handles of a call must not overlap.
 *      If a call reads a buffer, all bytes up to the length that the caller passes must be readable. If a call writes a
 *      buffer, all `room` bytes of the buffer must be writable, and `room` must be at most 2^63 - 1. No other thread
 *      may touch a buffer during the call.
 *   4. No call may come from a signal handler, or from a forked child of a process with threads. No thread may be
 *      cancelled asynchronously during a call, since the handle of that call would be empty afterwards.
 *   5. malloc, realloc and free must belong to one allocator, and must align to 16 bytes. The processor must have
 *      x86-64-v2.
 *   6. No two rings, boards, conductors or sets of counters that exist at the same time may have the same number. Calls
 *      that take no number draw a number from a single count, and so keep this rule. A program must keep the rule
 *      itself if it calls a function whose name ends in _numbered. A program that has two such counts must also keep
 *      the rule itself. For example, a library that includes this header and is loaded by dlopen can have a count of
 *      its own.
 *
 * Messages. A write copies a body into the ring, and a read copies the body out of the ring. The stores that a thread
 * made before its felter_write, felter_write_batch or felter_commit are visible to the consumer after the read that
 * returned the message. So a message may hold the address of an object. The consumer gets messages in the order of their
 * claims. felter_write makes a claim too, and felter_write_batch makes one for each message.
 *
 * Numbers. If a call takes two handles, both must be of one ring, board, conductor, set of counters or shared counter.
 * Each of these structures gets a number when it is made. A call that takes two handles compares the numbers of their
 * structures. felter_close, felter_join and the other joins return FELTER_OTHER_RING if the numbers differ. They also
 * return this code if only one of the two handles belongs to a conductor. Code in several languages can make structures
 * in one process. The library distinguishes these structures only if their numbers differ. So this header counts from 1
 * on, the Rust crate from 2^62, and the Python module from 2^63.
 *
 * Results. Each call except felter_free and felter_version returns a code of enum felter_code. FELTER_OK is 0.
 * felter_text(code) says in words what a code means. A refused call writes no message, commits no claim, aborts no
 * claim, changes no counter and empties no handle, unless its comment says otherwise. It may have loaded positions,
 * skipped padding, skipped claims that were aborted, or drawn a correlation id. FELTER_LAPPED and FELTER_OTHER_REPLY
 * are not refusals, since the receiver or the client has moved on. A call that does not return FELTER_OK leaves the
 * caller's variables unchanged, unless its comment says otherwise. No call waits. After FELTER_INSUFFICIENT_CAPACITY,
 * FELTER_CONTENDED or FELTER_NO_MESSAGE the caller may pause and try again. Compilers warn if a result is not used.
 *
 * Codes. The comment of a call lists after "Codes:" the codes other than FELTER_OK that the call can return. Every call
 * that takes a handle can also return:
 *   - FELTER_WRONG_HANDLE, if the handle is of another kind;
 *   - FELTER_NO_HANDLE, if the handle is empty, or is a NULL pointer;
 *   - FELTER_NULL_POINTER, if another pointer is NULL. A buffer may be NULL if its length is 0.
 * The codes for NULL come from felter_inline.h, which this header includes. A program that calls the library without
 * the header must test for NULL itself. The functions that are declared here as inline are in the libraries too. They
 * test for NULL there as well.
 *
 * Units. Capacities, lengths, offsets and positions are in bytes. Positions count from the ring's start and never wrap.
 * Moments are in milliseconds of a clock that the caller chooses, and are at most 2^62.
 *
 * Checked builds. Compile all files of a program with -DFELTER_CHECKED to test the program. Such a build is slower. A
 * call then writes a line to standard error and aborts the program in these cases:
 *   - A pointer is NULL.
 *   - A handle was never made, or is a copy of a handle that was freed. The call does not notice such a handle if
 *     another handle owns an object at the same address.
 *   - The call is given one handle twice.
 *   - A call on another thread is using the handle.
 *
 * To compile and link a program, use one of these:
 *   - cc program.c -Iinclude lib/libfelter.a
 *   - cc program.c $(pkg-config --cflags --libs felter)
 *   - in CMake: find_package(felter) and target_link_libraries(program felter::felter)
 *
 * C++ programs can include felter.hpp.
 */
#ifndef FELTER_H
#define FELTER_H

#include <stddef.h>
#include <stdint.h>

/* The version of this header. felter_version returns the version of the library. The two should be equal. */
#define FELTER_VERSION_MAJOR 0
#define FELTER_VERSION_MINOR 1
#define FELTER_VERSION_PATCH 0
#define FELTER_VERSION "0.1.0"
/* The version as one number, which can be compared with felter_version() and by #if. */
#define FELTER_VERSION_NUMBER (FELTER_VERSION_MAJOR * 10000 + FELTER_VERSION_MINOR * 100 + FELTER_VERSION_PATCH)

#ifdef __cplusplus
extern "C" {
#endif

/* Each comment is the text that felter_text returns. */
enum felter_code {
    FELTER_OK = 0,                    /* no error */
    /* Codes of the library. */
    FELTER_BAD_CAPACITY = 1,          /* the capacity is not a power of two from 128 (of a board 256) to 2^24 */
    FELTER_BAD_START = 2,             /* the start is not a multiple of the capacity, or is above 2^62 */
    FELTER_OUT_OF_MEMORY = 3,         /* out of memory */
    FELTER_BAD_TYPE = 4,              /* the type id is below 1 */
    FELTER_TOO_LONG = 5,              /* the message has more than an eighth of the capacity, or the command 520 */
    FELTER_POSITION_LIMIT = 6,        /* the record would end above 2^62 */
    FELTER_INSUFFICIENT_CAPACITY = 7, /* the ring is full */
    FELTER_CONTENDED = 8,             /* another producer was faster */
    FELTER_PUT_RANGE = 9,             /* the bytes are not inside the claim */
    FELTER_CLAIMS_OPEN = 10,          /* a claim of the producer is open */
    FELTER_PRODUCERS_OUT = 11,        /* a producer or a client is still in a handle */
    FELTER_NO_SHARES = 12,            /* one share is left, and is needed */
    FELTER_LAPPED = 13,               /* the transmitter overtook the receiver */
    FELTER_RECEIVERS_OUT = 14,        /* a receiver is still in a handle */
    FELTER_BAD_COUNT = 15,            /* the number of counters is 0 or above 4096 */
    FELTER_KEY_TOO_LONG = 16,         /* the key has more than 112 bytes */
    FELTER_LABEL_TOO_LONG = 17,       /* the label has more than 380 bytes */
    FELTER_LABEL_NOT_ASCII = 18,      /* the label has a byte of 128 or more */
    FELTER_NO_FREE_COUNTER = 19,      /* every counter is in use, or was freed too short a time ago */
    FELTER_BAD_ID = 20,               /* the id is not below the number of counters */
    FELTER_NOT_ALLOCATED = 21,        /* no such counter is in use */
    FELTER_BAD_OWNER = 28,            /* the owner is 0, which means none */
    /* Codes of this interface. */
    FELTER_NO_HANDLE = 100,           /* the handle is empty */
    FELTER_WRONG_HANDLE = 101,        /* the handle is of another kind */
    FELTER_HANDLE_IN_USE = 102,       /* the handle that was to be filled is not empty */
    FELTER_NO_CLAIM = 104,            /* no claim of this number is open */
    FELTER_NO_MESSAGE = 105,          /* no message is there yet */
    FELTER_SHORT_BUFFER = 106,        /* the message is longer than the buffer, and stays */
    FELTER_BAD_MOMENT = 107,          /* the moment is above 2^62 */
    FELTER_OTHER_RING = 108,          /* the two handles are of two rings, boards, conductors, sets of counters or
                                         shared counters */
    FELTER_OTHER_REPLY = 109,         /* the message is the reply to another command, or no reply */
    FELTER_IN_USE = 110,              /* another handle holds what was to be closed */
    FELTER_NULL_POINTER = 111,        /* a pointer is NULL */
    FELTER_BAD_MEMORY = 112,          /* the memory is too short, does not begin at a multiple of 64 (to recover: of 8),
                                         or is in use */
    FELTER_NO_IMAGE = 113,            /* the memory is not the image of a ring */
    FELTER_UNALIGNED_POSITION = 114,  /* the head or the tail is not a multiple of 8 */
    FELTER_TAIL_BEFORE_HEAD = 115,    /* the tail is before the head */
    FELTER_TAIL_TOO_FAR = 116,        /* the tail is more than the capacity after the head */
    FELTER_BAD_HEADER_LENGTH = 117,   /* a header has a length that no record has there */
    FELTER_BAD_HEADER_TYPE = 118      /* a header has a type id that no record has */
};

/* Returns what a code means, in words. */
static inline const char *felter_text(int32_t code);

/* The contents of a handle, which callers never use. */
typedef struct felter_handle { void *at; } felter_handle;

typedef struct felter_producer { felter_handle handle; } felter_producer;
typedef struct felter_consumer { felter_handle handle; } felter_consumer;
typedef struct felter_transmitter { felter_handle handle; } felter_transmitter;
typedef struct felter_receiver { felter_handle handle; } felter_receiver;
typedef struct felter_raw_receiver { felter_handle handle; } felter_raw_receiver;
typedef struct felter_counters { felter_handle handle; } felter_counters;
typedef struct felter_reader { felter_handle handle; } felter_reader;
typedef struct felter_adder { felter_handle handle; } felter_adder;
typedef struct felter_conductor { felter_handle handle; } felter_conductor;
typedef struct felter_client { felter_handle handle; } felter_client;

/* The initial value of a handle of any kind. */
#define FELTER_EMPTY {{0}}

/* Frees what a handle owns, and empties the handle: felter_free(&producer.handle). An empty handle stays empty. The
 * open claims of a producer are aborted, so that the consumer skips them. A ring, a board or a conductor can still be
 * ended after some of its handles were freed. But the shares of a producer (see felter_many_to_one_new) are lost if the
 * producer is freed without felter_join. After 65,535 producers were split off and freed in this way, felter_split
 * returns FELTER_NO_SHARES. After the consumer of a ring was freed, writes succeed until the ring is full. Messages
 * that were not read are lost. */
void felter_free(felter_handle *handle);

/* Returns the version of the library that the program runs with: 10,000 times the major number, plus 100 times the
 * minor number, plus the patch number. The result is not a code. */
int32_t felter_version(void);

/* Writes the capacity of the ring or board of a handle, and the length of its longest message. This length is an eighth
 * of the capacity. The handle is a producer, a consumer, a transmitter, or a receiver of either kind:
 * felter_capacity(&producer.handle, ..). */
int32_t felter_capacity(felter_handle *handle, uint32_t *capacity, uint32_t *longest);

/* Each call that makes a structure has two forms. The form whose name ends in _numbered is a function of the library,
 * and takes a number. The form without that ending is inline, and draws the next number of a count that all threads
 * share. The numbers are 1, 2, 3 and so on. No two rings, boards, sets of counters or conductors that exist at the same
 * time may have the same number. A program must ensure this itself if code in several languages makes structures in its
 * process. */

/* Rings ---------------------------------------------------------------------------------------------------------- */

/* Makes a ring of `capacity` bytes, with its first producer and its consumer. The capacity must be a power of two from
 * 128 to 2^24. A ring has 65,536 shares, and each producer holds at least one of them. The first producer holds all
 * shares. Positions begin at 0. Codes: FELTER_HANDLE_IN_USE if a handle is not empty, FELTER_BAD_CAPACITY,
 * FELTER_OUT_OF_MEMORY. */
int32_t felter_many_to_one_new_numbered(uint64_t number, uint32_t capacity, felter_producer *producer,
                                        felter_consumer *consumer);
static inline int32_t felter_many_to_one_new(uint32_t capacity, felter_producer *producer, felter_consumer *consumer);
/* Makes a ring whose positions begin at `start`. Otherwise the call is the same as felter_many_to_one_new. Codes: also
 * FELTER_BAD_START. */
int32_t felter_many_to_one_new_at_numbered(uint64_t number, uint32_t capacity, uint64_t start,
                                           felter_producer *producer, felter_consumer *consumer);
static inline int32_t felter_many_to_one_new_at(uint32_t capacity, uint64_t start, felter_producer *producer,
                                                felter_consumer *consumer);
/* Makes a one-to-one ring, whose only producer cannot be split. Otherwise the call is the same as
 * felter_many_to_one_new. */
int32_t felter_one_to_one_new_numbered(uint64_t number, uint32_t capacity, felter_producer *producer,
                                       felter_consumer *consumer);
static inline int32_t felter_one_to_one_new(uint32_t capacity, felter_producer *producer, felter_consumer *consumer);
/* Makes a one-to-one ring whose positions begin at `start`. Otherwise the call is the same as felter_one_to_one_new.
 * Codes: also FELTER_BAD_START. */
int32_t felter_one_to_one_new_at_numbered(uint64_t number, uint32_t capacity, uint64_t start,
                                          felter_producer *producer, felter_consumer *consumer);
static inline int32_t felter_one_to_one_new_at(uint32_t capacity, uint64_t start, felter_producer *producer,
                                               felter_consumer *consumer);

/* Tries once to write a message. The type id must be at least 1, and `len` must be at most an eighth of the capacity.
 * Codes: FELTER_BAD_TYPE, FELTER_TOO_LONG, FELTER_POSITION_LIMIT, FELTER_INSUFFICIENT_CAPACITY, and FELTER_CONTENDED
 * for a many-to-one ring. */
int32_t felter_write(felter_producer *producer, int32_t type_id, const void *body, size_t len);

/* Tries once to claim room for a message of `len` bytes. Each byte is 0 until felter_put stores it. Writes the number
 * of the claim, which is the claim's position in the ring. No other claim of the ring ever has this number.
 *
 * Any number of claims may be open at once. They may be settled, which means committed or aborted, in any order. The
 * time to settle a claim does not grow with the number of open claims. The consumer does not go past an open claim, so
 * each claim must be settled.
 *
 * Codes: those of felter_write. If there is no memory to keep one more claim, the call returns FELTER_OUT_OF_MEMORY,
 * and does not try to make the claim. */
int32_t felter_claim(felter_producer *producer, int32_t type_id, size_t len, uint64_t *claim);
/* Puts bytes into an open claim of the producer, from the byte at `offset` on. Codes: FELTER_NO_CLAIM,
 * FELTER_PUT_RANGE. */
int32_t felter_put(felter_producer *producer, uint64_t claim, size_t offset, const void *bytes, size_t len);
/* Commits an open claim of the producer. The consumer is then shown the message. Codes: FELTER_NO_CLAIM. */
int32_t felter_commit(felter_producer *producer, uint64_t claim);
/* Aborts an open claim of the producer. The consumer then skips the claim. Codes: FELTER_NO_CLAIM. */
int32_t felter_abort(felter_producer *producer, uint64_t claim);

/* Makes `other` another producer of a many-to-one ring. `other` gets one share of `producer`. Open claims stay with
 * `producer`. Codes: FELTER_NO_SHARES, FELTER_OUT_OF_MEMORY, FELTER_HANDLE_IN_USE, and FELTER_WRONG_HANDLE for a
 * one-to-one ring. */
int32_t felter_split(felter_producer *producer, felter_producer *other);
/* Joins `other` to `producer`, which is a producer of the same many-to-one ring. The shares and the open claims of
 * `other` go to `producer`, and the claims keep their numbers. The handle `other` is empty afterwards. Codes, in this
 * order: FELTER_WRONG_HANDLE for a one-to-one ring, FELTER_OTHER_RING, and FELTER_OUT_OF_MEMORY if there is no memory
 * to keep the open claims. */
int32_t felter_join(felter_producer *producer, felter_producer *other);

/* Loads the head of the ring, and then its tail. */
int32_t felter_positions(felter_producer *producer, uint64_t *head, uint64_t *tail);
/* Draws the ring's next correlation id. */
int32_t felter_next_id(felter_producer *producer, uint64_t *id);
/* Loads the heartbeat that the consumer stored last. The heartbeat is 0 before the consumer stores one. */
int32_t felter_heartbeat(felter_producer *producer, uint64_t *value);
/* Stores a heartbeat, which may be any number. */
int32_t felter_set_heartbeat(felter_consumer *consumer, uint64_t value);
/* Writes how many of the ring's 65,536 shares the producer holds. */
int32_t felter_shares(felter_producer *producer, uint32_t *shares);

/* Reads the next message into a buffer, and removes the message from the ring. Codes: FELTER_NO_MESSAGE, and
 * FELTER_SHORT_BUFFER if the message is longer than the buffer. After FELTER_SHORT_BUFFER, *len is the length of the
 * message, and *type_id is its type id. No byte of the message is copied, and the message stays in the ring. A buffer
 * of an eighth of the capacity is always long enough. */
int32_t felter_read(felter_consumer *consumer, int32_t *type_id, size_t *len, void *buffer, size_t room);

/* Copies the next message into a buffer as felter_read does, with the same codes, but leaves the message in the ring.
 * The next call finds the message again. */
int32_t felter_peek(felter_consumer *consumer, int32_t *type_id, size_t *len, void *buffer, size_t room);
/* Removes the next message, which felter_peek showed, from the ring. The call copies no byte of the message, so its
 * time does not grow with the length of the message. Codes: FELTER_NO_MESSAGE.
 *
 * The two calls together are a controlled read. Peek, look at the message, and then do what one of Agrona's actions
 * does:
 *   - ABORT: stop. The message stays.
 *   - BREAK: take the message, and stop.
 *   - COMMIT, CONTINUE: take the message, and go on.
 * The head moves at each felter_take, so the producers get the room of each message that was taken. */
int32_t felter_take(felter_consumer *consumer);

/* A felter_record comes before the bytes of each message in a batch. If the buffer is aligned to 8 bytes, the
 * felter_record may be read in place. Otherwise copy it by memcpy. */
typedef struct felter_record {
    uint64_t len;    /* how many bytes follow */
    int64_t type_id;
} felter_record;

/* The distance in a batch from the beginning of a message to the beginning of the next one. `len` is the length of the
 * first message. */
#ifdef __cplusplus
#define FELTER_SPAN(len) (sizeof(felter_record) + (static_cast<size_t>(len) + 7) / 8 * 8)
#else
#define FELTER_SPAN(len) (sizeof(felter_record) + ((size_t)(len) + 7) / 8 * 8)
#endif

/* Reads up to `limit` messages into a buffer, one after another. Each message is a felter_record followed by its bytes.
 * The first message begins at the front of the buffer. If a message has the length len, the next message begins
 * FELTER_SPAN(len) bytes after the beginning of this message. The call writes the number of messages, and how many
 * bytes they take. The call stops when the buffer has no room for the next message, which stays in the ring. No byte of
 * this message is copied. The call can return fewer messages than are in the ring. After the call returns, producers
 * can reuse the room of the messages that were read.
 *
 * Codes: FELTER_NO_MESSAGE if no message is there yet or the limit is 0, and FELTER_SHORT_BUFFER if the buffer has no
 * room for the first message. After FELTER_SHORT_BUFFER, felter_read reports the length of that message. A buffer of
 * FELTER_SPAN(capacity / 8) bytes is always long enough for one message.
 */
int32_t felter_read_batch(felter_consumer *consumer, uint32_t limit, uint32_t *count, size_t *used, void *buffer,
                          size_t room);

/* What a consumer finds next in its ring. */
enum felter_found {
    FELTER_FOUND_MESSAGE = 0, /* a message, which felter_read takes */
    FELTER_FOUND_NONE = 1,    /* nothing is claimed after the head */
    FELTER_FOUND_CLAIM = 2,   /* a claim that is not yet committed or aborted, since its producer is slow or lost */
    FELTER_FOUND_CHANGE = 3   /* something changed meanwhile, so call again */
};

/* Writes what the consumer finds next (enum felter_found), and the position of the head. If a claim is next, the head
 * is the position of that claim. The call takes a producer and the consumer of one ring. The call loads the positions,
 * reads into a buffer of 0 bytes, and loads the positions again. If a message is next, no byte of the message is
 * copied. The call is a function of this header, so it is not proved. */
static inline int32_t felter_standing(felter_producer *producer, felter_consumer *consumer, int32_t *found,
                                      uint64_t *head);

/* Writes the messages of a batch in their order. The buffer must have the layout that felter_read_batch writes. Only the
 * padding after the last message may be missing. Messages that are next to one another in the ring are published by one
 * store, so the consumer sees all of them at once. A batch of short messages costs less than single writes.
 *
 * The call tests all records before it writes the first message. If it refuses a record, it writes no message. Then it
 * writes messages until all are written, or a try to write the next one is refused as felter_write would refuse it.
 * `written` is set to the number of messages that were written. If the call returns FELTER_OK, all messages were
 * written. After FELTER_NO_HANDLE and FELTER_WRONG_HANDLE, `written` is unchanged. Codes, in this order:
 *   - FELTER_PUT_RANGE if a record is not completely inside the bytes, FELTER_BAD_TYPE, or FELTER_TOO_LONG. The first
 *     record that is refused decides. FELTER_PUT_RANGE also if there are 2^32 bytes or more;
 *   - FELTER_POSITION_LIMIT, FELTER_INSUFFICIENT_CAPACITY, and FELTER_CONTENDED for a many-to-one ring. The first
 *     messages of the batch may have been written. */
int32_t felter_write_batch(felter_producer *producer, const void *records, size_t bytes, uint32_t *written);

/* Closes a ring of either kind, and empties the handle of its last producer. Nothing can be written afterwards. The
 * messages in the ring can still be read. Before this call, all other producers must have been joined by felter_join,
 * or freed. Codes, in this order:
 *   - FELTER_OTHER_RING, also if the ring was closed before;
 *   - FELTER_CLAIMS_OPEN;
 *   - FELTER_PRODUCERS_OUT if another producer is still in a handle. */
int32_t felter_close(felter_consumer *consumer, felter_producer *producer);
/* Ends a ring that was closed, or whose producers were all freed, and empties the consumer's handle. Writes how many
 * committed messages were left unread. These messages are lost. Codes:
 *   - FELTER_PRODUCERS_OUT if the ring was not closed, and a producer is still in a handle;
 *   - FELTER_IN_USE if the ring was closed, and another handle of the ring still exists. This code does not occur if
 *     rule 1 was kept. */
int32_t felter_finish(felter_consumer *consumer, uint64_t *left);

/* Boards --------------------------------------------------------------------------------------------------------- */

/* A board is a broadcast buffer. Its one transmitter never waits. Each receiver gets every message, or learns that the
 * transmitter overtook it. */

/* Makes a board of `capacity` bytes and its transmitter. A board has 65,536 shares, and the transmitter begins with all
 * of them. The capacity must be a power of two from 256 to 2^24. Positions begin at 0. Codes: FELTER_BAD_CAPACITY,
 * FELTER_OUT_OF_MEMORY, FELTER_HANDLE_IN_USE. */
int32_t felter_board_new_numbered(uint64_t number, uint32_t capacity, felter_transmitter *transmitter);
static inline int32_t felter_board_new(uint32_t capacity, felter_transmitter *transmitter);
/* Makes a board whose positions begin at `start`. Otherwise the call is the same as felter_board_new. Codes: also
 * FELTER_BAD_START. */
int32_t felter_board_new_at_numbered(uint64_t number, uint32_t capacity, uint64_t start,
                                     felter_transmitter *transmitter);
static inline int32_t felter_board_new_at(uint32_t capacity, uint64_t start, felter_transmitter *transmitter);
/* Transmits a message. Codes: FELTER_BAD_TYPE, FELTER_TOO_LONG, FELTER_POSITION_LIMIT. */
int32_t felter_transmit(felter_transmitter *transmitter, int32_t type_id, const void *body, size_t len);
/* Makes a receiver, which starts with the message that was transmitted last. The receiver gets one share of the
 * transmitter. This share is lost if the receiver is freed without felter_board_join. Codes: FELTER_NO_SHARES,
 * FELTER_OUT_OF_MEMORY, FELTER_HANDLE_IN_USE. FELTER_NO_SHARES is returned, for example, after 65,535 receivers were
 * freed in this way. */
int32_t felter_subscribe(felter_transmitter *transmitter, felter_receiver *receiver);
/* Copies the next message into a buffer. Codes:
 *   - FELTER_NO_MESSAGE;
 *   - FELTER_LAPPED if the transmitter overtook the receiver. *lapped is then the number of times that the receiver was
 *     lapped. The next call goes on with the message that was transmitted last;
 *   - FELTER_SHORT_BUFFER if the room is less than an eighth of the capacity, even if the message is short. *len is
 *     then an eighth of the capacity, and no message is taken. */
int32_t felter_receive(felter_receiver *receiver, int32_t *type_id, size_t *len, uint64_t *lapped, void *buffer,
                       size_t room);
/* Writes how often the receiver was lapped. */
int32_t felter_lapped_count(felter_receiver *receiver, uint64_t *count);

/* Writes the position at which the next call looks for a message. */
int32_t felter_receiver_place(felter_receiver *receiver, uint64_t *place);
/* Writes the place at which the receiver was lapped last, and the intent that showed the lap. The intent is the
 * position up to which the transmitter had begun to write. Right after FELTER_LAPPED, felter_receiver_place minus this
 * place is the number of bytes that the receiver missed. Codes: FELTER_NO_MESSAGE if the receiver was never lapped. */
int32_t felter_receiver_lap(felter_receiver *receiver, uint64_t *place, uint64_t *intent);

/* Makes a raw receiver, which returns each record without its body. Otherwise the call is the same as
 * felter_subscribe. */
int32_t felter_subscribe_raw(felter_transmitter *transmitter, felter_raw_receiver *receiver);
/* Writes the type id of the next record and the length of its body, and moves past the record. No byte of the body is
 * copied. Codes: FELTER_NO_MESSAGE, and FELTER_LAPPED as for felter_receive. */
int32_t felter_receive_next(felter_raw_receiver *receiver, int32_t *type_id, size_t *len, uint64_t *lapped);
/* Copies the body of the record that felter_receive_next returned last to the front of a buffer. The bytes are certain
 * to be those of this record only if felter_validate then returns FELTER_OK. Codes: FELTER_NO_MESSAGE if no record was
 * returned yet, FELTER_SHORT_BUFFER if the body is longer than the room. */
int32_t felter_load_body(felter_raw_receiver *receiver, void *buffer, size_t room);
/* Tests whether the record that felter_receive_next returned last was overwritten. If the call returns FELTER_OK, each
 * copy of the body that was made before is the body that was transmitted. Codes: FELTER_LAPPED if the record may
 * be overwritten, FELTER_NO_MESSAGE if no record was returned yet. */
int32_t felter_validate(felter_raw_receiver *receiver);
/* Writes how often felter_receive_next returned FELTER_LAPPED. */
int32_t felter_raw_lapped_count(felter_raw_receiver *receiver, uint64_t *count);

/* Writes the position at which the next call looks for a record. */
int32_t felter_raw_receiver_place(felter_raw_receiver *receiver, uint64_t *place);
/* Writes the place at which the raw receiver was lapped last, and the intent that showed the lap, as
 * felter_receiver_lap does for a receiver. Codes: FELTER_NO_MESSAGE if the raw receiver was never lapped. */
int32_t felter_raw_receiver_lap(felter_raw_receiver *receiver, uint64_t *place, uint64_t *intent);

/* Takes back a receiver of this board with its share, and empties the receiver's handle. Codes: FELTER_OTHER_RING if
 * the receiver is of another board, or if felter_conductor_subscribe made it. */
int32_t felter_board_join(felter_transmitter *transmitter, felter_receiver *receiver);
/* Takes back a raw receiver of this board with its share, and empties the raw receiver's handle. Codes:
 * FELTER_OTHER_RING if the raw receiver is of another board. */
int32_t felter_board_join_raw(felter_transmitter *transmitter, felter_raw_receiver *receiver);
/* Ends a board whose receivers of both kinds were all taken back or freed, and empties the transmitter's handle. Writes
 * the tail, which is the position at which the last transmission ended. Codes:
 *   - FELTER_RECEIVERS_OUT if a receiver is still in a handle;
 *   - FELTER_IN_USE if all receivers were taken back, and another handle of the board still exists. This code does not
 *     occur if rule 1 was kept. */
int32_t felter_board_close(felter_transmitter *transmitter, uint64_t *tail);

/* Counters ------------------------------------------------------------------------------------------------------- */

/* Makes counters with the ids below `count`, which must be from 1 to 4,096. A freed id is not allocated again for
 * `reuse_ms` milliseconds. Codes: FELTER_BAD_COUNT, FELTER_OUT_OF_MEMORY, FELTER_HANDLE_IN_USE. */
int32_t felter_counters_new_numbered(uint64_t number, uint32_t count, uint32_t reuse_ms, felter_counters *counters);
static inline int32_t felter_counters_new(uint32_t count, uint32_t reuse_ms, felter_counters *counters);
/* Allocates a counter with the value 0 at the moment `now`, and writes its id. Codes: FELTER_KEY_TOO_LONG,
 * FELTER_LABEL_TOO_LONG, FELTER_LABEL_NOT_ASCII, FELTER_NO_FREE_COUNTER. */
int32_t felter_counter_allocate(felter_counters *counters, uint64_t now, int32_t type_id, const void *key,
                                size_t key_len, const void *label, size_t label_len, uint64_t registration,
                                uint32_t *id);
/* Allocates a counter with an owner. Otherwise the call is the same as felter_counter_allocate. The owner 0 means that
 * the counter has no owner. */
int32_t felter_counter_allocate_owned(felter_counters *counters, uint64_t now, int32_t type_id, const void *key,
                                      size_t key_len, const void *label, size_t label_len, uint64_t registration,
                                      uint64_t owner, uint32_t *id);
/* Frees a counter at the moment `now`. Codes: FELTER_BAD_ID, FELTER_NOT_ALLOCATED, FELTER_BAD_MOMENT. */
int32_t felter_counter_free(felter_counters *counters, uint64_t now, uint32_t id);
/* Sets the counter's value. Codes: FELTER_BAD_ID, FELTER_NOT_ALLOCATED. */
int32_t felter_counter_set(felter_counters *counters, uint32_t id, int64_t value);
/* Adds `delta` to the value, and writes the value before the addition. A sum that does not fit in 64 bits wraps. Codes:
 * FELTER_BAD_ID, FELTER_NOT_ALLOCATED. */
int32_t felter_counter_add(felter_counters *counters, uint32_t id, int64_t delta, int64_t *before);
/* Adds 1 to the value as felter_counter_add does, with the same codes. */
int32_t felter_counter_increment(felter_counters *counters, uint32_t id, int64_t *before);
/* Adds -1 to the value as felter_counter_add does, with the same codes. */
int32_t felter_counter_decrement(felter_counters *counters, uint32_t id, int64_t *before);
/* Sets the value, and writes the value that the counter had before. Codes: FELTER_BAD_ID, FELTER_NOT_ALLOCATED. */
int32_t felter_counter_get_and_set(felter_counters *counters, uint32_t id, int64_t value, int64_t *before);
/* Writes the counter's value. Codes: FELTER_BAD_ID, FELTER_NOT_ALLOCATED. */
int32_t felter_counter_value(felter_counters *counters, uint32_t id, int64_t *value);
/* Writes the counter's type id. Codes: FELTER_BAD_ID, FELTER_NOT_ALLOCATED. */
int32_t felter_counter_type_id(felter_counters *counters, uint32_t id, int32_t *type_id);
/* Writes the counter's registration id. Codes: FELTER_BAD_ID, FELTER_NOT_ALLOCATED. */
int32_t felter_counter_registration(felter_counters *counters, uint32_t id, uint64_t *registration);
/* Writes the counter's owner, which is 0 if the counter has no owner. Codes: FELTER_BAD_ID, FELTER_NOT_ALLOCATED. */
int32_t felter_counter_owner(felter_counters *counters, uint32_t id, uint64_t *owner);
/* Raises the counter's value to `value` if the old value was less. *raised is 1 if the value was raised, and otherwise
 * 0. Codes: FELTER_BAD_ID, FELTER_NOT_ALLOCATED. */
int32_t felter_counter_propose_max(felter_counters *counters, uint32_t id, int64_t value, uint32_t *raised);
/* Sets the counter's value to `value` if the old value is `expected`. *was_set is 1 if the value was set, and otherwise
 * 0. Codes: FELTER_BAD_ID, FELTER_NOT_ALLOCATED. */
int32_t felter_counter_compare_and_set(felter_counters *counters, uint32_t id, int64_t expected, int64_t value,
                                       uint32_t *was_set);
/* Writes the state of an id. The state is 0 if the id was never used, 1 if its counter is in use, and -1 if its counter
 * was freed. Codes: FELTER_BAD_ID. */
int32_t felter_counter_state(felter_counters *counters, uint32_t id, int32_t *state);
/* Writes the moment from which an id may be allocated again. This moment is 0 if the id was never used, and 2^63 - 1 if
 * its counter is in use. Codes: FELTER_BAD_ID. */
int32_t felter_counter_deadline(felter_counters *counters, uint32_t id, uint64_t *deadline);
/* Copies the label, which has at most 380 bytes, and writes its length. No 0 is put at the end of the label. Codes:
 * FELTER_BAD_ID, FELTER_NOT_ALLOCATED, and FELTER_SHORT_BUFFER if the room is less than the length. After
 * FELTER_SHORT_BUFFER the length is written too. */
int32_t felter_counter_label(felter_counters *counters, uint32_t id, size_t *len, void *buffer, size_t room);
/* Copies the key, which is filled up to 112 bytes with zeros. Codes: FELTER_BAD_ID, FELTER_NOT_ALLOCATED, and
 * FELTER_SHORT_BUFFER if the room is less than 112 bytes. */
int32_t felter_counter_key(felter_counters *counters, uint32_t id, void *buffer, size_t room);
/* Finds the lowest id in use that has this type id and registration id. Codes: FELTER_NOT_ALLOCATED if there is no such
 * id. */
int32_t felter_counter_find(felter_counters *counters, int32_t type_id, uint64_t registration, uint32_t *id);
/* Writes the number of ids, whether they are in use or not. To list the counters in use, call felter_counter_type_id
 * with each id. The call returns FELTER_NOT_ALLOCATED if the id is not in use. */
int32_t felter_counters_count(felter_counters *counters, uint32_t *count);
/* Writes the number of counters that can be allocated at the moment `now`. A freed id is counted only if `now` is at
 * least the moment that felter_counter_deadline writes for the id. */
int32_t felter_counters_available(felter_counters *counters, uint64_t now, uint32_t *available);
/* Frees each counter of an owner, and writes how many counters were freed. Codes: FELTER_BAD_OWNER,
 * FELTER_BAD_MOMENT. */
int32_t felter_counters_close_owner(felter_counters *counters, uint64_t now, uint64_t owner, uint32_t *freed);

/* Makes a reader of the counters' values, for another thread. The counters have 65,536 shares, and the reader gets one
 * of them. This share is lost if the reader is freed without felter_counters_join. Codes: FELTER_NO_SHARES,
 * FELTER_OUT_OF_MEMORY, FELTER_HANDLE_IN_USE. */
int32_t felter_counters_reader(felter_counters *counters, felter_reader *reader);
/* Loads a value. The value of an id that was never used is 0. The value of a freed id is its last value. If a reader
 * loads the value of an id twice, the second value was not written before the first one. Codes: FELTER_BAD_ID. */
int32_t felter_reader_value(felter_reader *reader, uint32_t id, int64_t *value);
/* Takes back a reader of these counters with its share, and empties the reader's handle. Codes: FELTER_OTHER_RING if
 * the reader is of other counters, or if felter_conductor_reader made it. */
int32_t felter_counters_join(felter_counters *counters, felter_reader *reader);

/* Shared counters ------------------------------------------------------------------------------------------------ */

/* A shared counter is one number, to which any thread can add. Each thread adds with an adder of its own. The value of
 * the shared counter is the sum of all amounts that were added with all of its adders. A sum that does not fit in 64
 * bits wraps. A shared counter is not one of the counters above. It has no id and no readers. Like a ring, a shared
 * counter has a number, and rule 6 at the head of this file applies to this number. */

/* Makes a shared counter with the value 0, and its first adder. This adder holds all 65,536 shares of the shared
 * counter. Codes: FELTER_HANDLE_IN_USE, FELTER_OUT_OF_MEMORY. */
int32_t felter_adder_new_numbered(uint64_t number, felter_adder *adder);
static inline int32_t felter_adder_new(felter_adder *adder);
/* Makes `other` another adder of the same shared counter, for another thread. `other` gets one share of `adder`. If
 * `other` is freed without felter_adder_join, its additions stay in the value, and its shares are lost. Codes:
 * FELTER_NO_SHARES if `adder` has one share, FELTER_OUT_OF_MEMORY, FELTER_HANDLE_IN_USE. */
int32_t felter_adder_split(felter_adder *adder, felter_adder *other);
/* Joins `other` to `adder`, which is an adder of the same shared counter. The shares of `other` go to `adder`, and the
 * handle `other` is empty afterwards. Codes: FELTER_OTHER_RING. */
int32_t felter_adder_join(felter_adder *adder, felter_adder *other);
/* Adds `delta` to the value of the shared counter, and writes the value before the addition. */
int32_t felter_adder_add(felter_adder *adder, int64_t delta, int64_t *before);
/* Loads the value. If the adder holds all 65,536 shares, no other adder exists. The value is then exactly the sum of
 * the amounts that were added with this adder and with the adders that were joined to it. */
int32_t felter_adder_value(felter_adder *adder, int64_t *value);
/* Writes how many of the 65,536 shares the adder holds. */
int32_t felter_adder_shares(felter_adder *adder, uint32_t *shares);

/* Conductors ----------------------------------------------------------------------------------------------------- */

/* A conductor owns counters. Clients on other threads send commands to the conductor through a many-to-one ring. The
 * conductor applies each command to the counters, and transmits one reply on a board. The reply has the correlation id
 * of the command. */

/* Makes a conductor. The ring for commands has `capacity` bytes, which must be a power of two from 128 to 2^24. The
 * board for replies has `replies` bytes, which must be a power of two from 256 to 2^24. The ids of the counters are
 * below `counters`, which must be from 1 to 4,096. A freed id is not allocated again for `reuse_ms` milliseconds.
 * Codes, in this order: FELTER_HANDLE_IN_USE, FELTER_BAD_CAPACITY for the ring, FELTER_BAD_CAPACITY for the board,
 * FELTER_BAD_COUNT, FELTER_OUT_OF_MEMORY. */
int32_t felter_conductor_new_numbered(uint64_t number, uint32_t capacity, uint32_t replies, uint32_t counters,
                                      uint32_t reuse_ms, felter_conductor *conductor);
static inline int32_t felter_conductor_new(uint32_t capacity, uint32_t replies, uint32_t counters, uint32_t reuse_ms,
                                           felter_conductor *conductor);
/* Makes a client, which starts with the reply that was transmitted last. The ring and the board have 65,536 shares
 * each, and the client gets one share of each. Both shares are lost if the client is freed without
 * felter_conductor_join. The conductor can finish without such a client. If the call refuses, no share is lost. Codes:
 * FELTER_HANDLE_IN_USE, FELTER_NO_SHARES for the ring or the board, FELTER_OUT_OF_MEMORY. */
int32_t felter_conductor_client(felter_conductor *conductor, felter_client *client);

/* The reasons why felter_conductor_work stops. */
enum felter_stop {
    FELTER_STOP_LIMIT = 0,       /* `limit` commands were taken */
    FELTER_STOP_BLOCK = 1,       /* the end of the ring's buffer was reached, and the next call goes on after it */
    FELTER_STOP_UNPUBLISHED = 2, /* no further command was there */
    FELTER_STOP_BOARD_END = 3    /* a reply might end above 2^62 on the board; the command stays and is not applied */
};

/* Takes up to `limit` commands. Each command is applied at the moment `now`, and the reply to it is transmitted. Writes
 * how many commands were taken (possibly 0), and why the call stopped (enum felter_stop). Codes: FELTER_BAD_MOMENT. The
 * call then takes no command. */
int32_t felter_conductor_work(felter_conductor *conductor, uint64_t now, uint32_t limit, uint64_t *messages,
                              int32_t *stopped);
/* Stores a heartbeat, which may be any number. */
int32_t felter_conductor_set_heartbeat(felter_conductor *conductor, uint64_t value);
/* Loads the heartbeat that the conductor stored last. The heartbeat is 0 before the conductor stores one. */
int32_t felter_client_heartbeat(felter_client *client, uint64_t *value);

/* These calls read the conductor's counters, on the thread that uses the conductor. Each of them does the same as the
 * call for felter_counters whose name has the same ending, with the same codes. */

/* Finds the lowest id in use that has this type id and registration id, as felter_counter_find does. */
int32_t felter_conductor_find(felter_conductor *conductor, int32_t type_id, uint64_t registration, uint32_t *id);
/* Writes the number of ids, whether they are in use or not, as felter_counters_count does. */
int32_t felter_conductor_count(felter_conductor *conductor, uint32_t *count);
/* Writes the value of a counter, as felter_counter_value does. */
int32_t felter_conductor_value(felter_conductor *conductor, uint32_t id, int64_t *value);
/* Writes the type id of a counter, as felter_counter_type_id does. */
int32_t felter_conductor_type_id(felter_conductor *conductor, uint32_t id, int32_t *type_id);
/* Writes the registration id of a counter, as felter_counter_registration does. */
int32_t felter_conductor_registration(felter_conductor *conductor, uint32_t id, uint64_t *registration);
/* Writes the owner of a counter, as felter_counter_owner does. */
int32_t felter_conductor_owner(felter_conductor *conductor, uint32_t id, uint64_t *owner);
/* Writes the state of an id, as felter_counter_state does. */
int32_t felter_conductor_state(felter_conductor *conductor, uint32_t id, int32_t *state);
/* Writes the moment from which an id may be allocated again, as felter_counter_deadline does. */
int32_t felter_conductor_deadline(felter_conductor *conductor, uint32_t id, uint64_t *deadline);
/* Copies the label of a counter, and writes its length, as felter_counter_label does. */
int32_t felter_conductor_label(felter_conductor *conductor, uint32_t id, size_t *len, void *buffer, size_t room);
/* Copies the key of a counter, as felter_counter_key does. */
int32_t felter_conductor_key(felter_conductor *conductor, uint32_t id, void *buffer, size_t room);

/* Makes a receiver of the replies, for felter_receive and felter_lapped_count. Otherwise the call is the same as
 * felter_subscribe. */
int32_t felter_conductor_subscribe(felter_conductor *conductor, felter_receiver *receiver);
/* Makes a reader of the counters' values, for felter_reader_value. Otherwise the call is the same as
 * felter_counters_reader. */
int32_t felter_conductor_reader(felter_conductor *conductor, felter_reader *reader);

/* Takes back a client of this conductor with its shares, and empties the client's handle. The client receives no
 * further replies. Codes: FELTER_OTHER_RING if the client is of another conductor. */
int32_t felter_conductor_join(felter_conductor *conductor, felter_client *client);
/* Takes back a receiver of this conductor with its share, and empties the receiver's handle. Codes: FELTER_OTHER_RING
 * if the receiver is of another conductor, or if felter_subscribe made it. */
int32_t felter_conductor_join_receiver(felter_conductor *conductor, felter_receiver *receiver);
/* Takes back a reader of this conductor with its share, and empties the reader's handle. Codes: FELTER_OTHER_RING if
 * the reader is of another conductor, or if felter_counters_reader made it. */
int32_t felter_conductor_join_reader(felter_conductor *conductor, felter_reader *reader);

/* Ends a conductor whose clients, receivers and readers were all taken back or freed, and empties its handle. Writes
 * how many commands the conductor received in all, and how many commands were still in the ring. Commands that were
 * still in the ring get no reply.
 *
 * If a client, a receiver or a reader is still in a handle, the call refuses, and can be made again later. Codes, in
 * this order:
 *   - FELTER_PRODUCERS_OUT if a client is still in a handle;
 *   - FELTER_RECEIVERS_OUT if a receiver is still in a handle;
 *   - FELTER_IN_USE otherwise. */
int32_t felter_conductor_finish(felter_conductor *conductor, uint64_t *received, uint64_t *left);

/* Tries once to send a command that allocates a counter with the value 0, and writes the correlation id that was drawn
 * for the command. The reply says whether the conductor applied or refused the command. The registration id of the
 * counter is the correlation id of the command. The command takes 20 bytes, plus the bytes of the key and the label.
 * Codes:
 *   - FELTER_TOO_LONG if the command takes more than 520 bytes, or more than an eighth of the ring's capacity. No id is
 *     drawn for a command of more than 520 bytes;
 *   - FELTER_POSITION_LIMIT, FELTER_INSUFFICIENT_CAPACITY, FELTER_CONTENDED.
 * If the call refuses a command for which an id was drawn, no other command gets that id. */
int32_t felter_send_allocate(felter_client *client, int32_t type_id, const void *key, size_t key_len,
                             const void *label, size_t label_len, uint64_t *id);
/* Tries once to send a command that allocates a counter with an owner. Otherwise the call is the same as
 * felter_send_allocate. The owner 0 means that the counter has no owner. The command takes 8 bytes more. */
int32_t felter_send_allocate_owned(felter_client *client, int32_t type_id, uint64_t owner, const void *key,
                                   size_t key_len, const void *label, size_t label_len, uint64_t *id);
/* Tries once to send a command that frees a counter, as felter_send_allocate sends one, with the same codes. */
int32_t felter_send_free(felter_client *client, uint32_t counter, uint64_t *id);
/* Tries once to send a command that sets a counter's value, as felter_send_allocate sends one, with the same codes. */
int32_t felter_send_set(felter_client *client, uint32_t counter, int64_t value, uint64_t *id);
/* Tries once to send a command that frees each counter of an owner, as felter_send_allocate sends one, with the same
 * codes. */
int32_t felter_send_close_owner(felter_client *client, uint64_t owner, uint64_t *id);

/* The kinds of replies. Each number is the type id of the reply's message. */
enum felter_reply {
    FELTER_REPLY_ALLOCATED = 101, /* a counter was allocated, and the number is its id */
    FELTER_REPLY_DONE = 102,      /* the counter was freed or set, and the number is 0 */
    FELTER_REPLY_REFUSED = 103,   /* nothing was done; the number is 22 if the command could not be read, 23 if no
                                   * command has its type id, and otherwise a code of enum felter_code */
    FELTER_REPLY_CLOSED = 104     /* the owner's counters were freed, and the number says how many were freed */
};

/* Takes the next message of the board. `correlation` is the id of the command whose reply the caller waits for. If the
 * message is this reply, the call writes the kind (enum felter_reply) and the number of the reply. Codes:
 *   - FELTER_NO_MESSAGE if no message is there yet;
 *   - FELTER_OTHER_REPLY if the message is the reply to another command, or is not a reply. The client skips this
 *     message, so poll again;
 *   - FELTER_LAPPED if the conductor overtook the client. *lapped is then the number of times that the client was
 *     lapped. The next call goes on with the reply that was transmitted last. The client does not learn the results of
 *     the commands that had no reply yet. */
int32_t felter_poll(felter_client *client, uint64_t correlation, int32_t *kind, int64_t *number, uint64_t *lapped);

/* What a ring left ----------------------------------------------------------------------------------------------- */

/* Recovers the messages of a ring whose process died, and lays them into a buffer as felter_read_batch does. `words`
 * are the `word_count` words of the ring, and `slots` are its `slot_count` slots, which have headers and bodies. If the
 * ring was in memory of the caller, felter_recover below finds both by itself.
 *
 * The messages are those that were committed, from the head on. Each message comes whole, once, and in the order of
 * the claims. What the consumer was shown, and after which it had not moved the head, comes again, before the other
 * messages. A claim that was open has no message. All this is proved for the memory of any ring, whatever step each of
 * its threads had come to.
 *
 * Writes how many claims were open, how many messages were recovered, and how many bytes of the buffer they take. A
 * buffer of twice the capacity of the ring is always long enough. Codes, in this order:
 *   - FELTER_NO_IMAGE if no ring has this many words, or if a ring of this many words has another number of slots. A
 *     ring has capacity / 8 + 96 words, and capacity / 8 slots;
 *   - FELTER_UNALIGNED_POSITION, FELTER_TAIL_BEFORE_HEAD or FELTER_TAIL_TOO_FAR. *place is then the head, and *found
 *     is the tail;
 *   - FELTER_BAD_HEADER_LENGTH or FELTER_BAD_HEADER_TYPE for the first header that no record has there, or that is
 *     inside another record. *place is then the byte of the ring's buffer at which the header is, and *found is the
 *     length or the type id in the header;
 *   - FELTER_SHORT_BUFFER if the buffer is too short for all messages. The three numbers are then written as above,
 *     so *used says how long the buffer must be. The buffer has the bytes that it had before.
 *
 * The call requests no memory, and does not write to the words and the slots. No thread and no process may write to
 * them during the call. Otherwise nothing is promised, and the call may write outside the buffer. */
int32_t felter_recover_words(const uint64_t *words, size_t word_count, const uint64_t *slots, size_t slot_count,
                             uint64_t *place, int64_t *found, uint64_t *open_claims, uint32_t *count, size_t *used,
                             void *buffer, size_t room);

/* Memory of the caller ------------------------------------------------------------------------------------------- */

/* The calls of this part make a ring, a board or counters in memory that the caller passes, for example in a file that
 * the caller has mapped. Then the words of a ring and its slots, which have the headers and the bodies of messages, the
 * words of a board, or the value records and the metadata of counters are in this memory. Everything else is requested
 * from malloc. After a process has died, the file has what the process had stored. Another process can map the file and
 * look at it, but must not write to it. No second process can make handles of the structure.
 *
 * The functions of this part are not proved. docs/FORMATS.md describes the memory. It begins with a header of 128
 * bytes, whose first 8 bytes are "FELTERIM" as soon as the structure was made.
 *
 * These are more rules for callers, after those at the head of this file:
 *   7. The memory stays at its address, and can be read and written, until each handle of the structure was freed.
 *      felter_close, felter_finish, felter_board_close and the joins free handles too.
 *   8. Only the calls of the structure write to the memory. If the memory is a file, no other process writes to the
 *      file or makes it shorter.
 *
 * If a ring is freed, or ended by felter_finish, the messages that are left stay in the memory.
 *
 * A mapped file survives the death of the process, but not a crash of the machine. Call msync to write the file to the
 * disk.
 *
 * While such a structure exists, a call that requests or frees memory may take a lock for a moment, as malloc does.
 *
 * These calls write how many bytes of memory a ring of either kind, a board and counters need. Codes:
 * FELTER_BAD_CAPACITY, and FELTER_BAD_COUNT for counters. */
int32_t felter_ring_memory(uint32_t capacity, size_t *length);
int32_t felter_board_memory(uint32_t capacity, size_t *length);
int32_t felter_counters_memory(uint32_t count, size_t *length);

/* These calls do the same as the calls without _in in their names, but in the `length` bytes of memory at `memory`,
 * which must begin at a multiple of 64 bytes. Positions begin at 0. What was in the memory before is lost, also the
 * messages of an earlier ring. After a refusal the memory has the bytes that it had before the call.
 *
 * Codes, in this order:
 *   - FELTER_NULL_POINTER if `memory` is NULL;
 *   - FELTER_NO_HANDLE if the pointer to a handle is NULL;
 *   - FELTER_HANDLE_IN_USE if a handle is not empty;
 *   - FELTER_BAD_CAPACITY, or FELTER_BAD_COUNT for counters;
 *   - FELTER_BAD_MEMORY if the memory does not begin at a multiple of 64, if it has fewer bytes than the structure
 *     needs, or if another structure that begins at the same place still uses it;
 *   - FELTER_OUT_OF_MEMORY. */
int32_t felter_many_to_one_new_in_numbered(uint64_t number, void *memory, size_t length, uint32_t capacity,
                                           felter_producer *producer, felter_consumer *consumer);
int32_t felter_one_to_one_new_in_numbered(uint64_t number, void *memory, size_t length, uint32_t capacity,
                                          felter_producer *producer, felter_consumer *consumer);
int32_t felter_board_new_in_numbered(uint64_t number, void *memory, size_t length, uint32_t capacity,
                                     felter_transmitter *transmitter);
int32_t felter_counters_new_in_numbered(uint64_t number, void *memory, size_t length, uint32_t count,
                                        uint32_t reuse_ms, felter_counters *counters);
static inline int32_t felter_many_to_one_new_in(void *memory, size_t length, uint32_t capacity,
                                                felter_producer *producer, felter_consumer *consumer);
static inline int32_t felter_one_to_one_new_in(void *memory, size_t length, uint32_t capacity,
                                               felter_producer *producer, felter_consumer *consumer);
static inline int32_t felter_board_new_in(void *memory, size_t length, uint32_t capacity,
                                          felter_transmitter *transmitter);
static inline int32_t felter_counters_new_in(void *memory, size_t length, uint32_t count, uint32_t reuse_ms,
                                             felter_counters *counters);

/* Lets the library unmap memory that the caller has mapped, since the library knows when the last handle that uses the
 * memory was freed. The library then calls munmap(memory, length). Readers of counters do not use the memory. A
 * structure must be at the beginning of the memory. Codes: FELTER_BAD_MEMORY if no structure uses the memory there, if
 * the memory does not begin at a multiple of the page size, or if it has fewer bytes than the structure needs. */
int32_t felter_unmap_at_end(void *memory, size_t length);

/* Recovers the messages of a ring in memory of the caller after its process died, and lays them into a buffer as
 * felter_read_batch does. `image` is this memory from the header on, for example a file that is mapped or was read.
 * The memory may be longer than the ring. The call finds the words and the slots of the ring by the header, and calls
 * felter_recover_words, whose comment says which messages are recovered.
 *
 * To go on, make a new ring in other memory, and write the messages to it by felter_write_batch. A ring of the same
 * capacity has room for all of them.
 *
 * Writes how many claims were open, how many messages were recovered, and how many bytes of the buffer they take. A
 * buffer of twice the capacity of the ring is always long enough, and so is a buffer of `length` bytes. Codes, in
 * this order:
 *   - FELTER_NULL_POINTER;
 *   - FELTER_BAD_MEMORY if `image` does not begin at a multiple of 8 bytes;
 *   - FELTER_NO_IMAGE if the header is not that of a ring, for example since the ring was not completely made or the
 *     image has another version, or if the memory is shorter than the ring;
 *   - FELTER_UNALIGNED_POSITION, FELTER_TAIL_BEFORE_HEAD, FELTER_TAIL_TOO_FAR, FELTER_BAD_HEADER_LENGTH or
 *     FELTER_BAD_HEADER_TYPE if the ring is damaged. felter_finding then says what was found, and at which place;
 *   - FELTER_SHORT_BUFFER if the buffer is too short for all messages. The three numbers are then written as above,
 *     so *used says how long the buffer must be. The buffer has the bytes that it had before.
 *
 * The process must have died, or have freed each handle of the ring. As long as a thread works on the ring, the
 * result is not promised, and the call may write outside the buffer. To look at such a ring, recover from a copy of
 * the memory. Then only the messages are not promised. */
int32_t felter_recover(const void *image, size_t length, uint64_t *open_claims, uint32_t *count, size_t *used,
                       void *buffer, size_t room);
/* Writes in words what felter_recover finds wrong with an image. The text ends with a 0. If the ring is damaged, the
 * text also names the place, for example "the tail is before the head: head 64, tail 8". The call also writes the
 * length of the text without the 0, which is 0 if nothing is wrong. A buffer of 128 bytes is always long enough.
 * Codes: FELTER_SHORT_BUFFER if the buffer has no room for the text and the 0. The length is then written all the
 * same, and the buffer has the bytes that it had before. */
int32_t felter_finding(const void *image, size_t length, size_t *len, char *text, size_t room);

#include "felter_inline.h"

#ifdef __cplusplus
}
#endif
#endif
