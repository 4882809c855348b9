/* Rings, boards and counters in memory of the caller, and the messages of such a ring after its process died.
 *
 * The proved archive requests all its memory by three functions of the kit, in liblibc_c.a, which call malloc, realloc
 * and free. c/build renames these three calls to the functions rattle_placed_* below. So each request of the archive
 * comes to this file. Nearly all requests go on to malloc. While a call whose name ends in _new_in_numbered makes a
 * structure, two requests of its thread are given blocks in the caller's memory: the words and the bodies of a ring,
 * the words of a board, or the value records and the metadata of counters. The archive does not see a difference, since
 * no contract says at which address a block is.
 *
 * This file is compiled into an object of its own, beside the proved archive. It is tested and not proved. */
#ifndef _DEFAULT_SOURCE
#define _DEFAULT_SOURCE 1
#endif
#include "felter.h"

#include <pthread.h>
#include <stdio.h>
#include <stdlib.h>
#include <string.h>
#include <sys/mman.h>
#include <unistd.h>

#undef felter_ring_memory
#undef felter_board_memory
#undef felter_counters_memory
#undef felter_many_to_one_new_in_numbered
#undef felter_one_to_one_new_in_numbered
#undef felter_board_new_in_numbered
#undef felter_counters_new_in_numbered
#undef felter_unmap_at_end
#undef felter_recover
#undef felter_finding
#undef felter_recover_words

#define HIDDEN __attribute__((visibility("hidden")))

/* Blocks that are in memory of callers ----------------------------------------------------------------------------- */

/* The memory of one structure. */
struct region {
    unsigned char *memory;
    size_t needed;     /* how many bytes the structure needs */
    int blocks;        /* how many of its blocks are not freed yet */
    size_t to_unmap;   /* how many bytes are unmapped after the last block was freed, or 0 */
};

/* A block that is in such memory. */
struct place {
    unsigned char *at;
    size_t size;
    struct region *region;
    struct place *next; /* in its list */
};

/* Blocks begin at multiples of this number of bytes. So a pointer that is no such multiple is not looked up. */
#define ALIGNMENT 64
#define LISTS 256

static struct place *lists[LISTS];
static size_t places; /* how many there are in all lists */
static pthread_mutex_t lock = PTHREAD_MUTEX_INITIALIZER;

/* Returns the list that has the place of a block, if there is such a place. */
static struct place **list_of(const void *at) {
    return &lists[(uintptr_t)at / ALIGNMENT % LISTS];
}

/* Returns the link to the place of a block, or NULL. The caller has the lock. */
static struct place **find(const void *at) {
    struct place **link = list_of(at);
    while (*link && (*link)->at != at) link = &(*link)->next;
    return *link ? link : NULL;
}

static int may_be_placed(const void *at) {
    return at && (uintptr_t)at % ALIGNMENT == 0 && __atomic_load_n(&places, __ATOMIC_ACQUIRE) != 0;
}

static void put_in(struct place *place) {
    struct place **list = list_of(place->at);
    pthread_mutex_lock(&lock);
    place->next = *list;
    *list = place;
    place->region->blocks++;
    __atomic_add_fetch(&places, 1, __ATOMIC_RELEASE);
    pthread_mutex_unlock(&lock);
}

/* Returns the size of a block in memory of a caller, or 0 if the block is not there. */
static size_t placed_size(const void *at) {
    size_t size = 0;
    if (!may_be_placed(at)) return 0;
    pthread_mutex_lock(&lock);
    struct place **link = find(at);
    if (link) size = (*link)->size;
    pthread_mutex_unlock(&lock);
    return size;
}

/* Forgets a block in memory of a caller. Returns 0 if the block is not there. */
static int take_out(const void *at) {
    struct place *place = NULL;
    int is_last = 0;
    if (!may_be_placed(at)) return 0;
    pthread_mutex_lock(&lock);
    struct place **link = find(at);
    if (link) {
        place = *link;
        *link = place->next;
        is_last = --place->region->blocks == 0;
        __atomic_sub_fetch(&places, 1, __ATOMIC_RELEASE);
    }
    pthread_mutex_unlock(&lock);
    if (!place) return 0;
    if (is_last) {
        if (place->region->to_unmap) munmap(place->region->memory, place->region->to_unmap);
        free(place->region);
    }
    free(place);
    return 1;
}

/* Requests of the archive ------------------------------------------------------------------------------------------ */

/* A request that gets a block in the caller's memory. */
struct block {
    int turn;            /* how many requests the call makes before this one */
    size_t size;
    struct place *place; /* not yet in a list; NULL after the request was made */
};

#define BLOCKS 2

/* What a call of this thread places, or NULL. */
struct plan {
    int turn; /* how many requests the call has made */
    struct block blocks[BLOCKS];
};
static __thread struct plan *placing;

/* Returns the place of this request, or NULL. */
static void *placed_now(size_t size) {
    int turn = placing->turn++;
    for (int k = 0; k < BLOCKS; k++) {
        struct block *block = &placing->blocks[k];
        struct place *place = block->place;
        if (!place || block->turn != turn || block->size != size) continue;
        block->place = NULL;
        put_in(place);
        return place->at;
    }
    return NULL;
}

HIDDEN void *rattle_placed_malloc(size_t size);
HIDDEN void *rattle_placed_malloc(size_t size) {
    void *at = placing ? placed_now(size) : NULL;
    return at ? at : malloc(size);
}

HIDDEN void rattle_placed_free(void *at);
HIDDEN void rattle_placed_free(void *at) {
    if (!take_out(at)) free(at);
}

HIDDEN void *rattle_placed_realloc(void *from, size_t size);
HIDDEN void *rattle_placed_realloc(void *from, size_t size) {
    size_t before = placed_size(from);
    if (!before) return realloc(from, size);
    void *to = malloc(size);
    if (!to) return NULL;
    memcpy(to, from, before < size ? before : size);
    take_out(from);
    return to;
}

/* The image -------------------------------------------------------------------------------------------------------- */

/* docs/FORMATS.md describes the image. These are the words of its header, which has 128 bytes. */
enum { MAGIC, VERSION, KIND, CAPACITY, WORDS_AT, WORDS, BODIES_AT, BODIES, HEADER_WORDS = 16 };
enum kind { ONE_TO_ONE = 1, MANY_TO_ONE = 2, BOARD = 3, COUNTERS = 4 };

#define HEADER_LENGTH ((size_t)8 * HEADER_WORDS)
#define RING_TRAILER 96
#define BOARD_TRAILER 16
#define VALUE_WORDS 3
#define METADATA_WORDS 64

typedef uint64_t __attribute__((__may_alias__)) word;

/* What is made. */
struct wanted {
    enum kind kind;
    uint64_t number;
    uint32_t capacity; /* of counters, how many */
    uint32_t reuse_ms;
    felter_producer *producer;
    felter_consumer *consumer;
    felter_transmitter *transmitter;
    felter_counters *counters;
};

/* The turns of the requests that get blocks. They are the same for every capacity. c/tests/placed.c tests them. */
static const int TURNS[][BLOCKS] = {
    [ONE_TO_ONE] = {4, 5}, [MANY_TO_ONE] = {4, 5}, [BOARD] = {1, -1}, [COUNTERS] = {1, 0},
};

static size_t aligned(size_t bytes) {
    return (bytes + ALIGNMENT - 1) / ALIGNMENT * ALIGNMENT;
}

/* Writes the header of an image without its magic. Returns how many bytes the image has. */
static size_t lay_out(enum kind kind, uint32_t capacity, uint64_t header[HEADER_WORDS]) {
    size_t words = kind == COUNTERS ? (size_t)VALUE_WORDS * capacity
        : capacity / 8 + (kind == BOARD ? BOARD_TRAILER : RING_TRAILER);
    size_t bodies = kind == COUNTERS ? (size_t)METADATA_WORDS * capacity : kind == BOARD ? 0 : capacity / 8;
    size_t end = HEADER_LENGTH + aligned(8 * words);
    memset(header, 0, HEADER_LENGTH);
    header[VERSION] = 2;
    header[KIND] = kind;
    header[CAPACITY] = capacity;
    header[WORDS_AT] = HEADER_LENGTH;
    header[WORDS] = words;
    header[BODIES_AT] = bodies ? end : 0;
    header[BODIES] = bodies;
    return end + 8 * bodies;
}

static int32_t test_capacity(uint32_t capacity, uint32_t least) {
    int is_good = capacity >= least && capacity <= (uint32_t)1 << 24 && (capacity & (capacity - 1)) == 0;
    return is_good ? FELTER_OK : FELTER_BAD_CAPACITY;
}

static int32_t test_count(uint32_t count) {
    return count >= 1 && count <= 4096 ? FELTER_OK : FELTER_BAD_COUNT;
}

static int32_t test_size(enum kind kind, uint32_t capacity) {
    return kind == COUNTERS ? test_count(capacity) : test_capacity(capacity, kind == BOARD ? 256 : 128);
}

/* Making ----------------------------------------------------------------------------------------------------------- */

static int32_t make(const struct wanted *it) {
    switch (it->kind) {
    case ONE_TO_ONE: return felter_one_to_one_new_numbered(it->number, it->capacity, it->producer, it->consumer);
    case MANY_TO_ONE: return felter_many_to_one_new_numbered(it->number, it->capacity, it->producer, it->consumer);
    case BOARD: return felter_board_new_numbered(it->number, it->capacity, it->transmitter);
    default: return felter_counters_new_numbered(it->number, it->capacity, it->reuse_ms, it->counters);
    }
}

/* Returns the code of the first refusal that needs no memory, and FELTER_OK if there is none. */
static int32_t test(const struct wanted *it, const void *memory, size_t length, size_t needed) {
    int32_t code = test_size(it->kind, it->capacity);
    if ((it->producer && it->producer->handle.at) || (it->consumer && it->consumer->handle.at) ||
        (it->transmitter && it->transmitter->handle.at) || (it->counters && it->counters->handle.at))
        return FELTER_HANDLE_IN_USE;
    if (code != FELTER_OK) return code;
    /* (the words are the first block) */
    if ((uintptr_t)memory % ALIGNMENT || length < needed || placed_size((const unsigned char *)memory + HEADER_LENGTH))
        return FELTER_BAD_MEMORY;
    return FELTER_OK;
}

/* Frees what a plan has left. */
static void forget(struct plan *plan) {
    for (int k = 0; k < BLOCKS; k++) free(plan->blocks[k].place);
}

/* Plans at which places the blocks of an image are. Returns 0 if there is no memory for that. */
static int plan_blocks(struct plan *plan, enum kind kind, const uint64_t *header, struct region *region) {
    const uint64_t at[BLOCKS] = {header[WORDS_AT], header[BODIES_AT]};
    const uint64_t words[BLOCKS] = {header[WORDS], header[BODIES]};
    int is_planned = 1;
    memset(plan, 0, sizeof *plan);
    for (int k = 0; k < BLOCKS && words[k]; k++) {
        struct place *place = malloc(sizeof *place);
        if (place) *place = (struct place){region->memory + at[k], 8 * words[k], region, NULL};
        else is_planned = 0;
        plan->blocks[k] = (struct block){TURNS[kind][k], 8 * words[k], place};
    }
    return is_planned;
}

/* Makes the structure with its blocks in the region. Every block is in the region if the call returns FELTER_OK. */
static int32_t make_placed(const struct wanted *it, const uint64_t *header, struct region *region) {
    struct plan plan;
    int32_t code = FELTER_OUT_OF_MEMORY;
    /* (one block more, so that the region stays while the call makes and frees blocks) */
    region->blocks = 1;
    if (plan_blocks(&plan, it->kind, header, region)) {
        placing = &plan;
        code = make(it);
        placing = NULL;
    }
    forget(&plan);
    if (code == FELTER_OK && region->blocks != 1 + (header[BODIES] ? 2 : 1)) {
        fprintf(stderr, "felter: the archive requests other blocks than c/felter_memory.c knows\n");
        abort();
    }
    pthread_mutex_lock(&lock);
    region->blocks--;
    pthread_mutex_unlock(&lock);
    return code;
}

/* Makes a structure in memory of the caller. After a refusal the memory has the bytes that it had before. */
static int32_t make_in(const struct wanted *it, void *memory, size_t length) {
    uint64_t header[HEADER_WORDS];
    size_t needed = lay_out(it->kind, it->capacity, header);
    int32_t code = test(it, memory, length, needed);
    if (code != FELTER_OK) return code;
    struct region *region = calloc(1, sizeof *region);
    void *before = malloc(needed);
    if (region && before) {
        word *at = memory;
        region->memory = memory;
        region->needed = needed;
        memcpy(before, memory, needed);
        /* The memory is no image as long as it has no magic. */
        __atomic_store_n(&at[MAGIC], 0, __ATOMIC_SEQ_CST);
        code = make_placed(it, header, region);
        if (code == FELTER_OK) {
            memcpy(at + 1, header + 1, HEADER_LENGTH - 8);
            memcpy(header, "FELTERIM", 8);
            __atomic_store_n(&at[MAGIC], header[MAGIC], __ATOMIC_SEQ_CST);
            region = NULL;
        } else {
            memcpy(memory, before, needed);
        }
    } else {
        code = FELTER_OUT_OF_MEMORY;
    }
    free(region);
    free(before);
    return code;
}

/* The calls of the header ------------------------------------------------------------------------------------------ */

static int32_t needs(enum kind kind, uint32_t capacity, size_t *length) {
    uint64_t header[HEADER_WORDS];
    int32_t code = test_size(kind, capacity);
    if (!length) return FELTER_NULL_POINTER;
    if (code == FELTER_OK) *length = lay_out(kind, capacity, header);
    return code;
}

int32_t felter_ring_memory(uint32_t capacity, size_t *length) {
    return needs(MANY_TO_ONE, capacity, length);
}

int32_t felter_board_memory(uint32_t capacity, size_t *length) {
    return needs(BOARD, capacity, length);
}

int32_t felter_counters_memory(uint32_t count, size_t *length) {
    return needs(COUNTERS, count, length);
}

int32_t felter_many_to_one_new_in_numbered(uint64_t number, void *memory, size_t length, uint32_t capacity,
                                           felter_producer *producer, felter_consumer *consumer) {
    struct wanted it = {MANY_TO_ONE, number, capacity, 0, producer, consumer, NULL, NULL};
    if (!memory) return FELTER_NULL_POINTER;
    return producer && consumer ? make_in(&it, memory, length) : FELTER_NO_HANDLE;
}

int32_t felter_one_to_one_new_in_numbered(uint64_t number, void *memory, size_t length, uint32_t capacity,
                                          felter_producer *producer, felter_consumer *consumer) {
    struct wanted it = {ONE_TO_ONE, number, capacity, 0, producer, consumer, NULL, NULL};
    if (!memory) return FELTER_NULL_POINTER;
    return producer && consumer ? make_in(&it, memory, length) : FELTER_NO_HANDLE;
}

int32_t felter_board_new_in_numbered(uint64_t number, void *memory, size_t length, uint32_t capacity,
                                     felter_transmitter *transmitter) {
    struct wanted it = {BOARD, number, capacity, 0, NULL, NULL, transmitter, NULL};
    if (!memory) return FELTER_NULL_POINTER;
    return transmitter ? make_in(&it, memory, length) : FELTER_NO_HANDLE;
}

int32_t felter_counters_new_in_numbered(uint64_t number, void *memory, size_t length, uint32_t count,
                                        uint32_t reuse_ms, felter_counters *counters) {
    struct wanted it = {COUNTERS, number, count, reuse_ms, NULL, NULL, NULL, counters};
    if (!memory) return FELTER_NULL_POINTER;
    return counters ? make_in(&it, memory, length) : FELTER_NO_HANDLE;
}

int32_t felter_unmap_at_end(void *memory, size_t length) {
    int32_t code = FELTER_BAD_MEMORY;
    if (!memory) return FELTER_NULL_POINTER;
    /* (munmap would refuse other memory when the last handle is freed, and nothing could report that) */
    if ((uintptr_t)memory % (uintptr_t)sysconf(_SC_PAGESIZE)) return FELTER_BAD_MEMORY;
    pthread_mutex_lock(&lock);
    struct place **link = find((unsigned char *)memory + HEADER_LENGTH);
    struct region *region = link ? (*link)->region : NULL;
    if (region && region->memory == memory && length >= region->needed) {
        region->to_unmap = length;
        code = FELTER_OK;
    }
    pthread_mutex_unlock(&lock);
    return code;
}

/* After the process died ------------------------------------------------------------------------------------------- */

/* The words and the slots of a ring. */
struct remains {
    const uint64_t *words, *slots;
    size_t word_count, slot_count;
};

/* Finds the words and the slots of a ring in an image. */
static int32_t find_remains(const void *image, size_t length, struct remains *ring) {
    uint64_t header[HEADER_WORDS], wanted[HEADER_WORDS];
    if ((uintptr_t)image % 8) return FELTER_BAD_MEMORY;
    if (length < HEADER_LENGTH) return FELTER_NO_IMAGE;
    memcpy(header, image, HEADER_LENGTH);
    uint64_t kind = header[KIND], capacity = header[CAPACITY];
    if ((kind != ONE_TO_ONE && kind != MANY_TO_ONE) || capacity != (uint32_t)capacity ||
        test_size((enum kind)kind, (uint32_t)capacity) != FELTER_OK)
        return FELTER_NO_IMAGE;
    size_t needed = lay_out((enum kind)kind, (uint32_t)capacity, wanted);
    memcpy(wanted, "FELTERIM", 8);
    /* (the rest of the header has nothing) */
    if (memcmp(header, wanted, 8 * (BODIES + 1)) || length < needed) return FELTER_NO_IMAGE;
    const unsigned char *at = image;
    ring->words = (const uint64_t *)(const void *)(at + header[WORDS_AT]);
    ring->slots = (const uint64_t *)(const void *)(at + header[BODIES_AT]);
    ring->word_count = header[WORDS];
    ring->slot_count = header[BODIES];
    return FELTER_OK;
}

int32_t felter_recover(const void *image, size_t length, uint64_t *open_claims, uint32_t *count, size_t *used,
                       void *buffer, size_t room) {
    struct remains ring;
    uint64_t place = 0;
    int64_t found = 0;
    if ((!image && length) || !open_claims || !count || !used || (!buffer && room)) return FELTER_NULL_POINTER;
    int32_t code = find_remains(image, length, &ring);
    if (code != FELTER_OK) return code;
    return felter_recover_words(ring.words, ring.word_count, ring.slots, ring.slot_count, &place, &found, open_claims,
                                count, used, buffer, room);
}

/* The longest text of a finding has fewer bytes than this. */
#define TEXT 128

/* Writes a finding in words. Returns how many bytes the text has. */
static size_t write_finding(char text[TEXT], int32_t code, uint64_t place, int64_t found) {
    unsigned long long first = place, second = (uint64_t)found;
    long long value = found;
    const char *what = code == FELTER_BAD_HEADER_LENGTH ? "length" : "type id";
    int written = 0;
    switch (code) {
    case FELTER_OK: break;
    case FELTER_UNALIGNED_POSITION:
    case FELTER_TAIL_BEFORE_HEAD:
    case FELTER_TAIL_TOO_FAR:
        written = snprintf(text, TEXT, "%s: head %llu, tail %llu", felter_text(code), first, second);
        break;
    case FELTER_BAD_HEADER_LENGTH:
    case FELTER_BAD_HEADER_TYPE:
        written = snprintf(text, TEXT, "%s: byte %llu of the buffer, %s %lld", felter_text(code), first, what, value);
        break;
    default: written = snprintf(text, TEXT, "%s", felter_text(code));
    }
    return written > 0 ? (size_t)written : 0;
}

int32_t felter_finding(const void *image, size_t length, size_t *len, char *text, size_t room) {
    struct remains ring;
    char finding[TEXT] = "";
    uint64_t place = 0, open_claims = 0;
    int64_t found = 0;
    uint32_t count = 0;
    size_t used = 0;
    if ((!image && length) || !len || (!text && room)) return FELTER_NULL_POINTER;
    int32_t code = find_remains(image, length, &ring);
    if (code == FELTER_OK)
        code = felter_recover_words(ring.words, ring.word_count, ring.slots, ring.slot_count, &place, &found,
                                    &open_claims, &count, &used, NULL, 0);
    if (code == FELTER_SHORT_BUFFER) code = FELTER_OK;
    *len = write_finding(finding, code, place, found);
    if (room < *len + 1) return FELTER_SHORT_BUFFER;
    memcpy(text, finding, *len + 1);
    return FELTER_OK;
}
