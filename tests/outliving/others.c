/* Kills processes that transmit on a broadcast buffer, and that set counters: others COUNT SEED FILE.
 *
 * The file must have the last transmission whose call returned, or the one that was running, and each counter must have
 * the last value whose call returned, or the one that was running. Then each file is changed, which must be noticed.
 * The line of the result says how many calls returned. The status is 1 if a file is wrong, or if a change is not
 * noticed. */
#define _GNU_SOURCE 1
#include "storm.h"

#include <fcntl.h>
#include <inttypes.h>
#include <signal.h>
#include <stdio.h>
#include <stdlib.h>
#include <string.h>
#include <sys/mman.h>
#include <sys/prctl.h>
#include <sys/wait.h>
#include <unistd.h>

#define COUNTERS 8
#define REUSED (COUNTERS - 1)
#define CAPACITY 4096

/* What the process has noted. The last counter is allocated and freed in turn. */
static struct noted {
    volatile uint64_t transmitted, set[COUNTERS];
    volatile uint64_t turns; /* how often the last counter was allocated or freed */
} *noted;
static unsigned char *memory;
static size_t length;

_Noreturn static void fail(const char *what) {
    perror(what);
    exit(2);
}

_Noreturn static void transmit(void) {
    static felter_transmitter transmitter;
    static struct message message;
    if (felter_board_new_in(memory, length, CAPACITY, &transmitter)) _exit(20);
    for (uint64_t number = 1;; number++) {
        make_message(&message, 0, number, CAPACITY / 8);
        if (felter_transmit(&transmitter, message.type_id, message.body, message.len)) _exit(21);
        noted->transmitted = number;
    }
}

_Noreturn static void count(uint64_t seed) {
    static felter_counters counters;
    uint32_t id = 0;
    if (felter_counters_new_in(memory, length, COUNTERS, 0, &counters)) _exit(22);
    for (uint32_t k = 0; k < REUSED; k++)
        if (felter_counter_allocate(&counters, 0, 5, "key", 3, "label", 5, 7, &id)) _exit(23);
    for (;;) {
        uint32_t at = (uint32_t)pick(&seed, COUNTERS);
        if (at < REUSED) {
            if (felter_counter_set(&counters, at, (int64_t)noted->set[at] + 1)) _exit(24);
            noted->set[at]++;
            continue;
        }
        if (noted->turns % 2 ? felter_counter_free(&counters, 0, REUSED)
                             : felter_counter_allocate(&counters, 0, 6, "other", 5, "reused", 6, 8, &id))
            _exit(25);
        noted->turns++;
    }
}

static uint64_t word_at(const unsigned char *image, uint64_t at) {
    uint64_t value;
    memcpy(&value, image + at, 8);
    return value;
}

/* Whether the latest record is the last transmission, or the one that was running. */
static bool is_board_right(const unsigned char *image) {
    uint64_t trailer = word_at(image, 32) + CAPACITY, latest = word_at(image, trailer + 16);
    uint64_t tail = word_at(image, trailer + 8), intent = word_at(image, trailer), number = 0;
    uint64_t at = word_at(image, 32) + latest % CAPACITY, header = word_at(image, at);
    unsigned who = 0;
    if (latest > tail + CAPACITY / 4 || tail > intent || intent > tail + CAPACITY / 4) return false;
    /* (before the first transmission is visible there is no record) */
    if (noted->transmitted == 0 && latest == 0 && tail == 0) return true;
    int32_t size = (int32_t)(uint32_t)header;
    const unsigned char *body = image + at + 8;
    if (size < 8 || !know_message((int32_t)(header >> 32), body, (size_t)size - 8, CAPACITY / 8, &who, &number))
        return false;
    return number == noted->transmitted || number == noted->transmitted + 1;
}

static bool are_counters_right(const unsigned char *image) {
    uint64_t values = word_at(image, 32), metadata = word_at(image, 48);
    for (uint64_t k = 0; k < REUSED; k++) {
        uint64_t value = word_at(image, values + 24 * k), record = metadata + 512 * k;
        if (value != noted->set[k] && value != noted->set[k] + 1) return false;
        /* (a counter whose value was set was allocated before) */
        if (noted->set[k] == 0) continue;
        if (word_at(image, record) != ((uint64_t)5 << 32 | 1) || memcmp(image + record + 16, "key", 4)) return false;
        if (memcmp(image + record + 128, "\5\0\0\0label", 10)) return false;
    }
    uint64_t record = metadata + 512 * REUSED;
    int32_t state = (int32_t)(uint32_t)word_at(image, record);
    /* (the call that was running may have changed the state) */
    if (noted->turns == 0) return true;
    if (state == 1 && noted->turns % 2) return memcmp(image + record + 128, "\6\0\0\0reused", 11) == 0;
    return state == 1 || state == -1;
}

static bool is_right(bool is_board, const unsigned char *image) {
    if (memcmp(image, "FELTERIM", 8)) return false;
    return is_board ? is_board_right(image) : are_counters_right(image);
}

/* Changes the latest record, or a value. Returns whether this is noticed, or there was no place for it. */
static bool is_change_noticed(bool is_board, unsigned char *image, uint64_t *state) {
    uint64_t words = word_at(image, 32), latest = word_at(image, words + CAPACITY + 16);
    if (is_board ? !noted->transmitted : !noted->set[0]) return true;
    if (is_board) image[words + latest % CAPACITY + 8 + pick(state, 8)] ^= (unsigned char)(1 << pick(state, 8));
    else image[words + pick(state, 8)] ^= 0x80;
    return !is_right(is_board, image);
}

/* Starts a process of a kind, and kills it. */
static void run_and_kill(bool is_board, uint64_t *state) {
    uint64_t seed = pick(state, UINT64_MAX);
    pid_t child = fork();
    if (child < 0) fail("fork");
    if (child == 0) {
        prctl(PR_SET_PDEATHSIG, SIGKILL);
        if (is_board) transmit();
        count(seed);
    }
    while (!noted->transmitted && !noted->turns)
        if (waitpid(child, NULL, WNOHANG)) fail("the process ended by itself");
    usleep((useconds_t)pick(state, 1000));
    if (kill(child, SIGKILL) || waitpid(child, NULL, 0) != child) fail("kill");
}

int main(int argc, char **words) {
    static unsigned char image[2 * CAPACITY + 1024];
    uint64_t transmitted = 0, sets = 0, turns = 0, wrong = 0, board_length = 0;
    if (argc != 4 || felter_counters_memory(COUNTERS, &length)) return 2;
    if (felter_board_memory(CAPACITY, &board_length)) return 2;
    if (length < board_length) length = board_length;
    uint64_t kills = strtoull(words[1], NULL, 10), state = mixed(strtoull(words[2], NULL, 10));
    int file = open(words[3], O_RDWR | O_CREAT | O_TRUNC | O_CLOEXEC, 0600);
    if (file < 0 || posix_fallocate(file, 0, (off_t)length)) fail(words[3]);
    memory = mmap(NULL, length, PROT_READ | PROT_WRITE, MAP_SHARED, file, 0);
    noted = mmap(NULL, sizeof *noted, PROT_READ | PROT_WRITE, MAP_SHARED | MAP_ANONYMOUS, -1, 0);
    if (memory == MAP_FAILED || noted == MAP_FAILED) fail("mmap");
    for (uint64_t k = 0; k < kills; k++) {
        memset(noted, 0, sizeof *noted);
        run_and_kill(k % 2 == 0, &state);
        if (pread(file, image, length, 0) != (ssize_t)length) fail("read");
        wrong += !is_right(k % 2 == 0, image);
        wrong += !is_change_noticed(k % 2 == 0, image, &state);
        transmitted += noted->transmitted;
        turns += noted->turns;
        for (int at = 0; at < REUSED; at++) sets += noted->set[at];
    }
    printf("kills %" PRIu64 " transmitted %" PRIu64 " sets %" PRIu64 " turns %" PRIu64 " wrong %" PRIu64 "\n", kills,
           transmitted, sets, turns, wrong);
    return wrong != 0;
}
