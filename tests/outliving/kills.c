/* Kills processes at random moments, and judges the files that they leave: kills COUNT SEED FILE [FAULT [FOLDER]].
 *
 * Each process makes a ring in the file, in which one or four producers and a consumer run. FAULT puts a fault into
 * each image, which must be noticed. FOLDER gets each file with its listing. The line of the result says how many
 * messages there were, and what was wrong. The status is 1 if a message was lost, torn, out of order or twice, or if a
 * fault was not noticed. */
#define _GNU_SOURCE 1
#include "storm.h"

#include <fcntl.h>
#include <inttypes.h>
#include <signal.h>
#include <stdio.h>
#include <stdlib.h>
#include <string.h>
#include <sys/mman.h>
#include <sys/prctl.h>
#include <sys/wait.h>
#include <unistd.h>

#define MOST_MICROSECONDS 3000

static unsigned char *memory; /* the mapped file */
static size_t length;
static int file;
static struct book *book;
static struct listing listing;
static struct totals totals;
static uint64_t planted, noticed, state;

_Noreturn static void fail(const char *what) {
    perror(what);
    exit(2);
}

static void *shared(size_t size, int flags, int of) {
    void *at = mmap(NULL, size, PROT_READ | PROT_WRITE, MAP_SHARED | flags, of, 0);
    if (at == MAP_FAILED) fail("mmap");
    return at;
}

/* Waits until a message was acknowledged, and then for a random time. */
static void wait_for_messages(pid_t child) {
    for (bool is_there = false; !is_there;) {
        usleep(20);
        for (unsigned k = 0; k < PRODUCERS; k++) is_there |= book->of[k].acknowledged > 0;
        if (!is_there && waitpid(child, NULL, WNOHANG)) fail("the process ended by itself");
    }
    usleep((useconds_t)pick(&state, MOST_MICROSECONDS));
}

/* Starts a process with a ring, and kills it. Nothing is shared with it but the file and the book. */
static void run_and_kill(uint64_t seed, uint32_t capacity, bool is_one) {
    int status;
    pid_t child = fork();
    if (child < 0) fail("fork");
    if (child == 0) {
        prctl(PR_SET_PDEATHSIG, SIGKILL);
        run_storm(memory, length, capacity, is_one, book, seed);
    }
    /* (some are killed while they make the ring) */
    if (pick(&state, 8) == 0) usleep((useconds_t)pick(&state, 500));
    else wait_for_messages(child);
    if (kill(child, SIGKILL) || waitpid(child, &status, 0) != child) fail("kill");
    if (!WIFSIGNALED(status) || WTERMSIG(status) != SIGKILL) {
        fprintf(stderr, "kills: the process ended by itself, with status %d\n", status);
        exit(2);
    }
}

/* Compares what the library recovers with the listing. */
static void recover(const unsigned char *image) {
    static unsigned char buffer[2 * MAX_CAPACITY];
    uint64_t open = 0;
    uint32_t count = 0;
    size_t used = 0, at = 0;
    int32_t code = felter_recover(image, length, &open, &count, &used, buffer, sizeof buffer);
    if (!listing.is_image || listing.is_wrong) {
        totals.damaged += code == FELTER_OK;
        return;
    }
    bool is_same = code == FELTER_OK && count == listing.count && open == listing.open;
    for (uint64_t k = 0; is_same && k < count; k++) {
        felter_record record;
        const struct found *it = &listing.of[k];
        memcpy(&record, buffer + at, sizeof record);
        is_same = record.len == it->len && record.type_id == it->type_id &&
                  memcmp(buffer + at + sizeof record, image + it->body, record.len) == 0;
        at += FELTER_SPAN(record.len);
    }
    totals.damaged += !is_same || at != used;
}

/* Writes an image into a folder, with the number of open claims and a line for each message. */
static void keep(const char *folder, uint64_t number, const unsigned char *image) {
    char path[4096];
    snprintf(path, sizeof path, "%s/%" PRIu64 ".image", folder, number);
    FILE *to = fopen(path, "wb");
    if (!to || fwrite(image, length, 1, to) != 1 || fclose(to)) fail(path);
    snprintf(path, sizeof path, "%s/%" PRIu64 ".list", folder, number);
    to = fopen(path, "w");
    if (!to) fail(path);
    fprintf(to, "%" PRIu64 "\n", listing.open);
    for (uint64_t k = 0; k < listing.count; k++) {
        const struct found *it = &listing.of[k];
        fprintf(to, "%" PRIu64 " %" PRId32 " ", it->place, it->type_id);
        for (uint32_t at = 0; at < it->len; at++) fprintf(to, "%02x", image[it->body + at]);
        fprintf(to, "\n");
    }
    if (fclose(to)) fail(path);
}

/* Reads the file, as a program does that comes after the process. */
static void judge_file(enum fault fault, const char *folder) {
    static _Alignas(64) unsigned char image[1024 + 2 * MAX_CAPACITY];
    struct totals before;
    if (pread(file, image, length, 0) != (ssize_t)length) fail("read");
    list_image(image, length, &listing);
    recover(image);
    judge(book, &listing, &totals);
    if (folder && listing.is_image) keep(folder, totals.kills, image);
    if (fault == NO_FAULT || !plant(fault, image, &listing, book, &state)) return;
    before = totals;
    list_image(image, length, &listing);
    planted++;
    noticed += !judge(book, &listing, &totals);
    totals = before;
    /* (the library recovers what is there, also if it is not what was written) */
    recover(image);
}

static void print_totals(enum fault fault) {
    printf("kills %" PRIu64 " unmade %" PRIu64 " acknowledged %" PRIu64 " shown %" PRIu64 " recovered %" PRIu64,
           totals.kills, totals.unmade, totals.acknowledged, totals.shown, totals.recovered);
    printf(" taken %" PRIu64 " again %" PRIu64 " open %" PRIu64 " gaps %" PRIu64, totals.taken, totals.again,
           totals.open, totals.gaps);
    printf(" lost %" PRIu64 " torn %" PRIu64 " disordered %" PRIu64 " twice %" PRIu64 " damaged %" PRIu64, totals.lost,
           totals.torn, totals.disordered, totals.twice, totals.damaged);
    if (fault != NO_FAULT) printf(" %s %" PRIu64 " noticed %" PRIu64, FAULT_NAMES[fault], planted, noticed);
    printf("\n");
}

int main(int count, char **words) {
    enum fault fault = NO_FAULT;
    if (count < 4) return 2;
    if (count > 4)
        while (fault < FAULTS && strcmp(words[4], FAULT_NAMES[fault])) fault++;
    if (fault == FAULTS || felter_ring_memory(MAX_CAPACITY, &length) != FELTER_OK) return 2;
    uint64_t kills = strtoull(words[1], NULL, 10);
    state = mixed(strtoull(words[2], NULL, 10));
    file = open(words[3], O_RDWR | O_CREAT | O_TRUNC | O_CLOEXEC, 0600);
    if (file < 0 || posix_fallocate(file, 0, (off_t)length)) fail(words[3]);
    memory = shared(length, 0, file);
    book = shared(sizeof *book, MAP_ANONYMOUS, -1);
    for (uint64_t k = 0; k < kills; k++) {
        static const uint32_t capacities[] = {128, 256, 1024, 1024, 4096, MAX_CAPACITY};
        memset(book, 0, sizeof *book);
        /* (the image of the process before is none any more; its other bytes stay) */
        memset(memory, 0, 8);
        run_and_kill(state + k, capacities[pick(&state, 6)], pick(&state, 4) == 0);
        judge_file(fault, count > 5 ? words[5] : NULL);
    }
    print_totals(fault);
    return totals.lost || totals.torn || totals.disordered || totals.twice || totals.damaged || planted != noticed;
}
