/* Goes on after a crash: recover OLD NEW. Recovers the messages from the ring in the file OLD, whose process died, and
 * writes them to a new ring in the file NEW. Then it reads and prints the messages of the new ring. */
#define _GNU_SOURCE
#include "felter.h"

#include <fcntl.h>
#include <inttypes.h>
#include <stdio.h>
#include <stdlib.h>
#include <sys/mman.h>
#include <sys/stat.h>
#include <unistd.h>

/* Maps a file to read it. Returns NULL if that fails. */
static void *map_old(const char *path, size_t *length) {
    int file = open(path, O_RDONLY | O_CLOEXEC);
    struct stat its;
    void *memory = MAP_FAILED;
    if (file < 0) return NULL;
    if (fstat(file, &its) == 0) {
        *length = (size_t)its.st_size;
        memory = mmap(NULL, *length, PROT_READ, MAP_SHARED, file, 0);
    }
    close(file);
    return memory == MAP_FAILED ? NULL : memory;
}

/* Makes a file, and maps it. Returns NULL if that fails. */
static void *map_new(const char *path, size_t length) {
    int file = open(path, O_RDWR | O_CREAT | O_EXCL | O_CLOEXEC, 0600);
    void *memory = MAP_FAILED;
    if (file < 0) return NULL;
    if (posix_fallocate(file, 0, (off_t)length) == 0)
        memory = mmap(NULL, length, PROT_READ | PROT_WRITE, MAP_SHARED, file, 0);
    close(file);
    return memory == MAP_FAILED ? NULL : memory;
}

/* Prints why nothing was recovered. */
static int refuse(const void *image, size_t length) {
    char text[128];
    size_t len;
    if (felter_finding(image, length, &len, text, sizeof text) == FELTER_OK) fprintf(stderr, "recover: %s\n", text);
    return 1;
}

int main(int count, char **words) {
    felter_producer producer = FELTER_EMPTY;
    felter_consumer consumer = FELTER_EMPTY;
    size_t length = 0, needed, used, len;
    uint64_t open_claims;
    uint32_t recovered, written;
    int32_t type_id;
    char body[1024 / 8];
    if (count != 3 || felter_ring_memory(1024, &needed) != FELTER_OK) return 2;
    void *image = map_old(words[1], &length);
    void *records = malloc(length);
    if (!image || !records) return 1;
    if (felter_recover(image, length, &open_claims, &recovered, &used, records, length) != FELTER_OK)
        return refuse(image, length);
    printf("recovered %" PRIu32 ", %" PRIu64 " open\n", recovered, open_claims);
    void *memory = map_new(words[2], needed);
    if (!memory) return 1;
    if (felter_many_to_one_new_in(memory, needed, 1024, &producer, &consumer) != FELTER_OK) return 1;
    if (felter_unmap_at_end(memory, needed) != FELTER_OK) return 1;
    if (felter_write_batch(&producer, records, used, &written) != FELTER_OK) return 1;
    free(records);
    while (felter_read(&consumer, &type_id, &len, body, sizeof body) == FELTER_OK)
        printf("%" PRId32 " %.*s\n", type_id, (int)len, body);
    felter_free(&producer.handle);
    felter_free(&consumer.handle);
    return munmap(image, length);
}
