/* Makes a ring in a file, and dies with messages in it: outlive FILE. The messages stay in the file. */
#define _GNU_SOURCE
#include "felter.h"

#include <fcntl.h>
#include <signal.h>
#include <stdio.h>
#include <sys/mman.h>
#include <unistd.h>

/* Makes a file, and maps it. Returns NULL if that fails. */
static void *map_new(const char *path, size_t length) {
    int file = open(path, O_RDWR | O_CREAT | O_EXCL | O_CLOEXEC, 0600);
    void *memory = MAP_FAILED;
    if (file < 0) return NULL;
    /* (if the disk is full, this call says so, and no store to the memory is a fault later) */
    if (posix_fallocate(file, 0, (off_t)length) == 0)
        memory = mmap(NULL, length, PROT_READ | PROT_WRITE, MAP_SHARED, file, 0);
    close(file);
    return memory == MAP_FAILED ? NULL : memory;
}

int main(int count, char **words) {
    felter_producer producer = FELTER_EMPTY;
    felter_consumer consumer = FELTER_EMPTY;
    char body[1024 / 8];
    int32_t type_id;
    size_t length, len;
    if (count != 2 || felter_ring_memory(1024, &length) != FELTER_OK) return 2;
    void *memory = map_new(words[1], length);
    if (!memory) return 1;
    if (felter_many_to_one_new_in(memory, length, 1024, &producer, &consumer) != FELTER_OK) return 1;
    if (felter_unmap_at_end(memory, length) != FELTER_OK) return 1;
    if (felter_write(&producer, 7, "first", 5) != FELTER_OK) return 1;
    if (felter_write(&producer, 7, "second", 6) != FELTER_OK) return 1;
    if (felter_read(&consumer, &type_id, &len, body, sizeof body) != FELTER_OK) return 1;
    printf("read %.*s\n", (int)len, body);
    fflush(stdout);
    raise(SIGKILL);
}
