/* A program that tests/outlive looks at: writer FILE. It makes a ring in the file, writes a message, leaves a claim
 * open, writes another message, and waits until it is killed. */
#define _GNU_SOURCE 1
#include "felter.h"

#include <fcntl.h>
#include <stdio.h>
#include <sys/mman.h>
#include <unistd.h>

int main(int count, char **words) {
    felter_producer producer = FELTER_EMPTY;
    felter_consumer consumer = FELTER_EMPTY;
    uint64_t claim = 0;
    size_t length = 0;
    if (count != 2 || felter_ring_memory(1024, &length) != FELTER_OK) return 2;
    int file = open(words[1], O_RDWR | O_CREAT | O_EXCL, 0600);
    if (file < 0 || posix_fallocate(file, 0, (off_t)length)) return 1;
    void *memory = mmap(NULL, length, PROT_READ | PROT_WRITE, MAP_SHARED, file, 0);
    if (memory == MAP_FAILED) return 1;
    if (felter_many_to_one_new_in(memory, length, 1024, &producer, &consumer) != FELTER_OK) return 1;
    if (felter_write(&producer, 7, "first", 5) != FELTER_OK) return 1;
    if (felter_claim(&producer, 8, 5, &claim) != FELTER_OK) return 1;
    if (felter_put(&producer, claim, 0, "half", 4) != FELTER_OK) return 1;
    if (felter_write(&producer, 9, "after the claim", 15) != FELTER_OK) return 1;
    puts("ready");
    fflush(stdout);
    for (;;) pause();
}
