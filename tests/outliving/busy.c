/* A program that tests/outlive looks at while it runs: busy FILE. Four producers and a consumer use a ring in the file
 * until the program is killed. */
#define _GNU_SOURCE 1
#include "storm.h"

#include <fcntl.h>
#include <stdio.h>
#include <sys/mman.h>

int main(int count, char **words) {
    static struct book book;
    size_t length = 0;
    if (count != 2 || felter_ring_memory(MAX_CAPACITY, &length) != FELTER_OK) return 2;
    int file = open(words[1], O_RDWR | O_CREAT | O_EXCL, 0600);
    if (file < 0 || posix_fallocate(file, 0, (off_t)length)) return 1;
    void *memory = mmap(NULL, length, PROT_READ | PROT_WRITE, MAP_SHARED, file, 0);
    if (memory == MAP_FAILED) return 1;
    puts("ready");
    fflush(stdout);
    run_storm(memory, length, MAX_CAPACITY, false, &book, 1);
}
