/* Changes what ring-show reads of a running program, as if the positions of a ring had moved far on between the reads of
 * two words. It is loaded before the C library. The first TORN reads of as many bytes as a ring's trailer has get a tail
 * that is far above the head. */
#define _GNU_SOURCE
#include <dlfcn.h>
#include <stdint.h>
#include <stdlib.h>
#include <unistd.h>

enum { TRAILER = 768, TAIL = 16 };

ssize_t read(int file, void *into, size_t count) {
    static ssize_t (*next)(int, void *, size_t);
    static int torn;
    const char *most = getenv("TORN");
    ssize_t found;
    if (!next) *(void **)&next = dlsym(RTLD_NEXT, "read");
    found = next(file, into, count);
    if (found == TRAILER && most && torn < atoi(most)) {
        torn++;
        ((uint64_t *)into)[TAIL] += UINT64_C(1) << 40;
    }
    return found;
}
