/* Memory that random calls pass for structures. */
#include "calls.h"

#include <sys/mman.h>
#include <unistd.h>

#define PAGES ((size_t)1 << 16)

/* The end of memory with this number. The page after it may not be touched. */
static uint8_t *end_of(int which) {
    static uint8_t *ends[MEMORIES];
    if (!ends[which]) {
        size_t page = (size_t)sysconf(_SC_PAGESIZE);
        uint8_t *pages = mmap(NULL, PAGES + page, PROT_READ | PROT_WRITE, MAP_PRIVATE | MAP_ANONYMOUS, -1, 0);
        if (pages == MAP_FAILED || mprotect(pages + PAGES, page, PROT_NONE)) abort();
        ends[which] = pages + PAGES;
    }
    return ends[which];
}

static uint8_t *mapped(size_t length) {
    uint8_t *at = mmap(NULL, length, PROT_READ | PROT_WRITE, MAP_SHARED | MAP_ANONYMOUS, -1, 0);
    if (at == MAP_FAILED) abort();
    return at;
}

/* (sizes are multiples of 64, so the memory begins at such a multiple if it ends at the page) */
struct lent lend_memory(int which, size_t needed) {
    static uint8_t before[MEMORIES][PAGES];
    struct lent lent = {.length = needed, .needed = needed, .code = FELTER_OK, .before = before[which]};
    uint64_t way = pick(12);
    if (way == 0) return (struct lent){.code = FELTER_NULL_POINTER};
    lent.is_mapped = way < 4;
    lent.at = lent.is_mapped ? mapped(PAGES) : end_of(which) - needed;
    if (lent.is_mapped) lent.length = PAGES;
    if (way == 4) lent.at -= ONE_OF(1, 8, 63);
    if (way == 3 || way == 5) lent.length = (size_t)ONE_OF(0, 1, needed - 1);
    if (way >= 3 && way <= 5) lent.code = FELTER_BAD_MEMORY;
    for (size_t k = 0; k < needed; k++) lent.at[k] = (uint8_t)(k * 31 + which);
    memcpy(lent.before, lent.at, needed);
    return lent;
}

void check_memory(const struct lent *lent, int32_t code) {
    if (!lent->at) return;
    CHECK(code ? memcmp(lent->at, lent->before, lent->needed) == 0 : memcmp(lent->at, "FELTERIM", 8) == 0);
    if (!lent->is_mapped) return;
    if (code) munmap(lent->at, PAGES);
    else CALL(FELTER_OK, felter_unmap_at_end(lent->at, PAGES));
}
