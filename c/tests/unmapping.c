/* Memory of the caller that the library unmaps with the last handle, whichever handle that is. And memory that it
 * leaves mapped, since felter_unmap_at_end refused it. */
#define _DEFAULT_SOURCE 1
#include "check.h"

#include <sys/mman.h>
#include <unistd.h>

static const size_t length = 1 << 16;

static int is_mapped(void *at) {
    unsigned char resident;
    return mincore(at, (size_t)sysconf(_SC_PAGESIZE), &resident) == 0;
}

static unsigned char *mapped(void) {
    void *at = mmap(NULL, length, PROT_READ | PROT_WRITE, MAP_SHARED | MAP_ANONYMOUS, -1, 0);
    CHECK(at != MAP_FAILED && is_mapped(at));
    return at;
}

/* The last handle is a producer, which has an open claim. */
static void freed_rings(void) {
    felter_producer producer = FELTER_EMPTY, other = FELTER_EMPTY;
    felter_consumer consumer = FELTER_EMPTY;
    unsigned char *at = mapped();
    uint64_t claim;
    EXPECT(FELTER_OK, felter_many_to_one_new_in(at, length, 1024, &producer, &consumer));
    EXPECT(FELTER_OK, felter_unmap_at_end(at, length));
    EXPECT(FELTER_OK, felter_split(&producer, &other));
    EXPECT(FELTER_OK, felter_claim(&other, 3, 3, &claim));
    felter_free(&consumer.handle);
    felter_free(&producer.handle);
    CHECK(is_mapped(at));
    felter_free(&other.handle);
    CHECK(!is_mapped(at) && !is_mapped(at + length - 4096));
}

/* The last handle is the consumer of a ring that was closed. */
static void finished_rings(void) {
    felter_producer producer = FELTER_EMPTY;
    felter_consumer consumer = FELTER_EMPTY;
    unsigned char *at = mapped();
    uint64_t unread = 0;
    uint8_t buffer[16];
    int32_t type_id;
    size_t len;
    EXPECT(FELTER_OK, felter_one_to_one_new_in(at, length, 1024, &producer, &consumer));
    EXPECT(FELTER_OK, felter_unmap_at_end(at, length));
    EXPECT(FELTER_OK, felter_write(&producer, 7, "stays", 5));
    EXPECT(FELTER_OK, felter_write(&producer, 8, "unread", 6));
    EXPECT(FELTER_OK, felter_close(&consumer, &producer));
    EXPECT(FELTER_OK, felter_read(&consumer, &type_id, &len, buffer, sizeof buffer));
    CHECK(type_id == 7 && memcmp(buffer, "stays", 5) == 0);
    CHECK(is_mapped(at));
    EXPECT(FELTER_OK, felter_finish(&consumer, &unread));
    CHECK(unread == 1 && !is_mapped(at));
}

static void boards(void) {
    felter_transmitter transmitter = FELTER_EMPTY;
    felter_receiver receiver = FELTER_EMPTY;
    unsigned char *at = mapped();
    uint64_t tail = 77;
    EXPECT(FELTER_OK, felter_board_new_in(at, length, 1024, &transmitter));
    EXPECT(FELTER_OK, felter_unmap_at_end(at, length));
    EXPECT(FELTER_OK, felter_subscribe(&transmitter, &receiver));
    EXPECT(FELTER_OK, felter_board_join(&transmitter, &receiver));
    CHECK(is_mapped(at));
    EXPECT(FELTER_OK, felter_board_close(&transmitter, &tail));
    CHECK(tail == 0 && !is_mapped(at));
    /* A receiver uses the memory too. */
    at = mapped();
    EXPECT(FELTER_OK, felter_board_new_in(at, length, 1024, &transmitter));
    EXPECT(FELTER_OK, felter_unmap_at_end(at, length));
    EXPECT(FELTER_OK, felter_subscribe(&transmitter, &receiver));
    felter_free(&transmitter.handle);
    CHECK(is_mapped(at));
    felter_free(&receiver.handle);
    CHECK(!is_mapped(at));
}

/* A reader of counters does not use the memory, and loads values after it was unmapped. */
static void counters(void) {
    felter_counters all = FELTER_EMPTY;
    felter_reader reader = FELTER_EMPTY;
    unsigned char *at = mapped();
    uint32_t id = 77;
    int64_t value = 77;
    EXPECT(FELTER_OK, felter_counters_new_in(at, length, 8, 0, &all));
    EXPECT(FELTER_OK, felter_unmap_at_end(at, length));
    EXPECT(FELTER_OK, felter_counter_allocate(&all, 0, 1, NULL, 0, NULL, 0, 0, &id));
    EXPECT(FELTER_OK, felter_counters_reader(&all, &reader));
    EXPECT(FELTER_OK, felter_counter_set(&all, id, 5));
    CHECK(is_mapped(at));
    felter_free(&all.handle);
    CHECK(!is_mapped(at));
    EXPECT(FELTER_OK, felter_reader_value(&reader, id, &value));
    CHECK(value == 5);
    felter_free(&reader.handle);
}

/* Memory that does not begin at a page, and fewer bytes than the structure has, are refused. */
static void refusals(void) {
    felter_transmitter transmitter = FELTER_EMPTY;
    unsigned char *at = mapped();
    size_t needed = 0;
    EXPECT(FELTER_OK, felter_board_memory(4096, &needed));
    CHECK(needed > 4096);
    EXPECT(FELTER_BAD_MEMORY, felter_unmap_at_end(at, length));
    EXPECT(FELTER_OK, felter_board_new_in(at + 64, length - 64, 4096, &transmitter));
    EXPECT(FELTER_BAD_MEMORY, felter_unmap_at_end(at, length));
    EXPECT(FELTER_BAD_MEMORY, felter_unmap_at_end(at + 64, length - 64));
    felter_free(&transmitter.handle);
    CHECK(is_mapped(at));
    EXPECT(FELTER_OK, felter_board_new_in(at, length, 4096, &transmitter));
    EXPECT(FELTER_BAD_MEMORY, felter_unmap_at_end(at, 0));
    EXPECT(FELTER_BAD_MEMORY, felter_unmap_at_end(at, 1));
    EXPECT(FELTER_BAD_MEMORY, felter_unmap_at_end(at, needed - 1));
    /* (a refused call changes nothing, so all is still mapped at the end) */
    felter_free(&transmitter.handle);
    CHECK(is_mapped(at) && is_mapped(at + length - 4096));
    /* The last accepted length counts. */
    EXPECT(FELTER_OK, felter_board_new_in(at, length, 4096, &transmitter));
    EXPECT(FELTER_OK, felter_unmap_at_end(at, needed));
    EXPECT(FELTER_OK, felter_unmap_at_end(at, length));
    EXPECT(FELTER_BAD_MEMORY, felter_unmap_at_end(at, needed - 1));
    felter_free(&transmitter.handle);
    CHECK(!is_mapped(at) && !is_mapped(at + length - 4096));
}

int main(void) {
    freed_rings();
    finished_rings();
    boards();
    counters();
    refusals();
    puts("unmapping: each memory at its time");
    return 0;
}
