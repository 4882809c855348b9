/* Producers that are lost: in each ring four threads write, and each with a chance of a half frees its handle at a random
 * step, with claims open, in the middle of a batch, or after a split. No committed message is lost or shown twice, each
 * is whole and in the order of its producer, and every ring is closed: lost [HANDLES_FREED [SEED]] */
#include "check.h"

#include <pthread.h>
#include <sched.h>
#include <stdbool.h>

enum { LANES = 4, STEPS = 24, KEPT = 3, NUMBERS = 256 };

/* What one thread wrote, by the numbers of its messages, which rise with their places. */
struct lane {
    felter_producer producer;
    uint32_t lane, next;
    uint64_t random;
    bool was_committed[NUMBERS], was_shown[NUMBERS];
    bool frees;
    int ends_at;
};

struct body {
    uint32_t lane, number;
};

static uint32_t draw(uint64_t *random, uint32_t below) {
    *random ^= *random << 13;
    *random ^= *random >> 7;
    *random ^= *random << 17;
    return (uint32_t)(*random >> 33) % below;
}

static struct body next_body(struct lane *it) {
    CHECK(it->next < NUMBERS);
    return (struct body){it->lane, it->next++};
}

/* Whether a try was made; a full ring is no mistake. */
static bool was_done(int32_t code) {
    CHECK(code == FELTER_OK || code == FELTER_INSUFFICIENT_CAPACITY || code == FELTER_CONTENDED);
    if (code != FELTER_OK) sched_yield();
    return code == FELTER_OK;
}

static void write_one(struct lane *it, felter_producer *producer) {
    struct body body = next_body(it);
    it->was_committed[body.number] =
        was_done(felter_write(producer, (int32_t)it->lane + 1, (const uint8_t *)&body, sizeof body));
}

/* Two messages at once, of which the ring may have room for one or for none. */
static void write_two(struct lane *it) {
    struct { felter_record record; struct body body; } batch[2];
    uint32_t written = 99;
    for (int i = 0; i < 2; i++) {
        batch[i].record.len = sizeof(struct body);
        batch[i].record.type_id = (int64_t)it->lane + 1;
        batch[i].body = next_body(it);
    }
    was_done(felter_write_batch(&it->producer, (const uint8_t *)batch, sizeof batch, &written));
    CHECK(written <= 2);
    for (uint32_t i = 0; i < written; i++) it->was_committed[batch[i].body.number] = true;
}

struct kept {
    uint64_t claim;
    struct body body;
};

/* Claims room, and puts none, half or all of the message. */
static int claim_one(struct lane *it, felter_producer *producer, struct kept *kept) {
    kept->body = next_body(it);
    if (!was_done(felter_claim(producer, (int32_t)it->lane + 1, sizeof kept->body, &kept->claim))) return 0;
    size_t some = draw(&it->random, 3) * sizeof kept->body / 2;
    EXPECT(FELTER_OK, felter_put(producer, kept->claim, 0, (const uint8_t *)&kept->body, some));
    return 1;
}

static void settle(struct lane *it, const struct kept *kept) {
    if (draw(&it->random, 4) == 0) {
        EXPECT(FELTER_OK, felter_abort(&it->producer, kept->claim));
        return;
    }
    EXPECT(FELTER_OK,
           felter_put(&it->producer, kept->claim, 0, (const uint8_t *)&kept->body, sizeof kept->body));
    EXPECT(FELTER_OK, felter_commit(&it->producer, kept->claim));
    it->was_committed[kept->body.number] = true;
}

/* Another producer of the ring, if there is a share for it. It is freed with an open claim, or taken in with it. */
static int split_one(struct lane *it, struct kept *kept) {
    felter_producer other = FELTER_EMPTY;
    uint32_t shares = 0;
    int count;
    EXPECT(FELTER_OK, felter_shares(&it->producer, &shares));
    EXPECT(shares > 1 ? FELTER_OK : FELTER_NO_SHARES, felter_split(&it->producer, &other));
    if (shares == 1) return 0;
    write_one(it, &other);
    count = claim_one(it, &other, kept);
    if (draw(&it->random, 2)) {
        felter_free(&other.handle);
        return 0;
    }
    EXPECT(FELTER_OK, felter_join(&it->producer, &other));
    return count;
}

static void *write_all(void *arg) {
    struct lane *it = arg;
    struct kept kept[KEPT];
    int count = 0;
    for (int step = 0; step < it->ends_at; step++) {
        switch (draw(&it->random, 6)) {
        case 0: write_one(it, &it->producer); break;
        case 1: write_two(it); break;
        case 2:
        case 3: if (count < KEPT) count += claim_one(it, &it->producer, &kept[count]); break;
        case 4: if (count > 0) settle(it, &kept[--count]); break;
        case 5: if (count < KEPT) count += split_one(it, &kept[count]); break;
        }
    }
    if (it->frees) {
        felter_free(&it->producer.handle);
        return NULL;
    }
    while (count > 0) settle(it, &kept[--count]);
    return NULL;
}

/* Reads up to a number of messages, and returns how many came. */
static uint32_t read_some(felter_consumer *consumer, struct lane *lanes, uint32_t *seen, uint32_t limit) {
    struct { felter_record record; struct body body; } batch[8];
    uint32_t count = 0;
    size_t used = 0;
    int32_t code = felter_read_batch(consumer, limit < 8 ? limit : 8, &count, &used, (uint8_t *)batch, sizeof batch);
    CHECK(code == FELTER_OK || code == FELTER_NO_MESSAGE);
    CHECK(used == count * sizeof batch[0]);
    for (uint32_t i = 0; i < count; i++) {
        struct body body = batch[i].body;
        CHECK(batch[i].record.len == sizeof body && body.lane < LANES && body.number < NUMBERS);
        /* They rise, so that none is shown twice. */
        CHECK(batch[i].record.type_id == (int64_t)body.lane + 1 && body.number >= seen[body.lane]);
        seen[body.lane] = body.number + 1;
        lanes[body.lane].was_shown[body.number] = true;
    }
    return count;
}

/* Takes the producers that are left together, and closes the ring with them. */
static void close_ring(felter_consumer *consumer, struct lane *lanes) {
    felter_producer *last = NULL;
    uint64_t left = 77;
    for (int i = 0; i < LANES; i++) {
        felter_producer *it = &lanes[i].producer;
        if (it->handle.at == NULL) continue;
        EXPECT(FELTER_PRODUCERS_OUT, felter_finish(consumer, &left));
        if (last) {
            EXPECT(FELTER_PRODUCERS_OUT, felter_close(consumer, it));
            EXPECT(FELTER_OK, felter_join(last, it));
        } else last = it;
    }
    if (last) EXPECT(FELTER_OK, felter_close(consumer, last));
}

/* Ends a ring with what its threads left, and compares what was shown and left with what was committed. */
static void end_ring(felter_consumer *consumer, struct lane *lanes, uint32_t *seen, uint64_t *random) {
    uint64_t left = 77, unseen = 0;
    bool reads_all = draw(random, 2);
    close_ring(consumer, lanes);
    /* (a read ends at the end of the ring's buffer) */
    for (uint32_t none = 0, more = 3; none < 2 && (reads_all || more > 0); more--)
        none = read_some(consumer, lanes, seen, reads_all ? 8 : more) ? 0 : none + 1;
    EXPECT(FELTER_OK, felter_finish(consumer, &left));
    for (int i = 0; i < LANES; i++)
        for (uint32_t n = 0; n < NUMBERS; n++) {
            CHECK(lanes[i].was_committed[n] || !lanes[i].was_shown[n]);
            if (lanes[i].was_committed[n] && !lanes[i].was_shown[n]) {
                CHECK(n >= seen[i]);
                unseen++;
            }
        }
    CHECK(left == unseen && !(reads_all && unseen));
}

/* Makes a producer for another thread, with some shares to split off others. */
static void split_lane(felter_producer *first, felter_producer *lane) {
    EXPECT(FELTER_OK, felter_split(first, lane));
    for (int i = 0; i < 5; i++) {
        felter_producer more = FELTER_EMPTY;
        EXPECT(FELTER_OK, felter_split(first, &more));
        EXPECT(FELTER_OK, felter_join(lane, &more));
    }
}

/* One ring, and how many of its handles the threads freed. */
static uint32_t run_ring(uint64_t *random) {
    static struct lane lanes[LANES];
    felter_consumer consumer = FELTER_EMPTY;
    pthread_t threads[LANES];
    uint32_t seen[LANES] = {0}, freed = 0;
    memset(lanes, 0, sizeof lanes);
    EXPECT(FELTER_OK, felter_many_to_one_new(draw(random, 2) ? 1024 : 128, &lanes[0].producer, &consumer));
    for (uint32_t i = 0; i < LANES; i++) {
        if (i > 0) split_lane(&lanes[0].producer, &lanes[i].producer);
        lanes[i].lane = i;
        lanes[i].random = ((uint64_t)draw(random, 1u << 30) << 30 | draw(random, 1u << 30)) + 1;
        lanes[i].ends_at = (int)draw(random, STEPS);
        lanes[i].frees = draw(random, 2);
        freed += lanes[i].frees;
    }
    for (int i = 0; i < LANES; i++) CHECK(pthread_create(&threads[i], NULL, write_all, &lanes[i]) == 0);
    for (uint32_t turns = draw(random, 8); turns > 0; turns--) read_some(&consumer, lanes, seen, 8);
    for (int i = 0; i < LANES; i++) CHECK(pthread_join(threads[i], NULL) == 0);
    end_ring(&consumer, lanes, seen, random);
    return freed;
}

int main(int argc, char **argv) {
    uint32_t wanted = argc > 1 ? (uint32_t)strtoul(argv[1], NULL, 10) : 10000, freed = 0, rings = 0;
    uint64_t random = argc > 2 ? strtoull(argv[2], NULL, 10) : 88172645463325252u;
    for (; freed < wanted; rings++) freed += run_ring(&random);
    printf("%" PRIu32 " rings are closed, of which threads freed %" PRIu32 " producers\n", rings, freed);
    return 0;
}
