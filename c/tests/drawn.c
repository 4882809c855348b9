/* Calls of rings that are drawn at random, on one thread. A model, which is a list of records, says what each call
 * returns and writes. At last each ring is ended, and the model says how many messages are left:
 * drawn [RINGS [SEED]] */
#include "check.h"

enum { PRODUCERS = 4, RECORDS = 1024 / 8 + 8, LONGEST = 1024 / 8, STEPS = 400 };
enum state { OPEN, COMMITTED, ABORTED, TAKEN };

/* A record that the head has not passed yet. */
struct record {
    uint64_t place, end;
    uint32_t len, owner;
    int32_t type_id;
    enum state state;
    uint8_t body[LONGEST];
};

static struct record records[RECORDS];
static uint32_t count, capacity, is_many;
static uint64_t head, tail;

static felter_producer producers[PRODUCERS];
static uint32_t shares[PRODUCERS]; /* 0 if the handle is empty */
static felter_consumer consumer;
static uint64_t calls, seed;

static uint32_t draw(uint32_t below) {
    seed ^= seed << 13;
    seed ^= seed >> 7;
    seed ^= seed << 17;
    return (uint32_t)(seed >> 33) % below;
}

static uint32_t draw_producer(void) {
    uint32_t k = draw(PRODUCERS);
    while (!shares[k]) k = (k + 1) % PRODUCERS;
    return k;
}

static int32_t draw_type(void) {
    static const int32_t rare[] = {0, -1, INT32_MIN, INT32_MAX};
    return draw(20) ? 1 + (int32_t)draw(9) : rare[draw(4)];
}

/* Mostly a length that a message can have. */
static uint32_t draw_len(void) {
    return draw(8) ? draw(capacity / 8 + 1) : capacity / 8 - 1 + draw(3);
}

static void fill(uint8_t *body, uint32_t len) {
    for (uint32_t i = 0; i < len; i++) body[i] = (uint8_t)draw(256);
}

/* The model -------------------------------------------------------------------------------------------------------- */

static uint64_t span(uint32_t len) {
    return (8 + (uint64_t)len + 7) / 8 * 8;
}

/* The bytes up to the end of the buffer, if the record does not fit there. */
static uint64_t padding(uint32_t len) {
    uint64_t rest = capacity - tail % capacity;
    return span(len) > rest ? rest : 0;
}

static int32_t code_of(int32_t type_id, uint32_t len) {
    if (type_id < 1) return FELTER_BAD_TYPE;
    if (len > capacity / 8) return FELTER_TOO_LONG;
    uint64_t bytes = padding(len) + span(len);
    if (tail + bytes > LAST_POSITION) return FELTER_POSITION_LIMIT;
    return bytes > capacity - (tail - head) ? FELTER_INSUFFICIENT_CAPACITY : FELTER_OK;
}

static struct record *add(uint32_t owner, int32_t type_id, uint32_t len, enum state state) {
    struct record *it = &records[count++];
    CHECK(count <= RECORDS);
    memset(it, 0, sizeof *it);
    it->place = tail + padding(len);
    it->end = tail = it->place + span(len);
    it->owner = owner;
    it->type_id = type_id;
    it->len = len;
    it->state = state;
    return it;
}

/* The message that the consumer gets next, or NULL. */
static struct record *next_message(void) {
    for (uint32_t i = 0; i < count; i++) {
        if (records[i].state == COMMITTED) return &records[i];
        if (records[i].state == OPEN) return NULL;
    }
    return NULL;
}

/* An open claim of a producer, or NULL. */
static struct record *draw_claim(uint32_t owner) {
    uint32_t first = count ? draw(count) : 0;
    for (uint32_t i = 0; i < count; i++) {
        struct record *it = &records[(first + i) % count];
        if (it->state == OPEN && it->owner == owner) return it;
    }
    return NULL;
}

/* Loads the positions. The head may have passed what was taken and what was aborted, and no other record. */
static void follow_head(void) {
    uint64_t its_head = 0, its_tail = 0;
    uint32_t passed = 0;
    EXPECT(FELTER_OK, felter_positions(&producers[draw_producer()], &its_head, &its_tail));
    CHECK(its_tail == tail && its_head >= head && its_head <= tail);
    head = its_head;
    for (; passed < count && records[passed].end <= head; passed++)
        CHECK(records[passed].state == TAKEN || records[passed].state == ABORTED);
    CHECK(passed == count || head <= records[passed].place);
    memmove(records, records + passed, (count - passed) * sizeof *records);
    count -= passed;
    CHECK(count == 0 || records[0].state != TAKEN);
}

/* Calls of producers ----------------------------------------------------------------------------------------------- */

static void write_one(void) {
    uint32_t owner = draw_producer(), len = draw_len();
    int32_t type_id = draw_type(), code = code_of(type_id, len);
    uint8_t body[LONGEST + 8];
    fill(body, len);
    EXPECT(code, felter_write(&producers[owner], type_id, body, len));
    if (code == FELTER_OK) memcpy(add(owner, type_id, len, COMMITTED)->body, body, len);
}

static void claim_one(void) {
    uint32_t owner = draw_producer(), len = draw_len();
    int32_t type_id = draw_type(), code = code_of(type_id, len);
    uint64_t claim = 77;
    EXPECT(code, felter_claim(&producers[owner], type_id, len, &claim));
    CHECK(claim == (code == FELTER_OK ? add(owner, type_id, len, OPEN)->place : 77));
}

static void put_some(void) {
    uint32_t owner = draw_producer(), offset = draw(capacity / 8 + 2), len = draw(capacity / 8 + 2);
    struct record *it = draw_claim(owner);
    uint8_t bytes[LONGEST + 8];
    fill(bytes, len);
    if (!it) {
        EXPECT(FELTER_NO_CLAIM, felter_put(&producers[owner], head, offset, bytes, len));
        return;
    }
    EXPECT(FELTER_NO_CLAIM, felter_put(&producers[owner], it->place + 4, offset, bytes, len));
    int32_t code = offset + len > it->len ? FELTER_PUT_RANGE : FELTER_OK;
    EXPECT(code, felter_put(&producers[owner], it->place, offset, bytes, len));
    if (code == FELTER_OK) memcpy(it->body + offset, bytes, len);
}

static void settle_one(void) {
    uint32_t owner = draw_producer(), aborts = draw(4) == 0;
    struct record *it = draw_claim(owner);
    if (!it) return;
    if (aborts) EXPECT(FELTER_OK, felter_abort(&producers[owner], it->place));
    else EXPECT(FELTER_OK, felter_commit(&producers[owner], it->place));
    EXPECT(FELTER_NO_CLAIM, felter_commit(&producers[owner], it->place));
    EXPECT(FELTER_NO_CLAIM, felter_abort(&producers[owner], it->place));
    it->state = aborts ? ABORTED : COMMITTED;
}

/* A batch, in which now and then a record is bad. Then no message is written. */
static void write_batch(void) {
    static uint64_t batch[6 * (2 + LONGEST / 8 + 1)];
    uint32_t owner = draw_producer(), all = draw(7), written = 77, wanted = 0;
    felter_record heads[6];
    size_t at[6], bytes = 0;
    int32_t code = FELTER_OK;
    for (uint32_t i = 0; i < all; i++) {
        heads[i].len = draw(12) ? draw(capacity / 8 + 1) : draw_len();
        heads[i].type_id = draw(12) ? 1 + (int32_t)draw(9) : draw_type();
        at[i] = bytes;
        memcpy((uint8_t *)batch + bytes, &heads[i], sizeof heads[i]);
        fill((uint8_t *)batch + bytes + sizeof heads[i], (uint32_t)heads[i].len);
        bytes += FELTER_SPAN(heads[i].len);
        if (code != FELTER_OK) continue;
        if (heads[i].type_id < 1) code = FELTER_BAD_TYPE;
        else if (heads[i].len > capacity / 8) code = FELTER_TOO_LONG;
    }
    for (int is_bad = code != FELTER_OK; !is_bad && wanted < all; wanted++) {
        code = code_of((int32_t)heads[wanted].type_id, (uint32_t)heads[wanted].len);
        if (code != FELTER_OK) break;
        memcpy(add(owner, (int32_t)heads[wanted].type_id, (uint32_t)heads[wanted].len, COMMITTED)->body,
               (uint8_t *)batch + at[wanted] + sizeof *heads, heads[wanted].len);
    }
    EXPECT(code, felter_write_batch(&producers[owner], batch, bytes, &written));
    CHECK(written == wanted);
}

/* Splits, joins or frees a producer. Its open claims go to another one, or are aborted. */
static void change_producers(void) {
    uint32_t one = draw_producer(), other = draw(PRODUCERS);
    int32_t code = !is_many ? FELTER_WRONG_HANDLE : shares[one] == 1 ? FELTER_NO_SHARES : FELTER_OK;
    if (!shares[other]) {
        EXPECT(code, felter_split(&producers[one], &producers[other]));
        if (code != FELTER_OK) return;
        shares[one]--;
        shares[other] = 1;
    } else if (one != other) {
        int frees = draw(4) == 0;
        if (frees) felter_free(&producers[other].handle);
        else EXPECT(FELTER_OK, felter_join(&producers[one], &producers[other]));
        for (uint32_t i = 0; i < count; i++) {
            if (records[i].owner != other || records[i].state != OPEN) continue;
            if (frees) records[i].state = ABORTED;
            else records[i].owner = one;
        }
        shares[one] += frees ? 0 : shares[other];
        shares[other] = 0;
        CHECK(!producers[other].handle.at);
    }
    for (uint32_t k = 0, its = 77; k < PRODUCERS; k++) {
        EXPECT(shares[k] ? FELTER_OK : FELTER_NO_HANDLE, felter_shares(&producers[k], &its));
        CHECK(!shares[k] || its == shares[k]);
    }
}

/* Calls of the consumer -------------------------------------------------------------------------------------------- */

/* Reads or peeks. The buffer may be too short, and bytes after the message stay as they are. */
static void read_one(int takes) {
    struct record *it = next_message();
    uint8_t buffer[LONGEST + 8];
    size_t len = 77, room = draw(capacity / 8 + 2);
    int32_t type_id = 77;
    int32_t code = !it ? FELTER_NO_MESSAGE : room < it->len ? FELTER_SHORT_BUFFER : FELTER_OK;
    memset(buffer, 0xEE, sizeof buffer);
    if (takes) EXPECT(code, felter_read(&consumer, &type_id, &len, buffer, room));
    else EXPECT(code, felter_peek(&consumer, &type_id, &len, buffer, room));
    CHECK(it ? type_id == it->type_id && len == it->len : type_id == 77 && len == 77);
    len = code == FELTER_OK ? len : 0;
    CHECK(len == 0 || memcmp(buffer, it->body, len) == 0);
    for (size_t i = len; i < sizeof buffer; i++) CHECK(buffer[i] == 0xEE);
    if (takes && code == FELTER_OK) it->state = TAKEN;
}

static void take_one(void) {
    struct record *it = next_message();
    EXPECT(it ? FELTER_OK : FELTER_NO_MESSAGE, felter_take(&consumer));
    if (it) it->state = TAKEN;
}

/* Reads a batch, which may have fewer messages than there are, but the first one if there is room for it. */
static void read_batch(void) {
    static uint64_t buffer[512 / 8];
    uint32_t limit = draw(6), its = 77;
    size_t used = 77, at = 0, room = draw(sizeof buffer + 1);
    struct record *it = limit ? next_message() : NULL;
    int32_t code = !it ? FELTER_NO_MESSAGE : room < FELTER_SPAN(it->len) ? FELTER_SHORT_BUFFER : FELTER_OK;
    EXPECT(code, felter_read_batch(&consumer, limit, &its, &used, buffer, room));
    if (code != FELTER_OK) {
        CHECK(its == 77 && used == 77);
        return;
    }
    CHECK(its >= 1 && its <= limit && used <= room);
    for (uint32_t i = 0; i < its; i++) {
        felter_record found;
        it = next_message();
        CHECK(it && at + FELTER_SPAN(it->len) <= used);
        memcpy(&found, (uint8_t *)buffer + at, sizeof found);
        CHECK(found.len == it->len && found.type_id == it->type_id);
        CHECK(it->len == 0 || memcmp((uint8_t *)buffer + at + sizeof found, it->body, it->len) == 0);
        at += FELTER_SPAN(it->len);
        it->state = TAKEN;
    }
    CHECK(at == used);
}

/* What is next. If the call passes padding or what was aborted, it says so and has to be made again. */
static void look(void) {
    struct record *it = next_message();
    int32_t found = 77;
    uint64_t its = 77, before = head;
    EXPECT(FELTER_OK, felter_standing(&producers[draw_producer()], &consumer, &found, &its));
    follow_head();
    CHECK(its == head);
    if (it) CHECK(found == FELTER_FOUND_MESSAGE);
    else if (head != before) CHECK(found == FELTER_FOUND_CHANGE);
    else CHECK(found == (head == tail ? FELTER_FOUND_NONE : FELTER_FOUND_CLAIM));
}

/* Rings ------------------------------------------------------------------------------------------------------------ */

static void make_ring(void) {
    static const felter_consumer none = FELTER_EMPTY;
    capacity = 128u << draw(4);
    is_many = draw(2);
    head = tail = draw(4) ? draw(3) * (uint64_t)capacity : LAST_POSITION - (1 + draw(6)) * (uint64_t)capacity;
    count = 0;
    memset(producers, 0, sizeof producers);
    memset(shares, 0, sizeof shares);
    consumer = none;
    if (is_many) EXPECT(FELTER_OK, felter_many_to_one_new_at(capacity, head, &producers[0], &consumer));
    else EXPECT(FELTER_OK, felter_one_to_one_new_at(capacity, head, &producers[0], &consumer));
    EXPECT(FELTER_OK, felter_shares(&producers[0], &shares[0]));
}

static void step(void) {
    calls++;
    switch (draw(11)) {
    case 0: case 1: write_one(); break;
    case 2: claim_one(); break;
    case 3: put_some(); break;
    case 4: settle_one(); break;
    case 5: write_batch(); break;
    case 6: change_producers(); break;
    case 7: read_one(1); break;
    case 8: draw(2) ? read_one(0) : take_one(); break;
    case 9: read_batch(); break;
    default: look();
    }
    follow_head();
}

/* Joins all producers into one, and closes the ring with it. Or frees them all. */
static void end_ring(void) {
    uint32_t last = draw_producer(), closes = draw(2);
    uint64_t left = 77, wanted = 0;
    for (uint32_t k = 0; k < PRODUCERS; k++) {
        if (!closes) felter_free(&producers[k].handle);
        else if (k != last && shares[k]) EXPECT(FELTER_OK, felter_join(&producers[last], &producers[k]));
    }
    for (uint32_t i = 0; i < count; i++) {
        if (records[i].state != OPEN) continue;
        if (closes) EXPECT(FELTER_CLAIMS_OPEN, felter_close(&consumer, &producers[last]));
        if (closes) EXPECT(FELTER_OK, felter_abort(&producers[last], records[i].place));
        records[i].state = ABORTED;
    }
    if (closes) EXPECT(FELTER_OK, felter_close(&consumer, &producers[last]));
    for (uint32_t turns = draw(9); turns; turns--) draw(2) ? read_batch() : read_one(1);
    for (uint32_t i = 0; i < count; i++) wanted += records[i].state == COMMITTED;
    EXPECT(FELTER_OK, felter_finish(&consumer, &left));
    CHECK(left == wanted);
}

int main(int words, char **word) {
    uint32_t rings = words > 1 ? (uint32_t)strtoul(word[1], NULL, 10) : 10000;
    seed = words > 2 ? strtoull(word[2], NULL, 10) : 88172645463325252u;
    CHECK(seed != 0);
    for (uint32_t ring = 0; ring < rings; ring++) {
        make_ring();
        for (uint32_t steps = draw(STEPS); steps; steps--) step();
        end_ring();
    }
    printf("drawn: %" PRIu64 " calls of %" PRIu32 " rings as the model has them\n", calls, rings);
    return 0;
}
