/* A transmitter and its receivers of both kinds, which are made, used, given back and freed while it goes on. Where
 * each message goes follows from FORMATS.md, and what receivers get from "The broadcast buffer" in MODEL.md. */
#include "meetings.h"

#define LISTENERS 4
#define MESSAGES 2500

static struct {
    felter_transmitter transmitter;
    struct office office;
    uint32_t capacity;
    uint64_t start, count; /* how many messages end before 2^62 */
    uint64_t places[MESSAGES], ends[MESSAGES];
    _Atomic uint64_t begun, done; /* how many transmissions */
} board;

struct listener {
    struct worker worker;
    bool is_raw;
    uint64_t next, laps; /* the number of the message that comes next */
    bool has_record, is_overwritten;
    uint64_t record; /* the number of the last record of a raw receiver */
    uint64_t copies, validated, all_laps;
};

static size_t most(void) { return board.capacity / 8; }
static int32_t type_of(uint64_t number) { return 1 + (int32_t)number; }
/* The position up to which this many transmissions write. */
static uint64_t written(uint64_t count) { return count ? board.ends[count - 1] : board.start; }
static bool is_whole(uint64_t number, uint64_t intent) { return intent < board.places[number] + board.capacity; }

/* Where each message goes: it crosses no end of the buffer, and ends at most at 2^62. */
static void plan(void) {
    uint64_t at = board.start;
    for (board.count = 0; board.count < MESSAGES; board.count++) {
        uint64_t span = 8 + (len_of(0, board.count, most()) + 7) / 8 * 8, to_end = board.capacity - at % board.capacity;
        uint64_t place = at + (span > to_end ? to_end : 0);
        if (place + span > LAST) break;
        board.places[board.count] = place;
        board.ends[board.count] = at = place + span;
    }
}

/* The number of the message of a place. */
static uint64_t number_at(uint64_t place, const uint64_t *places) {
    uint64_t low = 0, high = board.count;
    while (low < high) {
        uint64_t middle = (low + high) / 2;
        if (places[middle] < place) low = middle + 1;
        else high = middle;
    }
    CHECK(low < board.count && places[low] == place);
    return low;
}

/* Receivers -------------------------------------------------------------------------------------------------------- */

static uint64_t place_of(struct listener *it) {
    uint64_t place = 0;
    CHECK((it->is_raw ? felter_raw_receiver_place(&it->worker.its.raw, &place)
                      : felter_receiver_place(&it->worker.its.receiver, &place)) == FELTER_OK);
    return place;
}

/* A receiver was lapped by an intent that the transmitter had, and goes on with the record that was the latest. */
static void check_lap(struct listener *it, uint64_t before, uint64_t done, uint64_t begun, uint64_t lapped) {
    uint64_t place = place_of(it), from = 0, intent = 0, count = 0;
    CHECK(it->next < begun);
    CHECK((it->is_raw ? felter_raw_receiver_lap(&it->worker.its.raw, &from, &intent)
                      : felter_receiver_lap(&it->worker.its.receiver, &from, &intent)) == FELTER_OK);
    CHECK((it->is_raw ? felter_raw_lapped_count(&it->worker.its.raw, &count)
                      : felter_lapped_count(&it->worker.its.receiver, &count)) == FELTER_OK);
    CHECK(lapped == ++it->laps && count == lapped);
    /* (it may have passed padding first) */
    CHECK(from == before || from == board.places[it->next]);
    CHECK(intent >= from + board.capacity && intent >= written(done) && intent <= written(begun));
    number_at(intent, board.ends);
    uint64_t next = number_at(place, board.places);
    CHECK(next > it->next && next + 1 >= done && next < begun);
    it->next = next;
    it->all_laps++;
}

/* A message is the next one, and was whole at a moment of the call. */
static void check_message(struct listener *it, uint64_t done, int32_t type_id, size_t len, const uint8_t *body) {
    uint64_t number = it->next++;
    CHECK(type_id == type_of(number) && len == len_of(0, number, most()));
    CHECK(is_whole(number, written(done)));
    CHECK(place_of(it) == board.ends[number]);
    if (it->is_raw) {
        it->has_record = true;
        it->is_overwritten = false;
        it->record = number;
    } else {
        CHECK(is_message(body, 0, number, len));
        it->copies++;
    }
}

static void receive(struct listener *it) {
    uint8_t buffer[MAX_CAPACITY / 8];
    uint64_t before = place_of(it), done = atomic_load(&board.done), lapped = 0;
    int32_t type_id = 0;
    size_t len = 0;
    int32_t code = it->is_raw ? felter_receive_next(&it->worker.its.raw, &type_id, &len, &lapped)
                              : felter_receive(&it->worker.its.receiver, &type_id, &len, &lapped, buffer, most());
    uint64_t begun = atomic_load(&board.begun);
    if (code == FELTER_NO_MESSAGE) {
        CHECK(done <= it->next);
        sched_yield();
    } else if (code == FELTER_LAPPED) {
        check_lap(it, before, done, begun, lapped);
    } else {
        CHECK(code == FELTER_OK && it->next < begun);
        check_message(it, done, type_id, len, buffer);
    }
}

/* Mostly returns soon, and now and then only when a record is overwritten. */
static void hold(struct listener *it, uint64_t number) {
    stall(&it->worker.dice);
    if (pick(&it->worker.dice, 32)) return;
    while (is_whole(number, written(atomic_load(&board.begun))) && !atomic_load(&board.office.is_over)) sched_yield();
}

/* Copies the last record, perhaps twice, and validates the copies. */
static void look_at_record(struct listener *it) {
    uint8_t one[MAX_CAPACITY / 8], two[MAX_CAPACITY / 8];
    felter_raw_receiver *raw = &it->worker.its.raw;
    if (!it->has_record) {
        CHECK(felter_load_body(raw, one, sizeof one) == FELTER_NO_MESSAGE);
        CHECK(felter_validate(raw) == FELTER_NO_MESSAGE);
        return;
    }
    size_t len = len_of(0, it->record, most());
    bool is_twice = once_in(&it->worker.dice, 3);
    CHECK(felter_load_body(raw, one, len) == FELTER_OK);
    hold(it, it->record);
    if (is_twice) CHECK(felter_load_body(raw, two, sizeof two) == FELTER_OK);
    if (len) CHECK(felter_load_body(raw, two, len - 1) == FELTER_SHORT_BUFFER);
    uint64_t done = atomic_load(&board.done);
    int32_t code = felter_validate(raw);
    uint64_t begun = atomic_load(&board.begun);
    if (code == FELTER_OK) {
        CHECK(!it->is_overwritten && is_whole(it->record, written(done)));
        CHECK(is_message(one, 0, it->record, len) && (!is_twice || is_message(two, 0, it->record, len)));
        it->validated++;
    } else {
        CHECK(code == FELTER_LAPPED && !is_whole(it->record, written(begun)));
        it->is_overwritten = true;
    }
}

/* Uses a receiver that was made when `tag` messages had been transmitted: it begins with the last of them. */
static void listen_on(struct worker *worker) {
    struct listener *it = (struct listener *)worker;
    it->next = worker->tag ? worker->tag - 1 : 0;
    it->laps = 0;
    it->has_record = it->is_overwritten = false;
    CHECK(place_of(it) == (worker->tag ? board.places[it->next] : board.start));
    uint64_t tries = 1 + pick(&worker->dice, 1500);
    for (; tries && !atomic_load(&worker->office->is_over); tries--) {
        receive(it);
        if (it->is_raw && pick(&worker->dice, 4)) look_at_record(it);
        stall(&worker->dice);
    }
}

/* The transmitter -------------------------------------------------------------------------------------------------- */

static void take_back_receivers(struct listener *listeners) {
    for (int k = 0; k < LISTENERS; k++) {
        felter_receiver receiver = FELTER_EMPTY;
        felter_raw_receiver raw = FELTER_EMPTY;
        if (!take_back(&listeners[k].worker, listeners[k].is_raw ? &raw.handle : &receiver.handle)) continue;
        CHECK((listeners[k].is_raw ? felter_board_join_raw(&board.transmitter, &raw)
                                   : felter_board_join(&board.transmitter, &receiver)) == FELTER_OK);
        has_joined(&board.office);
    }
}

static void give_receivers(struct listener *listeners) {
    for (int k = 0; k < LISTENERS; k++) {
        felter_receiver receiver = FELTER_EMPTY;
        felter_raw_receiver raw = FELTER_EMPTY;
        if (!is_idle(&listeners[k].worker)) continue;
        CHECK((listeners[k].is_raw ? felter_subscribe_raw(&board.transmitter, &raw)
                                   : felter_subscribe(&board.transmitter, &receiver)) == FELTER_OK);
        give(&listeners[k].worker, listeners[k].is_raw ? &raw.handle : &receiver.handle, board.done);
    }
}

static void transmit_all(struct listener *listeners, uint64_t *dice) {
    uint8_t body[MAX_CAPACITY / 8];
    for (uint64_t number = 0; number < board.count; number++) {
        size_t len = len_of(0, number, most());
        if (number == 0 || once_in(dice, 16)) {
            take_back_receivers(listeners);
            give_receivers(listeners);
        }
        fill(body, 0, number, len);
        atomic_store(&board.begun, number + 1);
        CHECK(felter_transmit(&board.transmitter, type_of(number), body, len) == FELTER_OK);
        atomic_store(&board.done, number + 1);
        /* (at times all receivers come up to it) */
        if (once_in(dice, 4)) sched_yield();
        stall(dice);
    }
    if (board.count < MESSAGES) {
        size_t len = len_of(0, board.count, most());
        fill(body, 0, board.count, len);
        CHECK(felter_transmit(&board.transmitter, 1, body, len) == FELTER_POSITION_LIMIT);
    }
}

/* Closes the board while receivers are freed: it is refused as long as one of them is there. */
static void close_board(struct listener *listeners) {
    uint64_t tail = 0;
    for (;;) {
        take_back_receivers(listeners);
        bool may_refuse = !all_gone(&board.office);
        int32_t code = felter_board_close(&board.transmitter, &tail);
        if (code == FELTER_OK) break;
        CHECK(code == FELTER_RECEIVERS_OUT && may_refuse);
        sched_yield();
    }
    CHECK(all_leave(&board.office) && tail == written(board.count) && board.transmitter.handle.at == NULL);
}

void meet_at_board(uint64_t *dice) {
    static struct listener listeners[LISTENERS];
    memset(&board, 0, sizeof board);
    memset(listeners, 0, sizeof listeners);
    board.capacity = 256u << pick(dice, 5);
    uint64_t starts[] = {0, 0, 77 * (uint64_t)board.capacity, LAST - 64 * (uint64_t)board.capacity};
    board.start = starts[pick(dice, 4)];
    plan();
    CHECK((board.start ? felter_board_new_at(board.capacity, board.start, &board.transmitter)
                       : felter_board_new(board.capacity, &board.transmitter)) == FELTER_OK);
    for (int k = 0; k < LISTENERS; k++) {
        listeners[k].is_raw = k % 2;
        start(&listeners[k].worker, &board.office, pick(dice, UINT64_MAX), listen_on);
    }
    transmit_all(listeners, dice);
    atomic_store(&board.office.is_over, true);
    close_board(listeners);
    for (int k = 0; k < LISTENERS; k++) {
        pthread_join(listeners[k].worker.thread, NULL);
        totals.copies += listeners[k].copies;
        totals.validated += listeners[k].validated;
        totals.laps += listeners[k].all_laps;
    }
    CHECK(all_gone(&board.office));
}
