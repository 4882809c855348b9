/* Random calls of broadcast buffers, their receivers and their raw receivers. */
#include "calls.h"

#define BOARDS 2
#define RECEIVERS 4

struct seat {
    bool is_there, is_raw, has_record;
    felter_receiver receiver;
    felter_raw_receiver raw;
    struct model_receiver model;
    struct record record; /* the last one of a raw receiver */
};

struct board {
    bool is_there, has_transmitter;
    uint32_t shares;
    felter_transmitter transmitter;
    struct model_board model;
    struct seat seats[RECEIVERS];
};

static struct board boards[BOARDS];

static void look_whether_gone(struct board *board) {
    bool is_there = board->has_transmitter;
    for (int k = 0; k < RECEIVERS; k++) is_there |= board->seats[k].is_there;
    board->is_there = is_there;
}

/* Makes a broadcast buffer in memory that is passed. */
static int32_t make_in(struct board *board, int32_t wanted, uint32_t capacity) {
    size_t needed = 4096;
    CALL(wanted, felter_board_memory(capacity, &needed));
    CHECK(needed == (wanted ? 4096 : 256 + (size_t)capacity));
    struct lent in = lend_memory(BOARD_MEMORY + (int)(board - boards), needed);
    if (wanted == FELTER_OK || !in.at) wanted = in.code;
    felter_transmitter *to = &board->transmitter;
    int32_t code = once_in(2)
        ? CALL(wanted, felter_board_new_in_numbered(some_number(), in.at, in.length, capacity, to))
        : CALL(wanted, felter_board_new_in(in.at, in.length, capacity, to));
    check_memory(&in, code);
    return code;
}

static void make(struct board *board) {
    bool is_in = once_in(3), is_at = !is_in && once_in(2);
    uint32_t capacity = (uint32_t)ONE_OF(256, 256, 512, 1024, 8192, 16384, 0, 128, 300);
    uint64_t start = is_at ? some_start(capacity) : 0;
    int32_t wanted = model_capacity(capacity, 256, start);
    felter_transmitter *to = &board->transmitter;
    int32_t code = is_in ? make_in(board, wanted, capacity)
        : once_in(3)     ? is_at ? CALL(wanted, felter_board_new_at_numbered(some_number(), capacity, start, to))
                                      : CALL(wanted, felter_board_new_numbered(some_number(), capacity, to))
        : is_at               ? CALL(wanted, felter_board_new_at(capacity, start, to))
                              : CALL(wanted, felter_board_new(capacity, to));
    CHECK((code == FELTER_OK) == (board->transmitter.handle.at != NULL));
    if (code) return;
    board->is_there = board->has_transmitter = true;
    board->shares = ALL_SHARES;
    model_board_open(&board->model, capacity, start);
    CALL(FELTER_HANDLE_IN_USE, felter_board_new(256, &board->transmitter));
}

static void transmit(struct board *board) {
    uint32_t most = board->model.records.capacity / 8;
    size_t len = (size_t)ONE_OF(0, 1, 8, pick(most + 1), pick(most + 1), most, most + 1);
    int32_t type_id = once_in(30) ? -(int32_t)pick(3) : (int32_t)ONE_OF(1, 7, INT32_MAX);
    uint8_t *body = input(len);
    int32_t wanted = type_id < 1 ? FELTER_BAD_TYPE : len > most ? FELTER_TOO_LONG : FELTER_OK;
    if (wanted == FELTER_OK) wanted = model_transmit(&board->model, type_id, body, len);
    CALL(wanted, felter_transmit(&board->transmitter, type_id, len || once_in(2) ? body : NULL, len));
}

static void subscribe(struct board *board) {
    struct seat *seat = &board->seats[pick(RECEIVERS)];
    bool is_raw = once_in(2);
    if (seat->is_there) {
        if (seat->is_raw) CALL(FELTER_HANDLE_IN_USE, felter_subscribe_raw(&board->transmitter, &seat->raw));
        else CALL(FELTER_HANDLE_IN_USE, felter_subscribe(&board->transmitter, &seat->receiver));
        return;
    }
    if (is_raw ? CALL(FELTER_OK, felter_subscribe_raw(&board->transmitter, &seat->raw))
               : CALL(FELTER_OK, felter_subscribe(&board->transmitter, &seat->receiver)))
        return;
    seat->is_there = true;
    seat->is_raw = is_raw;
    seat->has_record = false;
    seat->model = (struct model_receiver){board->model.latest, 0, 0, 0};
    board->shares--;
}

static void receive(struct board *board, struct seat *seat) {
    size_t most = board->model.records.capacity / 8, len = UNTOUCHED;
    size_t room = (size_t)ONE_OF(most, most, most, most + 9, most - 1, 0);
    int32_t type_id = UNTOUCHED;
    uint64_t lapped = UNTOUCHED;
    uint8_t *buffer = output(room);
    struct record *record = NULL;
    int32_t wanted = room < most ? FELTER_SHORT_BUFFER : model_receive(&board->model, &seat->model, &record);
    int32_t code = CALL(wanted, felter_receive(&seat->receiver, &type_id, &len, &lapped, buffer, room));
    if (code == FELTER_SHORT_BUFFER) CHECK(len == most);
    if (code == FELTER_LAPPED) CHECK(lapped == seat->model.lapped);
    if (code != FELTER_OK) return;
    CHECK(type_id == record->type_id && len == record->len);
    CHECK(!len || memcmp(buffer, model_body(&board->model.records, record), len) == 0);
    for (size_t k = len; k < room; k++) CHECK(buffer[k] == 0xa5);
}

static void receive_next(struct board *board, struct seat *seat) {
    size_t len = UNTOUCHED;
    int32_t type_id = UNTOUCHED;
    uint64_t lapped = UNTOUCHED;
    struct record *record = NULL;
    int32_t wanted = model_receive(&board->model, &seat->model, &record);
    int32_t code = CALL(wanted, felter_receive_next(&seat->raw, &type_id, &len, &lapped));
    if (code == FELTER_LAPPED) CHECK(lapped == seat->model.lapped);
    if (code != FELTER_OK) return;
    CHECK(type_id == record->type_id && len == record->len);
    seat->has_record = true;
    seat->record = *record;
}

static void look_at_record(struct board *board, struct seat *seat) {
    size_t len = seat->record.len, room = (size_t)ONE_OF(len, len + 3, len ? len - 1 : 0);
    uint8_t *buffer = output(room);
    bool is_whole = model_is_whole(&board->model, seat->record.place);
    int32_t wanted = !seat->has_record ? FELTER_NO_MESSAGE : room < len ? FELTER_SHORT_BUFFER : FELTER_OK;
    int32_t code = CALL(wanted, felter_load_body(&seat->raw, buffer, room));
    wanted = !seat->has_record ? FELTER_NO_MESSAGE : is_whole ? FELTER_OK : FELTER_LAPPED;
    CALL(wanted, felter_validate(&seat->raw));
    if (code || !is_whole) return;
    CHECK(!len || memcmp(buffer, model_body(&board->model.records, &seat->record), len) == 0);
    for (size_t k = len; k < room; k++) CHECK(buffer[k] == 0xa5);
}

static void look_at_laps(struct seat *seat) {
    uint64_t count = UNTOUCHED;
    int32_t code = seat->is_raw ? CALL(FELTER_OK, felter_raw_lapped_count(&seat->raw, &count))
                                : CALL(FELTER_OK, felter_lapped_count(&seat->receiver, &count));
    if (code == FELTER_OK) CHECK(count == seat->model.lapped);
}

/* Where a receiver is, and how it was lapped last. */
static void look_at_place(struct board *board, struct seat *seat) {
    uint64_t place = UNTOUCHED, from = UNTOUCHED, intent = UNTOUCHED;
    int32_t code = seat->is_raw ? CALL(FELTER_OK, felter_raw_receiver_place(&seat->raw, &place))
                                : CALL(FELTER_OK, felter_receiver_place(&seat->receiver, &place));
    if (code == FELTER_OK) CHECK(place == seat->model.place);
    int32_t wanted = seat->model.lapped ? FELTER_OK : FELTER_NO_MESSAGE;
    code = seat->is_raw ? CALL(wanted, felter_raw_receiver_lap(&seat->raw, &from, &intent))
                        : CALL(wanted, felter_receiver_lap(&seat->receiver, &from, &intent));
    if (code) CHECK(from == UNTOUCHED && intent == UNTOUCHED);
    else CHECK(from == seat->model.lap_place && intent == seat->model.lap_intent);
    look_at_sizes(seat->is_raw ? &seat->raw.handle : &seat->receiver.handle, board->model.records.capacity);
}

static void join(struct board *board, struct seat *seat) {
    struct board *of = once_in(4) ? &boards[pick(BOARDS)] : board;
    if (!of->has_transmitter) return;
    int32_t wanted = of == board ? FELTER_OK : FELTER_OTHER_RING;
    if (seat->is_raw ? CALL(wanted, felter_board_join_raw(&of->transmitter, &seat->raw))
                     : CALL(wanted, felter_board_join(&of->transmitter, &seat->receiver)))
        return;
    CHECK((seat->is_raw ? seat->raw.handle.at : seat->receiver.handle.at) == NULL);
    seat->is_there = false;
    board->shares++;
}

static void free_seat(struct board *board, struct seat *seat) {
    felter_handle *handle = seat->is_raw ? &seat->raw.handle : &seat->receiver.handle;
    CALL(FELTER_OK, (felter_free(handle), FELTER_OK));
    CHECK(handle->at == NULL);
    seat->is_there = false;
    look_whether_gone(board);
}

static void close_board(struct board *board) {
    uint64_t tail = UNTOUCHED;
    int32_t wanted = FELTER_OK;
    for (int k = 0; k < RECEIVERS; k++)
        if (board->seats[k].is_there) wanted = FELTER_RECEIVERS_OUT;
    if (CALL(wanted, felter_board_close(&board->transmitter, &tail))) return;
    CHECK(board->transmitter.handle.at == NULL && tail == board->model.records.tail);
    board->has_transmitter = false;
    look_whether_gone(board);
}

static void free_transmitter(struct board *board) {
    CALL(FELTER_OK, (felter_free(&board->transmitter.handle), FELTER_OK));
    CHECK(board->transmitter.handle.at == NULL);
    board->has_transmitter = false;
    look_whether_gone(board);
}

void board_step(void) {
    struct board *board = &boards[pick(BOARDS)];
    struct seat *seat = &board->seats[pick(RECEIVERS)];
    if (!board->is_there) {
        make(board);
        return;
    }
    if (board->has_transmitter) switch (pick(12)) {
        case 0: case 1: case 2: case 3: case 4: transmit(board); break;
        case 5: case 6: subscribe(board); break;
        case 7: if (once_in(8)) close_board(board); break;
        case 9: look_at_sizes(&board->transmitter.handle, board->model.records.capacity); break;
        case 8: if (once_in(40)) free_transmitter(board); break;
        default: break;
        }
    if (seat->is_there) switch (pick(12)) {
        case 0: case 1: case 2: case 3: case 4: case 5:
            if (seat->is_raw) receive_next(board, seat);
            else receive(board, seat);
            break;
        case 6: case 7: if (seat->is_raw) look_at_record(board, seat); break;
        case 8: look_at_laps(seat); break;
        case 11: look_at_place(board, seat); break;
        case 9: if (once_in(3)) join(board, seat); break;
        case 10: if (once_in(20)) free_seat(board, seat); break;
        default: break;
        }
}

void board_end(void) {
    for (int k = 0; k < BOARDS; k++) {
        if (boards[k].has_transmitter && once_in(2)) free_transmitter(&boards[k]);
        for (int at = 0; at < RECEIVERS; at++)
            if (boards[k].seats[at].is_there) free_seat(&boards[k], &boards[k].seats[at]);
        if (boards[k].has_transmitter) free_transmitter(&boards[k]);
    }
}
