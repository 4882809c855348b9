/* What must have happened at a conductor: the commands are applied one after another, as MODEL.md says. */
#include "meetings_house.h"

static struct model_counters model;
static struct story values;                /* what the commands wrote */
static uint64_t written[ALL_COMMANDS + 1]; /* how many values the first commands wrote */

/* Applies one command: the kind of its reply, and its number. */
static int32_t apply(const struct command *it, const struct reply *reply, int64_t *number) {
    struct description of = {1, command_bytes, command_bytes, it->key_len, it->label_len, reply->id, it->owner};
    uint32_t id = it->counter;
    int32_t code;
    *number = 0;
    if (it->kind == ALLOCATE) {
        code = model_allocate(&model, reply->now, &of, &id);
        *number = id;
        if (code == FELTER_OK) will_write(&values, id, 0);
        if (code == FELTER_OK) return FELTER_REPLY_ALLOCATED;
    } else if (it->kind == CLOSE) {
        code = it->owner ? FELTER_OK : FELTER_BAD_OWNER;
        if (code == FELTER_OK) *number = model_close_owner(&model, reply->now, it->owner);
        if (code == FELTER_OK) return FELTER_REPLY_CLOSED;
    } else {
        code = model_used(&model, id);
        if (code == FELTER_OK && it->kind == FREE) model_free(&model, reply->now, id);
        if (code == FELTER_OK && it->kind == SET) {
            model.of[id].value = it->value;
            will_write(&values, id, (uint64_t)it->value);
        }
        if (code == FELTER_OK) return FELTER_REPLY_DONE;
    }
    *number = code;
    return FELTER_REPLY_REFUSED;
}

/* Each command has one reply, in the order in which its client sent it, and the reply is what the model gives. */
static void check_replies(void) {
    uint32_t turns[CALLERS] = {0};
    for (uint64_t k = 0; k < house.applied; k++) {
        const struct reply *reply = &house.order[k];
        uint32_t place = house.places[reply->id];
        CHECK(place && "a reply is to a command that was sent");
        struct command *command = &house.commands[place - 1];
        CHECK(command->turn == turns[command->caller]++);
        int64_t number;
        int32_t kind = apply(command, reply, &number);
        CHECK(reply->kind == kind && reply->number == number);
        CHECK(!command->is_known || (command->reply == kind && command->number == number));
        command->position = k;
        written[k + 1] = atomic_load(&values.begun);
    }
    for (int k = 0; k < CALLERS; k++) CHECK(turns[k] == house.callers[k].sent);
}

/* The values that a reader loaded are those after the first commands, of which there are never fewer than before. */
static void check_loads(const struct watcher *watcher) {
    struct view view = {0};
    for (uint64_t k = 0; k < watcher->count; k++) {
        const struct load *load = &watcher->loads[k];
        uint64_t may = load->may < house.applied ? load->may : house.applied;
        atomic_store(&values.begun, written[may]);
        check_load(&values, &view, written[load->done], load->word, (uint64_t)load->value);
    }
}

/* The copies of a receiver are replies that follow one another, from the last one before it was made on. */
static void check_copies(const struct listener *listener) {
    const struct copy *last = NULL;
    uint64_t before = 0;
    for (uint64_t k = 0; k < listener->count; k++) {
        const struct copy *copy = &listener->copies[k];
        CHECK(copy->reply.id < MAX_IDS && house.is_replied[copy->reply.id]);
        uint64_t at = house.commands[house.places[copy->reply.id] - 1].position;
        CHECK(copy->reply.kind == house.order[at].kind && copy->reply.number == house.order[at].number);
        uint64_t first = copy->made ? copy->made - 1 : 0;
        if (!last || last->session != copy->session) CHECK(copy->laps ? at >= first : at == first);
        else CHECK(copy->laps == last->laps ? at == before + 1 : at > before);
        last = copy;
        before = at;
    }
}

void check_house(void) {
    memset(&values, 0, sizeof values);
    model_counters_open(&model, house.counters, house.reuse_ms);
    check_replies();
    for (uint32_t id = 0; id < house.counters; id++) {
        CHECK(house.codes[id] == model_used(&model, id));
        CHECK(house.codes[id] || house.values[id] == model.of[id].value);
    }
    for (int k = 0; k < WATCHERS; k++) {
        check_loads(&house.watchers[k]);
        totals.values += house.watchers[k].count;
    }
    check_copies(&house.listener);
    for (int k = 0; k < CALLERS; k++) {
        totals.replies += house.callers[k].replies;
        totals.laps += house.callers[k].all_laps;
    }
    totals.laps += house.listener.all_laps;
    totals.copies += house.listener.count;
    totals.commands += house.applied;
}
