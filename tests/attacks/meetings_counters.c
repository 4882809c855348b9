/* The owner of counters and readers of their values, which are made, used, given back and freed while it goes on. What
 * each call of the owner does follows from the model, and what readers load from "Counters" in MODEL.md. */
#include "meetings.h"

#define WATCHERS 3
#define STEPS 20000
#define OWNERS 3

static struct {
    felter_counters counters;
    struct model_counters model;
    struct story story;
    struct office office;
    uint64_t now;
} its;

struct watcher {
    struct worker worker;
    struct view view;
    uint64_t loads;
};

/* Readers ---------------------------------------------------------------------------------------------------------- */

static void watch(struct worker *worker) {
    struct watcher *it = (struct watcher *)worker;
    uint64_t tries = 1 + pick(&worker->dice, 4000);
    for (; tries && !atomic_load(&worker->office->is_over); tries--) {
        uint32_t id = (uint32_t)pick(&worker->dice, its.model.count);
        uint64_t done = atomic_load(&its.story.done);
        int64_t value = 0;
        CHECK(felter_reader_value(&worker->its.reader, id, &value) == FELTER_OK);
        check_load(&its.story, &it->view, done, id, (uint64_t)value);
        it->loads++;
        stall(&worker->dice);
    }
}

/* The owner -------------------------------------------------------------------------------------------------------- */

/* Values that are written once, and values that are written again and again. */
static int64_t some_value(uint64_t *dice) {
    return once_in(dice, 3) ? (int64_t)pick(dice, 3) : (int64_t)pick(dice, UINT64_MAX);
}

static void allocate(uint64_t *dice) {
    struct description of = {1, NULL, NULL, 0, 0, pick(dice, 9), once_in(dice, 2) ? 1 + pick(dice, OWNERS) : 0};
    uint32_t id = 0, its_id = 0;
    int32_t wanted = model_allocate(&its.model, its.now, &of, &id);
    if (wanted == FELTER_OK) will_write(&its.story, id, 0);
    int32_t code = of.owner
        ? felter_counter_allocate_owned(&its.counters, its.now, 1, NULL, 0, NULL, 0, of.registration, of.owner, &its_id)
        : felter_counter_allocate(&its.counters, its.now, 1, NULL, 0, NULL, 0, of.registration, &its_id);
    CHECK(code == wanted && (code || its_id == id));
}

static void free_some(uint64_t *dice) {
    uint32_t id = (uint32_t)pick(dice, its.model.count), freed = 0;
    if (once_in(dice, 4)) {
        uint64_t owner = 1 + pick(dice, OWNERS);
        uint32_t wanted = model_close_owner(&its.model, its.now, owner);
        CHECK(felter_counters_close_owner(&its.counters, its.now, owner, &freed) == FELTER_OK && freed == wanted);
        return;
    }
    int32_t wanted = model_used(&its.model, id);
    if (wanted == FELTER_OK) model_free(&its.model, its.now, id);
    CHECK(felter_counter_free(&its.counters, its.now, id) == wanted);
}

/* Says that a value is written, unless the call is refused. */
static int32_t will_be(uint32_t id, int64_t value) {
    int32_t code = model_used(&its.model, id);
    if (code) return code;
    its.model.of[id].value = value;
    will_write(&its.story, id, (uint64_t)value);
    return FELTER_OK;
}

static void write_value(uint64_t *dice) {
    uint32_t id = (uint32_t)pick(dice, its.model.count), raised = 0;
    int64_t was = its.model.of[id].value, value = some_value(dice), before = 0;
    int32_t wanted;
    switch (pick(dice, 3)) {
    case 0:
        wanted = will_be(id, value);
        CHECK(felter_counter_set(&its.counters, id, value) == wanted);
        break;
    case 1:
        wanted = will_be(id, (int64_t)((uint64_t)was + (uint64_t)value));
        CHECK(felter_counter_add(&its.counters, id, value, &before) == wanted);
        CHECK(wanted || before == was);
        break;
    default:
        wanted = was < value ? will_be(id, value) : model_used(&its.model, id);
        CHECK(felter_counter_propose_max(&its.counters, id, value, &raised) == wanted);
        CHECK(wanted || raised == (was < value));
    }
}

/* Writes a value and gets the one before, or writes it if the one before is as expected. */
static void exchange_value(uint64_t *dice) {
    uint32_t id = (uint32_t)pick(dice, its.model.count), was_set = 0;
    int64_t was = its.model.of[id].value, value = some_value(dice), before = 0;
    int64_t expected = once_in(dice, 2) ? was : some_value(dice);
    int32_t wanted;
    switch (pick(dice, 4)) {
    case 0:
        wanted = will_be(id, (int64_t)((uint64_t)was + 1));
        CHECK(felter_counter_increment(&its.counters, id, &before) == wanted);
        CHECK(wanted || before == was);
        break;
    case 1:
        wanted = will_be(id, (int64_t)((uint64_t)was - 1));
        CHECK(felter_counter_decrement(&its.counters, id, &before) == wanted);
        CHECK(wanted || before == was);
        break;
    case 2:
        wanted = will_be(id, value);
        CHECK(felter_counter_get_and_set(&its.counters, id, value, &before) == wanted);
        CHECK(wanted || before == was);
        break;
    default:
        wanted = expected == was ? will_be(id, value) : model_used(&its.model, id);
        CHECK(felter_counter_compare_and_set(&its.counters, id, expected, value, &was_set) == wanted);
        CHECK(wanted || was_set == (expected == was));
    }
}

static void look_at_value(uint64_t *dice) {
    uint32_t id = (uint32_t)pick(dice, its.model.count);
    int32_t wanted = model_used(&its.model, id);
    int64_t value = 0;
    CHECK(felter_counter_value(&its.counters, id, &value) == wanted && (wanted || value == its.model.of[id].value));
}

static void attend(struct watcher *watchers) {
    for (int k = 0; k < WATCHERS; k++) {
        felter_reader reader = FELTER_EMPTY;
        if (take_back(&watchers[k].worker, &reader.handle)) {
            CHECK(felter_counters_join(&its.counters, &reader) == FELTER_OK);
            has_joined(&its.office);
        }
        if (!is_idle(&watchers[k].worker) || atomic_load(&its.office.is_over)) continue;
        CHECK(felter_counters_reader(&its.counters, &reader) == FELTER_OK);
        give(&watchers[k].worker, &reader.handle, 0);
    }
}

static void own(struct watcher *watchers, uint64_t *dice) {
    for (int step = 0; step < STEPS && !is_full(&its.story); step++) {
        uint64_t way = pick(dice, 16);
        if (step % 32 == 0) attend(watchers);
        if (once_in(dice, 8)) its.now += pick(dice, 20);
        if (way < 3) allocate(dice);
        else if (way < 5) free_some(dice);
        else if (way < 11) write_value(dice);
        else if (way < 15) exchange_value(dice);
        else look_at_value(dice);
        has_written(&its.story);
        stall(dice);
    }
}

void meet_at_counters(uint64_t *dice) {
    static struct watcher watchers[WATCHERS];
    memset(&its, 0, sizeof its);
    memset(watchers, 0, sizeof watchers);
    uint32_t count = 1 + (uint32_t)pick(dice, WORDS), reuse_ms = (uint32_t)pick(dice, 3) * 25;
    model_counters_open(&its.model, count, reuse_ms);
    CHECK(felter_counters_new(count, reuse_ms, &its.counters) == FELTER_OK);
    for (int k = 0; k < WATCHERS; k++) start(&watchers[k].worker, &its.office, pick(dice, UINT64_MAX), watch);
    own(watchers, dice);
    atomic_store(&its.office.is_over, true);
    /* (the counters live as long as a reader does) */
    if (once_in(dice, 2)) felter_free(&its.counters.handle);
    for (int k = 0; k < WATCHERS; k++) pthread_join(watchers[k].worker.thread, NULL);
    if (its.counters.handle.at) attend(watchers);
    for (int k = 0; k < WATCHERS; k++) {
        felter_reader reader = FELTER_EMPTY;
        if (take_back(&watchers[k].worker, &reader.handle)) felter_free(&reader.handle);
        totals.values += watchers[k].loads;
    }
    totals.writes += atomic_load(&its.story.done);
    felter_free(&its.counters.handle);
}
