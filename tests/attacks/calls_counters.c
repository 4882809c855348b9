/* Random calls of counters and of readers of their values. */
#include "calls.h"

#define SETS 2
#define READERS 3

struct counters {
    bool is_there, has_owner, has_reader[READERS];
    felter_counters counters;
    felter_reader readers[READERS];
    struct model_counters model;
};

static struct counters sets[SETS];

static void look_whether_gone(struct counters *set) {
    bool is_there = set->has_owner;
    for (int k = 0; k < READERS; k++) is_there |= set->has_reader[k];
    set->is_there = is_there;
}

/* Makes counters in memory that is passed. */
static int32_t make_in(struct counters *set, int32_t wanted, uint32_t count, uint32_t reuse_ms) {
    size_t needed = 4096;
    CALL(wanted, felter_counters_memory(count, &needed));
    CHECK(needed == (wanted ? 4096 : 128 + (24 * (size_t)count + 63) / 64 * 64 + 512 * (size_t)count));
    struct lent in = lend_memory(COUNTER_MEMORY + (int)(set - sets), needed);
    if (wanted == FELTER_OK || !in.at) wanted = in.code;
    int32_t code = once_in(2)
        ? CALL(wanted, felter_counters_new_in_numbered(some_number(), in.at, in.length, count, reuse_ms,
                                                       &set->counters))
        : CALL(wanted, felter_counters_new_in(in.at, in.length, count, reuse_ms, &set->counters));
    check_memory(&in, code);
    return code;
}

static void make(struct counters *set) {
    uint32_t count = (uint32_t)ONE_OF(1, 2, 5, MAX_COUNTERS, MAX_COUNTERS, 0, 4097);
    uint32_t reuse_ms = (uint32_t)ONE_OF(0, 1, 50, UINT32_MAX);
    int32_t wanted = count < 1 || count > 4096 ? FELTER_BAD_COUNT : FELTER_OK;
    int32_t code = once_in(3) ? make_in(set, wanted, count, reuse_ms)
        : once_in(3)          ? CALL(wanted, felter_counters_new_numbered(some_number(), count, reuse_ms, &set->counters))
                              : CALL(wanted, felter_counters_new(count, reuse_ms, &set->counters));
    CHECK((code == FELTER_OK) == (set->counters.handle.at != NULL));
    if (code) return;
    set->is_there = set->has_owner = true;
    model_counters_open(&set->model, count, reuse_ms);
    CALL(FELTER_HANDLE_IN_USE, felter_counters_new(1, 0, &set->counters));
}

static uint64_t some_moment(void) {
    return ONE_OF(0, pick(200), pick(200), 100, LAST, LAST + 1);
}

static uint32_t some_id(const struct counters *set) {
    return once_in(20) ? (uint32_t)ONE_OF(set->model.count, UINT32_MAX) : (uint32_t)pick(set->model.count);
}

static void allocate(struct counters *set) {
    struct description of = {(int32_t)ONE_OF(1, 2, 0, -5), NULL, NULL, (uint32_t)ONE_OF(0, 1, 8, MAX_KEY, MAX_KEY + 1),
                             (uint32_t)ONE_OF(0, 1, 3, 4, 5, 12, MAX_LABEL, MAX_LABEL + 1), pick(3), pick(4)};
    uint64_t now = ONE_OF(0, pick(200), 100, LAST, UINT64_MAX);
    uint8_t *label = input(of.label_len);
    for (uint32_t k = 0; k < of.label_len; k++) label[k] &= once_in(5000) ? 0xff : 0x7f;
    of.label = label;
    of.key = input(of.key_len);
    uint32_t id = UNTOUCHED, its = 0;
    struct model_counters before = set->model;
    bool is_owned = once_in(2);
    if (!is_owned) of.owner = 0;
    int32_t wanted = model_allocate(&set->model, now, &of, &its);
    int32_t code = is_owned
        ? CALL(wanted, felter_counter_allocate_owned(&set->counters, now, of.type_id, of.key, of.key_len, of.label,
                                                     of.label_len, of.registration, of.owner, &id))
        : CALL(wanted, felter_counter_allocate(&set->counters, now, of.type_id, of.key, of.key_len, of.label,
                                               of.label_len, of.registration, &id));
    if (code) {
        CHECK(id == UNTOUCHED);
        set->model = before;
    } else {
        CHECK(id == its);
    }
}

static void free_one(struct counters *set) {
    uint32_t id = some_id(set);
    uint64_t now = some_moment();
    int32_t wanted = now > LAST ? FELTER_BAD_MOMENT : model_used(&set->model, id);
    if (CALL(wanted, felter_counter_free(&set->counters, now, id)) == FELTER_OK) model_free(&set->model, now, id);
}

static int64_t some_value(void) {
    return (int64_t)ONE_OF(0, 1, pick(1000), UINT64_MAX, INT64_MAX, (uint64_t)INT64_MIN);
}

/* Changes a value by one of the calls that write what it was. */
static void change(struct counters *set) {
    uint32_t id = some_id(set);
    int64_t value = some_value(), before = UNTOUCHED, sum;
    int32_t wanted = model_used(&set->model, id), code;
    int64_t was = set->model.of[id % MAX_COUNTERS].value;
    switch (pick(4)) {
    case 0:
        sum = (int64_t)((uint64_t)was + (uint64_t)value);
        code = CALL(wanted, felter_counter_add(&set->counters, id, value, &before));
        break;
    case 1:
        sum = (int64_t)((uint64_t)was + 1);
        code = CALL(wanted, felter_counter_increment(&set->counters, id, &before));
        break;
    case 2:
        sum = (int64_t)((uint64_t)was - 1);
        code = CALL(wanted, felter_counter_decrement(&set->counters, id, &before));
        break;
    default:
        sum = value;
        code = CALL(wanted, felter_counter_get_and_set(&set->counters, id, value, &before));
    }
    CHECK(before == (code ? UNTOUCHED : was));
    if (code == FELTER_OK) set->model.of[id].value = sum;
}

static void set_value(struct counters *set) {
    uint32_t id = some_id(set);
    int64_t value = some_value();
    if (CALL(model_used(&set->model, id), felter_counter_set(&set->counters, id, value)) == FELTER_OK)
        set->model.of[id].value = value;
}

static void compare_value(struct counters *set) {
    uint32_t id = some_id(set), was_set = UNTOUCHED;
    int64_t was = set->model.of[id % MAX_COUNTERS].value, expected = once_in(2) ? was : some_value();
    int64_t value = some_value();
    int32_t code = CALL(model_used(&set->model, id),
                        felter_counter_compare_and_set(&set->counters, id, expected, value, &was_set));
    if (code) {
        CHECK(was_set == UNTOUCHED);
        return;
    }
    CHECK(was_set == (was == expected));
    if (was_set) set->model.of[id].value = value;
}

static void raise_value(struct counters *set) {
    uint32_t id = some_id(set), raised = UNTOUCHED;
    int64_t value = some_value();
    int32_t code = CALL(model_used(&set->model, id), felter_counter_propose_max(&set->counters, id, value, &raised));
    if (code) {
        CHECK(raised == UNTOUCHED);
        return;
    }
    CHECK(raised == (set->model.of[id].value < value));
    if (raised) set->model.of[id].value = value;
}

/* Of each record, also of one that is not in use. */
static void look_at_state(struct counters *set) {
    uint32_t id = some_id(set);
    uint64_t deadline = UNTOUCHED;
    int32_t state = UNTOUCHED, wanted = id < set->model.count ? FELTER_OK : FELTER_BAD_ID;
    int32_t code = CALL(wanted, felter_counter_state(&set->counters, id, &state));
    CHECK(state == (code ? UNTOUCHED : model_state(&set->model, id)));
    code = CALL(wanted, felter_counter_deadline(&set->counters, id, &deadline));
    CHECK(deadline == (code ? UNTOUCHED : model_deadline(&set->model, id)));
}

static void look_at_numbers(struct counters *set) {
    uint32_t count = UNTOUCHED, available = UNTOUCHED;
    uint64_t now = some_moment();
    int32_t code = CALL(FELTER_OK, felter_counters_count(&set->counters, &count));
    CHECK(code || count == set->model.count);
    code = CALL(FELTER_OK, felter_counters_available(&set->counters, now, &available));
    CHECK(code || available == model_available(&set->model, now));
}

static void look_at_texts(struct counters *set, uint32_t id, int32_t wanted) {
    const struct model_counter *its = &set->model.of[id % MAX_COUNTERS];
    size_t room = (size_t)ONE_OF(MAX_LABEL, its->label_len, its->label_len ? its->label_len - 1 : 0), len = UNTOUCHED;
    uint8_t *buffer = output(room);
    int32_t code = CALL(wanted ? wanted : room < its->label_len ? FELTER_SHORT_BUFFER : FELTER_OK,
                        felter_counter_label(&set->counters, id, &len, buffer, room));
    if (code == FELTER_OK || code == FELTER_SHORT_BUFFER) CHECK(len == its->label_len);
    if (code == FELTER_OK) CHECK(!len || memcmp(buffer, its->label, len) == 0);
    room = (size_t)ONE_OF(MAX_KEY, MAX_KEY, MAX_KEY - 1, 0);
    buffer = output(room);
    if (CALL(wanted ? wanted : room < MAX_KEY ? FELTER_SHORT_BUFFER : FELTER_OK,
             felter_counter_key(&set->counters, id, buffer, room)) == FELTER_OK)
        CHECK(memcmp(buffer, its->key, MAX_KEY) == 0);
}

static void look_at(struct counters *set) {
    uint32_t id = some_id(set);
    const struct model_counter *its = &set->model.of[id % MAX_COUNTERS];
    int32_t wanted = model_used(&set->model, id), type_id = UNTOUCHED;
    int64_t value = UNTOUCHED;
    uint64_t registration = UNTOUCHED, owner = UNTOUCHED;
    int32_t code = CALL(wanted, felter_counter_value(&set->counters, id, &value));
    CHECK(value == (code ? UNTOUCHED : its->value));
    code = CALL(wanted, felter_counter_type_id(&set->counters, id, &type_id));
    CHECK(type_id == (code ? UNTOUCHED : its->type_id));
    code = CALL(wanted, felter_counter_registration(&set->counters, id, &registration));
    CHECK(registration == (code ? UNTOUCHED : its->registration));
    code = CALL(wanted, felter_counter_owner(&set->counters, id, &owner));
    CHECK(owner == (code ? UNTOUCHED : its->owner));
    look_at_texts(set, id, wanted);
}

static void find(struct counters *set) {
    int32_t type_id = (int32_t)ONE_OF(1, 2, 0, -5);
    uint64_t registration = pick(3);
    uint32_t id = UNTOUCHED, its = 0;
    for (; its < set->model.count; its++) {
        const struct model_counter *counter = &set->model.of[its];
        if (counter->is_used && counter->type_id == type_id && counter->registration == registration) break;
    }
    int32_t wanted = its < set->model.count ? FELTER_OK : FELTER_NOT_ALLOCATED;
    int32_t code = CALL(wanted, felter_counter_find(&set->counters, type_id, registration, &id));
    CHECK(id == (code ? UNTOUCHED : its));
}

static void close_owner(struct counters *set) {
    uint64_t owner = pick(4), now = some_moment();
    uint32_t freed = UNTOUCHED;
    int32_t wanted = owner == 0 ? FELTER_BAD_OWNER : now > LAST ? FELTER_BAD_MOMENT : FELTER_OK;
    if (owner == 0 && now > LAST) return; /* (either may come) */
    if (CALL(wanted, felter_counters_close_owner(&set->counters, now, owner, &freed)) == FELTER_OK)
        CHECK(freed == model_close_owner(&set->model, now, owner));
}

static void read_value(struct counters *set, int k) {
    uint32_t id = some_id(set);
    int64_t value = UNTOUCHED;
    int32_t wanted = id < set->model.count ? FELTER_OK : FELTER_BAD_ID;
    int32_t code = CALL(wanted, felter_reader_value(&set->readers[k], id, &value));
    CHECK(value == (code ? UNTOUCHED : set->model.of[id].value));
}

static void lend(struct counters *set) {
    int k = (int)pick(READERS);
    int32_t wanted = set->has_reader[k] ? FELTER_HANDLE_IN_USE : FELTER_OK;
    if (CALL(wanted, felter_counters_reader(&set->counters, &set->readers[k])) == FELTER_OK) set->has_reader[k] = true;
}

static void join(struct counters *set, int k) {
    struct counters *of = once_in(4) ? &sets[pick(SETS)] : set;
    if (!of->has_owner) return;
    int32_t wanted = of == set ? FELTER_OK : FELTER_OTHER_RING;
    if (CALL(wanted, felter_counters_join(&of->counters, &set->readers[k]))) return;
    CHECK(set->readers[k].handle.at == NULL);
    set->has_reader[k] = false;
    look_whether_gone(set);
}

static void free_reader(struct counters *set, int k) {
    CALL(FELTER_OK, (felter_free(&set->readers[k].handle), FELTER_OK));
    set->has_reader[k] = false;
    look_whether_gone(set);
}

static void free_owner(struct counters *set) {
    CALL(FELTER_OK, (felter_free(&set->counters.handle), FELTER_OK));
    set->has_owner = false;
    look_whether_gone(set);
}

void counter_step(void) {
    struct counters *set = &sets[pick(SETS)];
    int k = (int)pick(READERS);
    if (!set->is_there) {
        make(set);
        return;
    }
    if (set->has_owner) switch (pick(16)) {
        case 0: case 1: case 2: allocate(set); break;
        case 3: case 4: free_one(set); break;
        case 5: case 6: change(set); break;
        case 7: set_value(set); break;
        case 8: look_at(set); look_at_state(set); look_at_numbers(set); break;
        case 9: find(set); break;
        case 10: close_owner(set); break;
        case 11: lend(set); break;
        case 12: if (once_in(40)) free_owner(set); break;
        case 13: raise_value(set); break;
        case 14: case 15: compare_value(set); break;
        default: break;
        }
    if (set->has_reader[k]) switch (pick(6)) {
        case 0: case 1: case 2: read_value(set, k); break;
        case 3: if (once_in(3)) join(set, k); break;
        case 4: if (once_in(20)) free_reader(set, k); break;
        default: break;
        }
}

void counter_end(void) {
    for (int at = 0; at < SETS; at++) {
        if (sets[at].has_owner && once_in(2)) free_owner(&sets[at]);
        for (int k = 0; k < READERS; k++)
            if (sets[at].has_reader[k]) free_reader(&sets[at], k);
        if (sets[at].has_owner) free_owner(&sets[at]);
    }
}
