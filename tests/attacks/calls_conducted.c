/* Random questions about the counters of a conductor. */
#include "calls.h"

/* What the conductor says of a counter. */
void look_at_conducted(felter_conductor *conductor, const struct model_counters *counters) {
    uint32_t all = counters->count, id = (uint32_t)ONE_OF(pick(all), pick(all), all, UINT32_MAX);
    const struct model_counter *counter = &counters->of[id % MAX_COUNTERS];
    int32_t wanted = model_used(counters, id), type_id = UNTOUCHED, state = UNTOUCHED, code;
    int64_t value = UNTOUCHED;
    uint64_t registration = UNTOUCHED, owner = UNTOUCHED, deadline = UNTOUCHED;
    code = CALL(wanted, felter_conductor_value(conductor, id, &value));
    CHECK(value == (code ? UNTOUCHED : counter->value));
    code = CALL(wanted, felter_conductor_type_id(conductor, id, &type_id));
    CHECK(type_id == (code ? UNTOUCHED : counter->type_id));
    code = CALL(wanted, felter_conductor_registration(conductor, id, &registration));
    CHECK(registration == (code ? UNTOUCHED : counter->registration));
    code = CALL(wanted, felter_conductor_owner(conductor, id, &owner));
    CHECK(owner == (code ? UNTOUCHED : counter->owner));
    int32_t of_all = id < all ? FELTER_OK : FELTER_BAD_ID;
    code = CALL(of_all, felter_conductor_state(conductor, id, &state));
    CHECK(state == (code ? UNTOUCHED : model_state(counters, id)));
    code = CALL(of_all, felter_conductor_deadline(conductor, id, &deadline));
    CHECK(deadline == (code ? UNTOUCHED : model_deadline(counters, id)));
}

void look_at_conducted_texts(felter_conductor *conductor, const struct model_counters *counters) {
    uint32_t all = counters->count, id = (uint32_t)pick(all + 1), count = UNTOUCHED;
    const struct model_counter *counter = &counters->of[id % MAX_COUNTERS];
    int32_t wanted = model_used(counters, id);
    size_t room = (size_t)ONE_OF(MAX_LABEL, counter->label_len, counter->label_len ? counter->label_len - 1 : 0);
    size_t len = UNTOUCHED;
    uint8_t *buffer = output(room);
    int32_t code = CALL(wanted ? wanted : room < counter->label_len ? FELTER_SHORT_BUFFER : FELTER_OK,
                        felter_conductor_label(conductor, id, &len, buffer, room));
    if (code == FELTER_OK || code == FELTER_SHORT_BUFFER) CHECK(len == counter->label_len);
    if (code == FELTER_OK) CHECK(!len || memcmp(buffer, counter->label, len) == 0);
    room = (size_t)ONE_OF(MAX_KEY, MAX_KEY, MAX_KEY - 1, 0);
    buffer = output(room);
    if (CALL(wanted ? wanted : room < MAX_KEY ? FELTER_SHORT_BUFFER : FELTER_OK,
             felter_conductor_key(conductor, id, buffer, room)) == FELTER_OK)
        CHECK(memcmp(buffer, counter->key, MAX_KEY) == 0);
    if (CALL(FELTER_OK, felter_conductor_count(conductor, &count)) == FELTER_OK) CHECK(count == all);
}

void find_conducted(felter_conductor *conductor, const struct model_counters *counters, uint64_t drawn) {
    int32_t type_id = (int32_t)ONE_OF(1, 2, 0);
    uint64_t registration = drawn ? pick(drawn) : 0;
    uint32_t id = UNTOUCHED, at = 0;
    for (; at < counters->count; at++) {
        const struct model_counter *counter = &counters->of[at];
        if (counter->is_used && counter->type_id == type_id && counter->registration == registration) break;
    }
    int32_t wanted = at < counters->count ? FELTER_OK : FELTER_NOT_ALLOCATED;
    int32_t code = CALL(wanted, felter_conductor_find(conductor, type_id, registration, &id));
    CHECK(id == (code ? UNTOUCHED : at));
}
