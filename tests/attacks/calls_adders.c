/* Random calls of adders of shared counters. */
#include "calls.h"

#define COUNTERS 2
#define ADDERS 4

/* A shared counter: its value, and the shares of each adder, of which none means that there is no adder. */
struct shared {
    uint64_t value;
    uint32_t shares[ADDERS];
    felter_adder adders[ADDERS];
};

static struct shared all[COUNTERS];

static bool is_there(const struct shared *its) {
    for (int k = 0; k < ADDERS; k++)
        if (its->shares[k]) return true;
    return false;
}

static void make(struct shared *its) {
    int32_t code = once_in(3) ? CALL(FELTER_OK, felter_adder_new_numbered(some_number(), &its->adders[0]))
                              : CALL(FELTER_OK, felter_adder_new(&its->adders[0]));
    CHECK((code == FELTER_OK) == (its->adders[0].handle.at != NULL));
    if (code) return;
    its->value = 0;
    its->shares[0] = ALL_SHARES;
    CALL(FELTER_HANDLE_IN_USE, felter_adder_new(&its->adders[0]));
}

static void add(struct shared *its, int k) {
    int64_t delta = (int64_t)ONE_OF(0, 1, pick(1000), UINT64_MAX, INT64_MAX, (uint64_t)INT64_MIN), before = UNTOUCHED;
    int32_t code = CALL(FELTER_OK, felter_adder_add(&its->adders[k], delta, &before));
    CHECK(before == (code ? UNTOUCHED : (int64_t)its->value));
    if (code == FELTER_OK) its->value += (uint64_t)delta;
}

static void look_at(struct shared *its, int k) {
    int64_t value = UNTOUCHED;
    uint32_t shares = UNTOUCHED;
    int32_t code = CALL(FELTER_OK, felter_adder_value(&its->adders[k], &value));
    CHECK(value == (code ? UNTOUCHED : (int64_t)its->value));
    code = CALL(FELTER_OK, felter_adder_shares(&its->adders[k], &shares));
    CHECK(shares == (code ? UNTOUCHED : its->shares[k]));
}

static void split(struct shared *its, int k) {
    int other = (int)pick(ADDERS);
    if (other == k) return;
    int32_t wanted = its->shares[other] ? FELTER_HANDLE_IN_USE : its->shares[k] == 1 ? FELTER_NO_SHARES : FELTER_OK;
    if (CALL(wanted, felter_adder_split(&its->adders[k], &its->adders[other]))) return;
    its->shares[k]--;
    its->shares[other] = 1;
}

/* Joins an adder of this shared counter, or of the other one, which is refused. */
static void join(struct shared *its, int k) {
    struct shared *of = once_in(4) ? &all[pick(COUNTERS)] : its;
    int other = (int)pick(ADDERS);
    if (of == its && other == k) return;
    int32_t wanted = !of->shares[other] ? FELTER_NO_HANDLE : of == its ? FELTER_OK : FELTER_OTHER_RING;
    if (CALL(wanted, felter_adder_join(&its->adders[k], &of->adders[other]))) return;
    CHECK(of->adders[other].handle.at == NULL);
    its->shares[k] += its->shares[other];
    its->shares[other] = 0;
}

static void free_one(struct shared *its, int k) {
    CALL(FELTER_OK, (felter_free(&its->adders[k].handle), FELTER_OK));
    its->shares[k] = 0;
}

void adder_step(void) {
    struct shared *its = &all[pick(COUNTERS)];
    int k = (int)pick(ADDERS);
    if (!is_there(its)) make(its);
    else if (its->shares[k]) switch (pick(8)) {
        case 0: case 1: case 2: add(its, k); break;
        case 3: look_at(its, k); break;
        case 4: case 5: split(its, k); break;
        case 6: join(its, k); break;
        default: if (once_in(4)) free_one(its, k);
        }
}

void adder_end(void) {
    for (int at = 0; at < COUNTERS; at++)
        for (int k = 0; k < ADDERS; k++)
            if (all[at].shares[k]) free_one(&all[at], k);
}
