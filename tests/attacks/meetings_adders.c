/* Adders of one shared counter, which are split off, used, given back and freed while their owner goes on. No amount is
 * below 0 and no sum wraps, so each sum that a call finds is between two sums that the threads keep. */
#include "meetings.h"

#define HELPERS 3
#define STEPS 20000

static struct {
    felter_adder adder;
    struct office office;
    /* The amounts whose additions have begun, and those whose additions are done. */
    _Atomic uint64_t begun, done;
} its;

struct helper {
    struct worker worker;
    uint64_t additions, seen;
};

/* Adds or loads. A sum that is found has at least what was done when the call began, and what this adder has seen; and
 * at most what has begun when the call is over. Returns the sum after the call. */
static uint64_t meet(felter_adder *adder, uint64_t *dice, uint64_t seen) {
    uint64_t done = atomic_load(&its.done), amount = once_in(dice, 4) ? 0 : pick(dice, 1 << 20);
    int64_t sum = -1;
    if (amount) {
        atomic_fetch_add(&its.begun, amount);
        CHECK(felter_adder_add(adder, (int64_t)amount, &sum) == FELTER_OK);
    } else {
        CHECK(felter_adder_value(adder, &sum) == FELTER_OK);
    }
    CHECK((uint64_t)sum >= done && (uint64_t)sum >= seen && (uint64_t)sum + amount <= atomic_load(&its.begun));
    atomic_fetch_add(&its.done, amount);
    return (uint64_t)sum + amount;
}

static void help(struct worker *worker) {
    struct helper *it = (struct helper *)worker;
    uint64_t tries = 1 + pick(&worker->dice, 4000);
    for (; tries && !atomic_load(&worker->office->is_over); tries--) {
        it->seen = meet(&worker->its.adder, &worker->dice, it->seen);
        it->additions++;
        stall(&worker->dice);
    }
}

static void attend(struct helper *helpers) {
    for (int k = 0; k < HELPERS; k++) {
        felter_adder adder = FELTER_EMPTY;
        if (take_back(&helpers[k].worker, &adder.handle)) {
            CHECK(felter_adder_join(&its.adder, &adder) == FELTER_OK);
            has_joined(&its.office);
        }
        if (!is_idle(&helpers[k].worker) || atomic_load(&its.office.is_over)) continue;
        CHECK(felter_adder_split(&its.adder, &adder) == FELTER_OK);
        give(&helpers[k].worker, &adder.handle, 0);
    }
}

/* Nothing is lost and nothing is there twice: this is called after all threads have ended. */
static void check_total(felter_adder *adder) {
    int64_t sum = -1;
    CHECK(felter_adder_value(adder, &sum) == FELTER_OK);
    CHECK((uint64_t)sum == atomic_load(&its.done) && (uint64_t)sum == atomic_load(&its.begun));
}

void meet_at_adders(uint64_t *dice) {
    static struct helper helpers[HELPERS];
    uint64_t seen = 0;
    memset(&its, 0, sizeof its);
    memset(helpers, 0, sizeof helpers);
    CHECK(felter_adder_new(&its.adder) == FELTER_OK);
    for (int k = 0; k < HELPERS; k++) start(&helpers[k].worker, &its.office, pick(dice, UINT64_MAX), help);
    for (int step = 0; step < STEPS; step++) {
        if (step % 32 == 0) attend(helpers);
        seen = meet(&its.adder, dice, seen);
        stall(dice);
    }
    atomic_store(&its.office.is_over, true);
    /* (the shared counter lives as long as one of its adders) */
    if (once_in(dice, 2)) felter_free(&its.adder.handle);
    for (int k = 0; k < HELPERS; k++) pthread_join(helpers[k].worker.thread, NULL);
    if (its.adder.handle.at) {
        attend(helpers);
        check_total(&its.adder);
    }
    totals.additions += STEPS;
    for (int k = 0; k < HELPERS; k++) {
        felter_adder adder = FELTER_EMPTY;
        if (take_back(&helpers[k].worker, &adder.handle)) {
            check_total(&adder);
            felter_free(&adder.handle);
        }
        totals.additions += helpers[k].additions;
    }
    felter_free(&its.adder.handle);
}
