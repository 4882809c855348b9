/* What an image has, by docs/FORMATS.md, and what may be there after a kill. */
#include "storm.h"

#include <stdlib.h>
#include <string.h>

static uint64_t word_at(const unsigned char *image, uint64_t at) {
    uint64_t value;
    memcpy(&value, image + at, 8);
    return value;
}

#define TRAILER 768
#define TAIL 128
#define HEAD 384
/* The kinds of marks. */
enum kind { COMMITTED, PADDING, OPEN, ABORTED };

/* The image as its header describes it. */
struct view {
    const unsigned char *image;
    uint64_t capacity, words, bodies, head, tail;
};

static bool view_of(const unsigned char *image, size_t length, struct view *view) {
    *view = (struct view){.image = image};
    if (length < 128 || memcmp(image, "FELTERIM", 8) != 0) return false;
    view->capacity = word_at(image, 24);
    view->words = word_at(image, 32);
    view->bodies = word_at(image, 48);
    if (view->capacity > MAX_CAPACITY || view->words + view->capacity + TRAILER > length) return false;
    if (view->bodies + view->capacity > length) return false;
    view->head = word_at(image, view->words + view->capacity + HEAD);
    view->tail = word_at(image, view->words + view->capacity + TAIL);
    return true;
}

/* Adds the record at a position to the listing. Returns its span, or 0 if no record can be there. */
static uint64_t list_record(const struct view *view, uint64_t position, struct listing *listing) {
    uint64_t index = position % view->capacity, mark = word_at(view->image, view->words + index);
    uint64_t kind = mark % 8, end = mark - kind, span = end - position;
    if (mark <= position) {
        listing->gaps++;
        return 8;
    }
    if (end <= position || end > view->tail || index + span > view->capacity || kind > ABORTED) return 0;
    if (kind == PADDING || kind == ABORTED) listing->settled++;
    if (kind == PADDING) return span;
    uint64_t header = word_at(view->image, view->bodies + index), size = (uint32_t)header;
    int32_t type_id = (int32_t)(uint32_t)(header >> 32);
    if (size < 8 || (size + 7) / 8 * 8 != span || size - 8 > view->capacity / 8 || type_id < 1) return 0;
    if (kind == OPEN) listing->open++;
    if (kind != COMMITTED) return span;
    if (listing->count == MAX_MESSAGES) return 0;
    struct found *it = &listing->of[listing->count++];
    it->mark = view->words + index;
    it->header = view->bodies + index;
    it->body = view->bodies + index + 8;
    it->len = (uint32_t)size - 8;
    it->type_id = type_id;
    it->place = position;
    it->is_whole = know_message(type_id, view->image + it->body, it->len, (uint32_t)view->capacity / 8, &it->who,
                                &it->number);
    return span;
}

void list_image(const unsigned char *image, size_t length, struct listing *listing) {
    struct view view;
    listing->count = listing->gaps = listing->open = listing->settled = 0;
    listing->is_wrong = false;
    listing->is_image = view_of(image, length, &view);
    if (!listing->is_image) return;
    if (view.head % 8 || view.tail % 8 || view.head > view.tail || view.tail - view.head > view.capacity) {
        listing->is_wrong = true;
        return;
    }
    for (uint64_t at = view.head; at < view.tail;) {
        uint64_t span = list_record(&view, at, listing);
        if (span == 0) {
            listing->is_wrong = true;
            return;
        }
        at += span;
    }
}

/* Whether a message was acknowledged. */
static bool is_owed(const struct book *book, unsigned who, uint64_t number) {
    return number <= book->of[who].acknowledged || number == book->of[who].later;
}

/* Judges the messages of one producer. */
static void judge_producer(const struct book *book, const struct listing *listing, unsigned who,
                           struct totals *totals) {
    uint64_t shown = book->of[who].shown, sent = book->of[who].acknowledged, expected = shown + 1;
    bool is_first = true;
    for (uint64_t k = 0; k < listing->count; k++) {
        const struct found *it = &listing->of[k];
        if (!it->is_whole || it->who != who) continue;
        if (is_first && it->number == shown && book->peeked == 1 + who) {
            /* (it was shown by a peek, and was not taken yet) */
            totals->again++;
        } else if (it->number < expected) {
            if (is_first) totals->twice++;
            else totals->disordered++;
        } else {
            for (uint64_t missing = expected; missing < it->number && missing <= sent + 2; missing++) {
                if (!is_owed(book, who, missing)) continue;
                if (is_first) totals->taken++;
                else totals->lost++;
            }
            if (it->number > sent + 2) totals->damaged++;
            expected = it->number + 1;
        }
        is_first = false;
    }
    for (uint64_t missing = expected; missing <= sent + 2; missing++) {
        if (!is_owed(book, who, missing)) continue;
        if (is_first) totals->taken++;
        else totals->lost++;
    }
}

bool judge(const struct book *book, const struct listing *listing, struct totals *totals) {
    struct totals before = *totals;
    totals->kills++;
    totals->unmade += !listing->is_image;
    totals->damaged += listing->is_wrong + book->wrong + (listing->open > 2 * PRODUCERS);
    totals->open += listing->open;
    totals->gaps += listing->gaps;
    totals->recovered += listing->count;
    for (uint64_t k = 0; k < listing->count; k++) totals->torn += !listing->of[k].is_whole;
    for (unsigned who = 0; who < PRODUCERS; who++) {
        totals->acknowledged += book->of[who].acknowledged;
        totals->shown += book->of[who].shown;
        judge_producer(book, listing, who, totals);
    }
    /* The read that was running may have taken messages that are not noted. */
    uint64_t taken = totals->taken - before.taken;
    if (taken > book->running) {
        totals->lost += taken - book->running;
        totals->taken = before.taken + book->running;
    }
    return totals->lost == before.lost && totals->torn == before.torn && totals->disordered == before.disordered &&
           totals->twice == before.twice && totals->damaged == before.damaged;
}

/* Faults ----------------------------------------------------------------------------------------------------------- */

const char *const FAULT_NAMES[FAULTS] = {"none", "flipped", "dropped", "doubled", "swapped"};

/* Whether two messages are of one producer, and one can be at the place of the other. */
static bool is_alike(const struct found *one, const struct found *other) {
    return one->who == other->who && (one->len + 7) / 8 == (other->len + 7) / 8;
}

/* Finds two messages of one producer, the earlier one from a message on. The later one must have been acknowledged if
 * it is to be dropped, and otherwise have the span of the earlier one. */
static bool find_two(enum fault fault, const struct listing *listing, const struct book *book, uint64_t from,
                     const struct found **one, const struct found **other) {
    for (uint64_t k = from; k < listing->count; k++) {
        *one = &listing->of[k];
        for (uint64_t later = k + 1; later < listing->count; later++) {
            *other = &listing->of[later];
            if (fault != DROPPED && is_alike(*one, *other)) return true;
            if (fault == DROPPED && (*other)->who == (*one)->who && is_owed(book, (*one)->who, (*other)->number))
                return true;
        }
    }
    return false;
}

static void copy_message(unsigned char *to_image, const struct found *to, const unsigned char *from_image,
                         const struct found *from) {
    memcpy(to_image + to->header, from_image + from->header, 8);
    memcpy(to_image + to->body, from_image + from->body, from->len);
}

bool plant(enum fault fault, unsigned char *image, const struct listing *listing, const struct book *book,
           uint64_t *state) {
    if (listing->count == 0) return false;
    uint64_t from = pick(state, listing->count);
    const struct found *it = &listing->of[from], *other = NULL;
    if (fault == FLIPPED) {
        image[it->body + pick(state, it->len)] ^= (unsigned char)(1 << pick(state, 8));
        return true;
    }
    if (!find_two(fault, listing, book, from, &it, &other) && !find_two(fault, listing, book, 0, &it, &other))
        return false;
    if (fault == DROPPED) {
        image[other->mark] += ABORTED - COMMITTED;
        return true;
    }
    unsigned char *copy = malloc(it->body > other->body ? it->body + it->len : other->body + other->len);
    if (!copy) return false;
    copy_message(copy, it, image, it);
    if (fault == SWAPPED) copy_message(image, it, image, other);
    copy_message(image, other, copy, it);
    free(copy);
    return true;
}
