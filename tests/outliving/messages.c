/* The messages of a storm. */
#include "storm.h"

#include <string.h>

uint64_t mixed(uint64_t number) {
    number = (number ^ number >> 30) * 0xbf58476d1ce4e5b9;
    number = (number ^ number >> 27) * 0x94d049bb133111eb;
    return number ^ number >> 31;
}

uint64_t pick(uint64_t *state, uint64_t below) {
    *state += 0x9e3779b97f4a7c15;
    return mixed(*state) % below;
}

/* The body has the number, the producer, and then bytes that follow from both. */
#define LEAST 9

void make_message(struct message *message, unsigned who, uint64_t number, uint32_t longest) {
    uint64_t state = mixed(number * PRODUCERS + who + 1);
    message->len = LEAST + (uint32_t)(state % (longest - LEAST + 1));
    message->type_id = 1 + (int32_t)(state >> 40);
    memcpy(message->body, &number, 8);
    message->body[8] = (unsigned char)who;
    for (uint32_t k = LEAST; k < message->len; k++) message->body[k] = (unsigned char)mixed(state + k);
}

bool know_message(int32_t type_id, const unsigned char *body, size_t len, uint32_t longest, unsigned *who,
                  uint64_t *number) {
    static __thread struct message wanted;
    if (len < LEAST) return false;
    memcpy(number, body, 8);
    *who = body[8];
    if (*who >= PRODUCERS) return false;
    make_message(&wanted, *who, *number, longest);
    return type_id == wanted.type_id && len == wanted.len && memcmp(body, wanted.body, len) == 0;
}
