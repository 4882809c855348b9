/* A build with -DFELTER_CHECKED tests three conditions before each call. The first is that no pointer is NULL. The
 * second is that the handle was made, and that neither the handle nor a copy of it was freed. The third is that no
 * other call uses the handle. felter.h includes this file. */
#ifndef FELTER_CHECKED_H
#define FELTER_CHECKED_H

#include <sched.h>
#include <stdio.h>
#include <stdlib.h>

/* An object that a handle owns. The struct has the object's address, and the number of handles that own an object at
 * this address. The number can be 2, because one thread can free an object while another thread makes a new one at the
 * same address. */
struct felter_owned {
    void *at;
    long count;
    struct felter_owned *next;
};

/* A handle that a call is using. */
struct felter_use {
    felter_handle *handle;
    void *at; /* the object that the handle owned before the call */
    struct felter_use *next;
};

#define FELTER_BUCKETS 1024
__attribute__((weak)) struct felter_owned *felter_all_owned[FELTER_BUCKETS] = {0};
__attribute__((weak)) struct felter_use *felter_all_uses = 0;
__attribute__((weak)) char felter_check_lock = 0;

static inline int32_t felter_refuse(const char *call, int32_t code) {
    fprintf(stderr, "felter: %s: %s\n", call, code == FELTER_NO_HANDLE ? "the handle is NULL" : "a pointer is NULL");
    abort();
}

static inline void felter_wrong(const char *call, const char *why) {
    fprintf(stderr, "felter: %s: %s\n", call, why);
    abort();
}

static inline void felter_lock(void) {
    while (__atomic_test_and_set(&felter_check_lock, __ATOMIC_ACQUIRE)) sched_yield();
}

static inline void felter_unlock(void) {
    __atomic_clear(&felter_check_lock, __ATOMIC_RELEASE);
}

/* Returns the link to the object at an address. If there is no such object, returns the link at the end of the list in
 * which the object would be. */
static inline struct felter_owned **felter_find_owned(void *at) {
    struct felter_owned **it = &felter_all_owned[(uintptr_t)at / 16 % FELTER_BUCKETS];
    while (*it && (*it)->at != at) it = &(*it)->next;
    return it;
}

static inline void felter_add_owned(const char *call, void *at) {
    struct felter_owned **it = felter_find_owned(at);
    if (!*it) {
        *it = (struct felter_owned *)calloc(1, sizeof **it);
        if (!*it) felter_wrong(call, "there is no memory for the checked build");
        (*it)->at = at;
    }
    (*it)->count++;
}

static inline void felter_drop_owned(void *at) {
    struct felter_owned **it = felter_find_owned(at), *found = *it;
    if (!found || --found->count > 0) return;
    *it = found->next;
    free(found);
}

static inline void felter_enter(const char *call, struct felter_use *use) {
    felter_lock();
    for (struct felter_use *it = felter_all_uses; it; it = it->next)
        if (it->handle == use->handle) felter_wrong(call, "two calls use the handle at once, or one takes it twice");
    use->at = use->handle->at;
    if (use->at && !*felter_find_owned(use->at))
        felter_wrong(call, "the handle is a copy of one that was freed or taken in, or was never made");
    use->next = felter_all_uses;
    felter_all_uses = use;
    felter_unlock();
}

static inline void felter_leave(const char *call, struct felter_use *use) {
    struct felter_use **it = &felter_all_uses;
    felter_lock();
    while (*it != use) it = &(*it)->next;
    *it = use->next;
    if (use->at != use->handle->at) {
        if (use->at) felter_drop_owned(use->at);
        if (use->handle->at) felter_add_owned(call, use->handle->at);
    }
    felter_unlock();
}

#define FELTER_ENTER1(call, used)                  \
    const char *felter_call = (call);              \
    struct felter_use felter_first = {(used), 0, 0}; \
    felter_enter(felter_call, &felter_first)
#define FELTER_LEAVE1() felter_leave(felter_call, &felter_first)
#define FELTER_ENTER2(call, used, other)             \
    FELTER_ENTER1(call, used);                       \
    struct felter_use felter_second = {(other), 0, 0}; \
    felter_enter(felter_call, &felter_second)
#define FELTER_LEAVE2() (felter_leave(felter_call, &felter_second), FELTER_LEAVE1())

#endif
