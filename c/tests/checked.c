/* What a build with -DFELTER_CHECKED notices: each misuse in a child of its own, which has to end by abort and say why.
 * Link with -Wl,--wrap=malloc. */
#ifndef FELTER_CHECKED
#error "compile it with -DFELTER_CHECKED"
#endif
#include "check.h"

#include <pthread.h>
#include <semaphore.h>
#include <signal.h>
#include <sys/wait.h>
#include <unistd.h>

static felter_producer producer = FELTER_EMPTY;
static felter_consumer consumer = FELTER_EMPTY;

static void null_handle(void) {
    EXPECT(FELTER_NO_HANDLE, felter_write(NULL, 1, "x", 1));
}

static void null_body(void) {
    EXPECT(FELTER_NULL_POINTER, felter_write(&producer, 1, NULL, 1));
}

static void copy_of_a_freed_one(void) {
    felter_producer copy = producer;
    felter_free(&producer.handle);
    EXPECT(FELTER_OK, felter_write(&copy, 1, "x", 1));
}

static void freed_twice(void) {
    felter_consumer copy = consumer;
    felter_free(&consumer.handle);
    felter_free(&copy.handle);
}

static void copy_of_a_joined_one(void) {
    felter_producer other = FELTER_EMPTY, copy;
    EXPECT(FELTER_OK, felter_split(&producer, &other));
    copy = other;
    EXPECT(FELTER_OK, felter_join(&producer, &other));
    EXPECT(FELTER_OK, felter_write(&copy, 1, "x", 1));
}

static void never_made(void) {
    felter_producer garbage;
    memset(&garbage, 0x5A, sizeof garbage);
    EXPECT(FELTER_OK, felter_write(&garbage, 1, "x", 1));
}

static void one_handle_twice(void) {
    EXPECT(FELTER_OTHER_RING, felter_join(&producer, &producer));
}

static sem_t inside;
static int stays; /* whether the next request for memory stops its thread, in the middle of a call */

void *__real_malloc(size_t size);
void *__wrap_malloc(size_t size) {
    if (__atomic_exchange_n(&stays, 0, __ATOMIC_SEQ_CST)) {
        sem_post(&inside);
        for (;;) pause();
    }
    return __real_malloc(size);
}

static void *stay_inside(void *unused) {
    felter_producer other = FELTER_EMPTY;
    __atomic_store_n(&stays, 1, __ATOMIC_SEQ_CST);
    EXPECT(FELTER_OK, felter_split(&producer, &other));
    return unused;
}

static void two_threads(void) {
    pthread_t thread;
    CHECK(sem_init(&inside, 0, 0) == 0 && pthread_create(&thread, NULL, stay_inside, NULL) == 0);
    while (sem_wait(&inside)) continue;
    EXPECT(FELTER_OK, felter_write(&producer, 1, "x", 1));
}

/* What is right stays right: a handle that moves by a copy, and one that is made again. */
static void moves(void) {
    felter_producer moved = producer;
    memset(&producer, 0, sizeof producer);
    EXPECT(FELTER_OK, felter_write(&moved, 1, "x", 1));
    felter_free(&moved.handle);
    felter_free(&moved.handle);
    EXPECT(FELTER_NO_HANDLE, felter_write(&moved, 1, "x", 1));
    felter_free(&consumer.handle);
    EXPECT(FELTER_OK, felter_many_to_one_new(256, &producer, &consumer));
    EXPECT(FELTER_OK, felter_write(&producer, 1, "x", 1));
}

/* Runs it in a child, and compares how that ends and what it says. */
static void expect(void (*misuse)(void), const char *said) {
    char text[400] = {0};
    int pipes[2], status;
    size_t got = 0;
    ssize_t more;
    CHECK(pipe(pipes) == 0);
    pid_t child = fork();
    CHECK(child >= 0);
    if (child == 0) {
        dup2(pipes[1], 2);
        EXPECT(FELTER_OK, felter_many_to_one_new(256, &producer, &consumer));
        misuse();
        _exit(0);
    }
    close(pipes[1]);
    while ((more = read(pipes[0], text + got, sizeof text - 1 - got)) > 0) got += (size_t)more;
    close(pipes[0]);
    CHECK(waitpid(child, &status, 0) == child);
    if (!said && status == 0 && got == 0) return;
    if (said && WIFSIGNALED(status) && WTERMSIG(status) == SIGABRT && strstr(text, said)) return;
    fprintf(stderr, "status %d, and not: %s\n%s", status, said ? said : "status 0", text);
    exit(1);
}

int main(void) {
    const char *copied = "the handle is a copy of one that was freed or taken in, or was never made";
    expect(null_handle, "felter: felter_write: the handle is NULL");
    expect(null_body, "felter: felter_write: a pointer is NULL");
    expect(copy_of_a_freed_one, copied);
    expect(freed_twice, copied);
    expect(copy_of_a_joined_one, copied);
    expect(never_made, copied);
    expect(one_handle_twice, "felter: felter_join: two calls use the handle at once, or one takes it twice");
    expect(two_threads, "felter: felter_write: two calls use the handle");
    expect(moves, NULL);
    return 0;
}
