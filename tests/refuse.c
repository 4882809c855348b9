/* Refuses one request of the program that it is loaded into, the AT-th of the kind REFUSE, and says so by a byte to the
 * file descriptor REFUSED_FD. Kinds: memory, thread, read, write, short-read and short-write, which moves one byte.
 * It names what it takes of the C library by hand, so that it is compiled without headers too. */
typedef unsigned long size;
typedef long ssize;

#define NEXT ((void *)-1L)
#define EIO 5
#define EAGAIN 11
#define ENOMEM 12

extern void *dlsym(void *, const char *);
extern char *getenv(const char *);
extern int *__errno_location(void);

enum kind { NONE, MEMORY, THREAD, READ, WRITE, SHORT_READ, SHORT_WRITE };

static enum kind kind;
static long at, told;
static long count;

static void *(*next_malloc)(size);
static void *(*next_calloc)(size, size);
static void *(*next_realloc)(void *, size);
static ssize (*next_read)(int, void *, size);
static ssize (*next_write)(int, const void *, size);
static int (*next_create)(void *, const void *, void *(*)(void *), void *);

static int is(const char *word, const char *name) {
    while (*word && *word == *name)
        word++, name++;
    return *word == *name;
}

static long number(const char *digits) {
    long n = 0;
    while (*digits >= '0' && *digits <= '9')
        n = 10 * n + (*digits++ - '0');
    return n;
}

static void find_next(void) {
    *(void **)&next_malloc = dlsym(NEXT, "malloc");
    *(void **)&next_calloc = dlsym(NEXT, "calloc");
    *(void **)&next_realloc = dlsym(NEXT, "realloc");
    *(void **)&next_read = dlsym(NEXT, "read");
    *(void **)&next_write = dlsym(NEXT, "write");
    *(void **)&next_create = dlsym(NEXT, "pthread_create");
}

__attribute__((constructor)) static void start(void) {
    static const char *const names[] = {"none", "memory", "thread", "read", "write", "short-read", "short-write"};
    const char *wanted = getenv("REFUSE"), *which = getenv("AT"), *fd = getenv("REFUSED_FD");
    find_next();
    if (!wanted || !which || !fd)
        return;
    at = number(which);
    told = number(fd);
    for (int k = MEMORY; k <= SHORT_WRITE; k++)
        if (is(wanted, names[k]))
            kind = k;
}

/* Whether this request is the one. */
static int refused(enum kind asked) {
    if (asked != kind || __atomic_add_fetch(&count, 1, __ATOMIC_SEQ_CST) != at)
        return 0;
    next_write((int)told, "r", 1);
    return 1;
}

static void *no_memory(void) {
    *__errno_location() = ENOMEM;
    return 0;
}

void *malloc(size n) {
    if (!next_malloc)
        find_next();
    return refused(MEMORY) ? no_memory() : next_malloc(n);
}

void *calloc(size n, size m) {
    /* The loader may ask before the next one is known. */
    if (!next_calloc)
        return 0;
    return refused(MEMORY) ? no_memory() : next_calloc(n, m);
}

void *realloc(void *p, size n) {
    if (!next_realloc)
        find_next();
    return refused(MEMORY) ? no_memory() : next_realloc(p, n);
}

int pthread_create(void *thread, const void *how, void *(*run)(void *), void *with) {
    return refused(THREAD) ? EAGAIN : next_create(thread, how, run, with);
}

static ssize failed(void) {
    *__errno_location() = EIO;
    return -1;
}

ssize read(int fd, void *to, size n) {
    if (refused(READ))
        return failed();
    return next_read(fd, to, n > 1 && refused(SHORT_READ) ? 1 : n);
}

ssize write(int fd, const void *from, size n) {
    if (refused(WRITE))
        return failed();
    return next_write(fd, from, n > 1 && refused(SHORT_WRITE) ? 1 : n);
}

ssize __write(int fd, const void *from, size n) { return write(fd, from, n); }
ssize __read(int fd, void *to, size n) { return read(fd, to, n); }
