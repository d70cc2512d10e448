// A library that is loaded in front of the C library (LD_PRELOAD), by which a built program meets refused memory, failing
// devices and threads that don't start. tools/fail-alloc and tools/check-streams compile it, and name the fault in the
// variable FAULT: `main N` refuses the N-th allocation of the main thread, `main N..` that and all behind it, `worker N` and
// `worker N..` those of all other threads together; `thread N` has the N-th thread not start, `thread N..` all from there;
// `read N E` and `write N E` have the N-th read of standard input, or write to standard output, fail with the error number E,
// and `read N E S` and `write N E S` have each read and write move S bytes at most besides, as `short S` does alone. Where a
// fault takes place, a byte goes to the open file FAULT_TELL.
#define _GNU_SOURCE
#include <dlfcn.h>
#include <errno.h>
#include <pthread.h>
#include <stdatomic.h>
#include <stddef.h>
#include <stdlib.h>
#include <string.h>
#include <sys/syscall.h>
#include <unistd.h>

void *__libc_malloc(size_t size);
void *__libc_calloc(size_t count, size_t size);
void *__libc_realloc(void *block, size_t size);

enum kind { NOTHING, MAIN, WORKER, THREAD, READ, WRITE, SHORT };
static enum kind kind = NOTHING;
static long number, error, most;
static int onward, tell = -1;
static atomic_long seen;

__attribute__((constructor)) static void start(void) {
    static const char *const words[] = {"", "main", "worker", "thread", "read", "write", "short"};
    const char *text = getenv("FAULT"), *told = getenv("FAULT_TELL");
    if (text == NULL) return;
    char *end;
    for (int k = MAIN; k <= SHORT; k++) {
        size_t length = strlen(words[k]);
        if (strncmp(text, words[k], length) == 0 && text[length] == ' ') {
            number = strtol(text + length, &end, 10);
            onward = strncmp(end, "..", 2) == 0;
            error = strtol(end, &end, 10);
            most = k == SHORT ? number : strtol(end, NULL, 10);
            if (told != NULL) tell = atoi(told);
            kind = k;
        }
    }
}

// Whether the call that comes now, one of this kind, is to fail.
static int fails(enum kind now) {
    if (now != kind) return 0;
    long place = atomic_fetch_add(&seen, 1) + 1;
    if (place != number && !(onward && place > number)) return 0;
    if (place == number && tell >= 0) syscall(SYS_write, tell, "!", 1);
    return 1;
}

static int refuses(void) {
    if (kind != MAIN && kind != WORKER) return 0;
    if (!fails(syscall(SYS_gettid) == getpid() ? MAIN : WORKER)) return 0;
    errno = ENOMEM;
    return 1;
}

void *malloc(size_t size) { return refuses() ? NULL : __libc_malloc(size); }

void *calloc(size_t count, size_t size) { return refuses() ? NULL : __libc_calloc(count, size); }

void *realloc(void *block, size_t size) { return refuses() ? NULL : __libc_realloc(block, size); }

int pthread_create(pthread_t *thread, const pthread_attr_t *attributes, void *(*body)(void *), void *given) {
    int (*next)(pthread_t *, const pthread_attr_t *, void *(*)(void *), void *) = dlsym(RTLD_NEXT, "pthread_create");
    return fails(THREAD) ? EAGAIN : next(thread, attributes, body, given);
}

static size_t at_most(size_t length) { return most > 0 && length > (size_t)most ? (size_t)most : length; }

ssize_t read(int file, void *bytes, size_t length) {
    if (file == 0 && fails(READ)) {
        errno = error;
        return -1;
    }
    return syscall(SYS_read, file, bytes, at_most(length));
}

ssize_t write(int file, const void *bytes, size_t length) {
    if (file == 1 && fails(WRITE)) {
        errno = error;
        return -1;
    }
    return syscall(SYS_write, file, bytes, at_most(length));
}
