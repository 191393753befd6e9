// Stands between a program and the C library (LD_PRELOAD), and makes single calls fail, by the environment:
//     SHIM_GROWTH=K        the K-th call that asks for memory is refused
//     SHIM_AGAIN=1         the call for memory after it is refused too
//     SHIM_READ=K          the K-th read fails with the error SHIM_ERROR, a number of errno.h; or reads one byte, without that
//     SHIM_WRITE=K         the same for the K-th write to standard output
//     SHIM_EVERY=1         the same at each second read or write, from the K-th on
//     SHIM_COUNTS=FILE     writes to FILE how many growths, reads and writes there were
// Calls are counted from 1. Reads of standard input and writes to other files than standard output aren't counted.
#define _GNU_SOURCE
#include <dlfcn.h>
#include <errno.h>
#include <fcntl.h>
#include <stdio.h>
#include <stdlib.h>
#include <string.h>
#include <unistd.h>

struct calls {
    const char *name;
    long made, chosen;
};

static struct calls growths = {"SHIM_GROWTH", 0, -1}, reads = {"SHIM_READ", 0, -1}, writes = {"SHIM_WRITE", 0, -1};

static long number(const char *name) {
    const char *word = getenv(name);
    return word ? atol(word) : 0;
}

static int is_chosen(struct calls *calls, int every) {
    if (calls->chosen < 0)
        calls->chosen = number(calls->name);
    calls->made++;
    if (calls->chosen == 0 || calls->made < calls->chosen)
        return 0;
    return every ? (calls->made - calls->chosen) % 2 == 0 : calls->made == calls->chosen;
}

static int is_refused(void) {
    int chosen = is_chosen(&growths, 0);
    int again = growths.chosen > 0 && growths.made == growths.chosen + 1 && number("SHIM_AGAIN");
    if (!chosen && !again)
        return 0;
    errno = ENOMEM;
    return 1;
}

#define NEXT(type, name, ...) \
    static type (*next)(__VA_ARGS__); \
    if (!next) \
        next = (type(*)(__VA_ARGS__))dlsym(RTLD_NEXT, name)

void *malloc(size_t size) {
    NEXT(void *, "malloc", size_t);
    return is_refused() ? NULL : next(size);
}

void *realloc(void *old, size_t size) {
    NEXT(void *, "realloc", void *, size_t);
    return is_refused() ? NULL : next(old, size);
}

void *calloc(size_t count, size_t size) {
    size_t whole;
    if (__builtin_mul_overflow(count, size, &whole))
        return NULL;
    void *place = malloc(whole);
    return place ? memset(place, 0, whole) : NULL;
}

void *aligned_alloc(size_t alignment, size_t size) {
    NEXT(void *, "aligned_alloc", size_t, size_t);
    return is_refused() ? NULL : next(alignment, size);
}

int posix_memalign(void **place, size_t alignment, size_t size) {
    NEXT(int, "posix_memalign", void **, size_t, size_t);
    return is_refused() ? ENOMEM : next(place, alignment, size);
}

// How many bytes a call gets that is told to fail or to be short: -1 for an error.
static ssize_t disturbed(struct calls *calls, size_t size) {
    if (size == 0 || !is_chosen(calls, number("SHIM_EVERY") != 0))
        return size;
    long error = number("SHIM_ERROR");
    if (!error)
        return 1;
    errno = error;
    return -1;
}

ssize_t read(int file, void *bytes, size_t size) {
    NEXT(ssize_t, "read", int, void *, size_t);
    ssize_t most = file > STDERR_FILENO ? disturbed(&reads, size) : (ssize_t)size;
    return most < 0 ? -1 : next(file, bytes, most);
}

ssize_t write(int file, const void *bytes, size_t size) {
    NEXT(ssize_t, "write", int, const void *, size_t);
    ssize_t most = file == STDOUT_FILENO ? disturbed(&writes, size) : (ssize_t)size;
    return most < 0 ? -1 : next(file, bytes, most);
}

__attribute__((destructor)) static void tell(void) {
    const char *name = getenv("SHIM_COUNTS");
    int file = name ? open(name, O_CREAT | O_TRUNC | O_WRONLY, 0644) : -1;
    if (file < 0)
        return;
    dprintf(file, "%ld %ld %ld\n", growths.made, reads.made, writes.made);
    close(file);
}
