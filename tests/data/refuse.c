/* Preloaded into a program, refuses its request for memory of the number REFUSE_AT, counted from 1.
   Where that request comes, the file REFUSE_TOLD is made.

   With REFUSE_FROM in its place: each request between one of that many bytes and one of one byte
   more. The file REFUSE_TOLD is made where the first of the two comes, and the file REFUSE_ASKED
   where a request between them was refused.

   With REFUSE_DAY the day's clock does not go on, so many milliseconds after the start of 1970.

   Compiled with WRAPPED it is linked into a program in place of being preloaded (a program with
   AddressSanitizer has an allocator of its own, before which nothing can be preloaded). The clock is
   left alone there. */
#define _GNU_SOURCE
#include <dlfcn.h>
#include <errno.h>
#include <fcntl.h>
#include <stdlib.h>
#include <time.h>
#include <unistd.h>

static long asked;

static int refusing;

static void make(const char *name) {
    const char *path = getenv(name);
    if (path != NULL) close(open(path, O_CREAT | O_WRONLY, 0600));
}

static int is_between(size_t size, size_t from) {
    if (size == from) {
        make("REFUSE_TOLD");
        refusing = 1;
        return 0;
    }
    if (size == from + 1) refusing = 0;
    if (!refusing) return 0;
    make("REFUSE_ASKED");
    errno = ENOMEM;
    return 1;
}

static int is_refused(size_t size) {
    const char *from = getenv("REFUSE_FROM");
    if (from != NULL) return is_between(size, (size_t)atol(from));
    const char *at = getenv("REFUSE_AT");
    if (at == NULL || ++asked != atol(at)) return 0;
    make("REFUSE_TOLD");
    errno = ENOMEM;
    return 1;
}

#ifdef WRAPPED
void *__real_malloc(size_t size);
void *__real_realloc(void *block, size_t size);

void *__wrap_malloc(size_t size) {
    return is_refused(size) ? NULL : __real_malloc(size);
}

void *__wrap_realloc(void *block, size_t size) {
    return is_refused(size) ? NULL : __real_realloc(block, size);
}
#else
void *malloc(size_t size) {
    static void *(*real)(size_t);
    if (real == NULL) real = dlsym(RTLD_NEXT, "malloc");
    return is_refused(size) ? NULL : real(size);
}

void *realloc(void *block, size_t size) {
    static void *(*real)(void *, size_t);
    if (real == NULL) real = dlsym(RTLD_NEXT, "realloc");
    return is_refused(size) ? NULL : real(block, size);
}

int clock_gettime(clockid_t clock, struct timespec *now) {
    static int (*real)(clockid_t, struct timespec *);
    const char *day = getenv("REFUSE_DAY");
    if (clock == CLOCK_REALTIME && day != NULL) {
        now->tv_sec = atol(day) / 1000;
        now->tv_nsec = atol(day) % 1000 * 1000000;
        return 0;
    }
    if (real == NULL) real = dlsym(RTLD_NEXT, "clock_gettime");
    return real(clock, now);
}
#endif
