/* Refuses one request for memory of the program that it is loaded into: the one numbered REFUSE_NTH, from 1; or so many in a
   row as REFUSE_RUN says, from that one on. At the end of the program it writes to the file REFUSE_TOTAL how many requests
   there were, and for how many bytes in all. The requests of all threads are counted together, in the order in which they come. */
#define _GNU_SOURCE
#include <dlfcn.h>
#include <errno.h>
#include <stdatomic.h>
#include <stdio.h>
#include <stdlib.h>

static atomic_long count, bytes, nth = -1, run = 1;
/* requests for the mark's own sake pass, and are not counted; no memory is asked for to reach this */
static _Thread_local int marking __attribute__((tls_model("initial-exec")));

/* whether this request is the one to refuse, which leaves a mark */
static int refused(size_t size) {
    if (marking) return 0;
    bytes += size;
    if (nth < 0) {
        const char *text = getenv("REFUSE_NTH");
        nth = text ? atol(text) : 0;
        text = getenv("REFUSE_RUN");
        if (text) run = atol(text);
    }
    long number = ++count;
    if (nth < 1 || number < nth || number >= nth + run) return 0;
    const char *mark = getenv("REFUSE_MARK");
    marking = 1;
    FILE *file = mark ? fopen(mark, "w") : 0;
    if (file) fclose(file);
    marking = 0;
    errno = ENOMEM;
    return 1;
}

void *malloc(size_t size) {
    static void *(*real)(size_t);
    if (!real) real = dlsym(RTLD_NEXT, "malloc");
    return refused(size) ? 0 : real(size);
}

void *realloc(void *old, size_t size) {
    static void *(*real)(void *, size_t);
    if (!real) real = dlsym(RTLD_NEXT, "realloc");
    return refused(size) ? 0 : real(old, size);
}

void *aligned_alloc(size_t align, size_t size) {
    static void *(*real)(size_t, size_t);
    if (!real) real = dlsym(RTLD_NEXT, "aligned_alloc");
    return refused(size) ? 0 : real(align, size);
}

int posix_memalign(void **out, size_t align, size_t size) {
    static int (*real)(void **, size_t, size_t);
    if (!real) real = dlsym(RTLD_NEXT, "posix_memalign");
    return refused(size) ? ENOMEM : real(out, align, size);
}

/* programs end by `_exit`, tests as C's programs do */
static void __attribute__((destructor)) tell_total(void) {
    const char *total = getenv("REFUSE_TOTAL");
    FILE *file = total ? fopen(total, "w") : 0;
    if (!file) return;
    fprintf(file, "%ld %ld\n", count, bytes);
    fclose(file);
}

void _exit(int status) {
    static void (*real)(int) __attribute__((noreturn));
    if (!real) real = dlsym(RTLD_NEXT, "_exit");
    tell_total();
    real(status);
}
