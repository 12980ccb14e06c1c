/* Has the files of one folder fail or be slow, and the clock wrong, for the program that it is loaded into (LD_PRELOAD), and for
   those that this one starts. FAILING_UNDER is the folder. FAILING_CONTROL is a file of eight numbers of 64 bits, which may change
   at any time; checks/failures_nodes.py writes it:

     0  the error number of writes and syncs that fail; 0: none does
     1  how many pass before the first one that fails
     2  how many fail then; below 0: all
     3  how many microseconds each of them takes longer
     4  how many seconds the clock of the time of day is ahead
     5  how many were counted; 6  how many failed */
#define _GNU_SOURCE
#include <dlfcn.h>
#include <errno.h>
#include <fcntl.h>
#include <limits.h>
#include <stdatomic.h>
#include <stdio.h>
#include <stdlib.h>
#include <string.h>
#include <sys/mman.h>
#include <sys/syscall.h>
#include <sys/time.h>
#include <sys/uio.h>
#include <time.h>
#include <unistd.h>

static atomic_long none[8], *control = none;
static const char *under;

static void __attribute__((constructor)) begin(void) {
    const char *path = getenv("FAILING_CONTROL");
    under = getenv("FAILING_UNDER");
    int file = path ? open(path, O_RDWR | O_CLOEXEC) : -1;
    if (file < 0) return;
    void *found = mmap(0, sizeof none, PROT_READ | PROT_WRITE, MAP_SHARED, file, 0);
    if (found != MAP_FAILED) control = found;
    close(file);
}

/* whether this call fails; a slow one waits first */
static int fails(int number) {
    if (!under || (!control[0] && !control[3])) return 0;
    char name[64], path[PATH_MAX];
    snprintf(name, sizeof name, "/proc/self/fd/%d", number);
    long size = readlink(name, path, sizeof path - 1);
    size_t length = strlen(under);
    if (size < (long)length || strncmp(path, under, length)) return 0;
    control[5]++;
    if (control[3]) usleep(control[3]);
    if (!control[0] || control[1]-- > 0) return 0;
    if (control[2] == 0) return 0;
    if (control[2] > 0) control[2]--;
    control[6]++;
    errno = control[0];
    return 1;
}

#define FAILING(type, name, parameters, ...) \
    type name parameters { \
        static type (*real) parameters; \
        if (!real) real = dlsym(RTLD_NEXT, #name); \
        return fails(file) ? -1 : real(__VA_ARGS__); \
    }

FAILING(ssize_t, write, (int file, const void *data, size_t size), file, data, size)
FAILING(ssize_t, pwrite, (int file, const void *data, size_t size, off_t at), file, data, size, at)
FAILING(ssize_t, pwrite64, (int file, const void *data, size_t size, off64_t at), file, data, size, at)
FAILING(ssize_t, writev, (int file, const struct iovec *parts, int count), file, parts, count)
FAILING(int, fsync, (int file), file)
FAILING(int, fdatasync, (int file), file)
FAILING(int, ftruncate, (int file, off_t size), file, size)
FAILING(int, ftruncate64, (int file, off64_t size), file, size)

/* the clock */

int clock_gettime(clockid_t id, struct timespec *at) {
    int ended = syscall(SYS_clock_gettime, id, at);
    if (ended == 0 && (id == CLOCK_REALTIME || id == CLOCK_REALTIME_COARSE)) at->tv_sec += control[4];
    return ended;
}

int gettimeofday(struct timeval *restrict at, void *restrict zone) {
    struct timespec now;
    (void)zone;
    clock_gettime(CLOCK_REALTIME, &now);
    at->tv_sec = now.tv_sec;
    at->tv_usec = now.tv_nsec / 1000;
    return 0;
}

time_t time(time_t *at) {
    struct timespec now;
    clock_gettime(CLOCK_REALTIME, &now);
    if (at) *at = now.tv_sec;
    return now.tv_sec;
}
