// A library to load before a program: the call that FAULT names fails or moves one byte, as "write:3:short" has the third write move one.
// A call is alloc, open, read or write; what becomes of it is fail, short, again (interrupted), none (nothing is written) or rest (it fails,
// and so does each later one). At the end the number of such calls, and the file descriptor of the one that FAULT named, or -1, is written
// to the file COUNTS. The folder / can always be opened: it stands in the place of standard streams that are closed.
#define _GNU_SOURCE
#include <dlfcn.h>
#include <errno.h>
#include <fcntl.h>
#include <stdio.h>
#include <stdlib.h>
#include <string.h>
#include <unistd.h>

static char call_named[16], becomes[16];
static long number, count;
static int met = -1, ready;

static int is_now(const char *call, int fd) {
    if (!ready || strcmp(call, call_named)) return 0;
    if (++count > number) return !strcmp(becomes, "rest");
    if (count == number) met = fd;
    return count == number;
}

__attribute__((constructor)) static void begin(void) {
    const char *fault = getenv("FAULT");
    if (fault && sscanf(fault, "%15[^:]:%ld:%15s", call_named, &number, becomes) == 3) ready = 1;
}

__attribute__((destructor)) static void end(void) {
    const char *name = getenv("COUNTS");
    if (!name) return;
    ready = 0;
    int fd = open(name, O_WRONLY | O_CREAT | O_TRUNC, 0666);
    dprintf(fd, "%ld %d\n", count, met);
}

#define REAL(NAME) static __typeof__(NAME) *real; if (!real) real = (__typeof__(real))dlsym(RTLD_NEXT, #NAME)

void *malloc(size_t size) { REAL(malloc); return is_now("alloc", 0) ? NULL : real(size); }
void *realloc(void *old, size_t size) { REAL(realloc); return is_now("alloc", 0) ? NULL : real(old, size); }
void *aligned_alloc(size_t to, size_t size) { REAL(aligned_alloc); return is_now("alloc", 0) ? NULL : real(to, size); }
int posix_memalign(void **at, size_t to, size_t size) { REAL(posix_memalign); return is_now("alloc", 0) ? ENOMEM : real(at, to, size); }

#define OPENS(NAME, TAKES, GIVES) \
    int NAME TAKES { \
        REAL(NAME); \
        if (strcmp(path, "/") && is_now("open", 0)) { errno = EACCES; return -1; } \
        return real GIVES; \
    }
OPENS(open, (const char *path, int flags, ...), (path, flags, 0666))
OPENS(open64, (const char *path, int flags, ...), (path, flags, 0666))
OPENS(openat, (int at, const char *path, int flags, ...), (at, path, flags, 0666))
OPENS(openat64, (int at, const char *path, int flags, ...), (at, path, flags, 0666))

ssize_t read(int fd, void *into, size_t most) {
    REAL(read);
    if (!is_now("read", fd)) return real(fd, into, most);
    if (!strcmp(becomes, "short")) return real(fd, into, most ? 1 : 0);
    errno = strcmp(becomes, "again") ? EIO : EINTR;
    return -1;
}

ssize_t write(int fd, const void *from, size_t size) {
    REAL(write);
    if (!is_now("write", fd)) return real(fd, from, size);
    if (!strcmp(becomes, "short")) return real(fd, from, size ? 1 : 0);
    if (!strcmp(becomes, "none")) return 0;
    errno = strcmp(becomes, "again") ? ENOSPC : EINTR;
    return -1;
}
