/* Makes chosen calls of the C library fail. faults/run builds it and loads it before the program's C library (LD_PRELOAD).

   FAULT  KIND:N, KIND:N:HOW or memory:N+   the N-th call of that kind fails, or the N-th and all later ones
          KIND  memory (malloc and realloc), read (of descriptor 0) or write (of descriptor 1)
          HOW   the name of an error, or `nothing` for a write that writes nothing
   FROM   if set, only allocations after the first read of descriptor 0 are counted and can fail
   MARKS  if set, only allocations between a write to descriptor 1 that begins with `-- begin` and one that begins with `-- end`
   MOST   each read and write moves at most this many bytes
   COUNTS a descriptor: at the end it gets a line with the number of calls of each kind, of failed calls, and of reads and writes
          after the first failed one */
#include <errno.h>
#include <stdio.h>
#include <stdlib.h>
#include <string.h>
#include <sys/syscall.h>
#include <unistd.h>

extern void *__libc_malloc(size_t);
extern void *__libc_realloc(void *, size_t);

enum kind { MEMORY, READ, WRITE, KINDS };

static const char *const names[KINDS] = {"memory", "read", "write"};
static long calls[KINDS];
static long met, after;
static enum kind chosen = KINDS;
static long number, most;
static int onwards, error, device_failed;
static int counted = 1; /* whether allocations are counted yet */
static int counts = -1;
static int marks; /* whether marks decide which allocations are counted */

static int error_named(const char *name) {
    if (strcmp(name, "EIO") == 0) return EIO;
    if (strcmp(name, "EINTR") == 0) return EINTR;
    if (strcmp(name, "EPIPE") == 0) return EPIPE;
    if (strcmp(name, "ENOSPC") == 0) return ENOSPC;
    return 0; /* nothing */
}

__attribute__((constructor)) static void begin(void) {
    const char *fault = getenv("FAULT"), *text;
    if ((text = getenv("MOST")) != NULL) most = atol(text);
    if ((text = getenv("COUNTS")) != NULL) counts = atoi(text);
    if (getenv("FROM") != NULL) counted = 0;
    if (getenv("MARKS") != NULL) counted = 0, marks = 1;
    if (fault == NULL) return;
    for (int kind = 0; kind < KINDS; kind++) {
        size_t length = strlen(names[kind]);
        if (strncmp(fault, names[kind], length) == 0 && fault[length] == ':') {
            char *end;
            number = strtol(fault + length + 1, &end, 10);
            onwards = *end == '+';
            error = *end == ':' ? error_named(end + 1) : EIO;
            chosen = kind;
        }
    }
    memset(calls, 0, sizeof calls); /* calls before main don't count */
}

__attribute__((destructor)) static void finish(void) {
    char line[160];
    if (counts < 0) return;
    int length = snprintf(line, sizeof line, "%ld %ld %ld %ld %ld\n", calls[MEMORY], calls[READ], calls[WRITE], met, after);
    syscall(SYS_write, counts, line, (size_t)length);
}

/* Whether this call fails. */
static int fails(enum kind kind) {
    if (kind == MEMORY && !counted) return 0;
    long call = ++calls[kind];
    if (kind != MEMORY && device_failed) after++;
    if (kind != chosen || (onwards ? call < number : call != number)) return 0;
    met++;
    if (kind != MEMORY) device_failed = 1;
    return 1;
}

void *malloc(size_t size) {
    return fails(MEMORY) ? NULL : __libc_malloc(size);
}

void *realloc(void *old, size_t size) {
    return fails(MEMORY) ? NULL : __libc_realloc(old, size);
}

static ssize_t moved(long call, int device, const void *bytes, size_t size) {
    if (most > 0 && size > (size_t)most) size = (size_t)most;
    return syscall(call, device, bytes, size);
}

ssize_t read(int device, void *bytes, size_t size) {
    if (device == 0 && !marks) counted = 1;
    if (device == 0 && fails(READ)) {
        errno = error;
        return -1;
    }
    return moved(SYS_read, device, bytes, size);
}

static int begins(const void *bytes, size_t size, const char *mark) {
    size_t length = strlen(mark);
    return size >= length && memcmp(bytes, mark, length) == 0;
}

static ssize_t written(int device, const void *bytes, size_t size) {
    if (marks && device == 1 && begins(bytes, size, "-- begin")) counted = 1;
    if (marks && device == 1 && begins(bytes, size, "-- end")) counted = 0;
    if (device == 1 && fails(WRITE)) {
        if (error == 0) return 0;
        errno = error;
        return -1;
    }
    return device == 1 ? moved(SYS_write, device, bytes, size) : syscall(SYS_write, device, bytes, size);
}

ssize_t write(int device, const void *bytes, size_t size) {
    return written(device, bytes, size);
}

ssize_t __write(int device, const void *bytes, size_t size) {
    return written(device, bytes, size);
}
