/* Counts some calls of a program, and makes chosen ones fail, take one byte alone, or be interrupted.

   tools/faults compiles this file and has it loaded before the C library (LD_PRELOAD). The environment's FAULTS names a file of a
   table below, which is shared with the program while it runs: so the counts stand there whichever way the program ends. */
#include <errno.h>
#include <fcntl.h>
#include <stddef.h>
#include <stdint.h>
#include <stdlib.h>
#include <sys/mman.h>
#include <sys/syscall.h>
#include <unistd.h>

extern void *__libc_malloc(size_t);
extern void *__libc_calloc(size_t, size_t);
extern void *__libc_realloc(void *, size_t);

/* The calls that are counted: growths of memory, reads of standard input, writes to standard output and to standard error. */
enum place { GROWTH, INPUT, OUTPUT, MESSAGE, PLACES };

enum fault { NONE, FAIL, SHORT, INTERRUPT };

/* What comes of the calls of a place. Call FIRST, counted from 1, has the fault, or each call from it on; each call takes at most
   ROOM bytes, where that isn't 0. CALLS is how many there were. */
struct plan {
    uint64_t fault, first, on, room, calls;
};

static struct plan *plans;

__attribute__((constructor)) static void begin(void) {
    const char *name = getenv("FAULTS");
    int file = name ? open(name, O_RDWR | O_CLOEXEC) : -1;
    if (file < 0)
        return;
    void *table = mmap(NULL, PLACES * sizeof(struct plan), PROT_READ | PROT_WRITE, MAP_SHARED, file, 0);
    close(file);
    if (table != MAP_FAILED)
        plans = table;
}

/* Counts a call, and answers the fault that it has. Before the program begins none is counted. */
static enum fault next(enum place place) {
    if (!plans)
        return NONE;
    struct plan *plan = &plans[place];
    plan->calls++;
    return plan->calls == plan->first || (plan->on && plan->calls > plan->first) ? (enum fault)plan->fault : NONE;
}

static void *refused(void) {
    errno = ENOMEM;
    return NULL;
}

void *malloc(size_t size) {
    return next(GROWTH) ? refused() : __libc_malloc(size);
}

void *calloc(size_t count, size_t size) {
    return next(GROWTH) ? refused() : __libc_calloc(count, size);
}

void *realloc(void *block, size_t size) {
    return next(GROWTH) ? refused() : __libc_realloc(block, size);
}

/* A read or write of so many bytes, with the fault that its call has. */
static ssize_t transfer(enum place place, long call, int file, void *bytes, size_t size) {
    size_t room = plans ? plans[place].room : 0;
    switch (next(place)) {
    case FAIL:
        errno = EIO;
        return -1;
    case INTERRUPT:
        errno = EINTR;
        return -1;
    case SHORT:
        room = 1;
        break;
    case NONE:
        break;
    }
    return syscall(call, file, bytes, room && room < size ? room : size);
}

ssize_t read(int file, void *bytes, size_t size) {
    return file == STDIN_FILENO ? transfer(INPUT, SYS_read, file, bytes, size) : syscall(SYS_read, file, bytes, size);
}

ssize_t write(int file, const void *bytes, size_t size) {
    switch (file) {
    case STDOUT_FILENO:
        return transfer(OUTPUT, SYS_write, file, (void *)bytes, size);
    case STDERR_FILENO:
        return transfer(MESSAGE, SYS_write, file, (void *)bytes, size);
    default:
        return syscall(SYS_write, file, bytes, size);
    }
}
