// Stands before the C library, and makes calls of the program fail: those that the plan names,
// which is a file that $HUNT_PLAN names. It counts the calls of each kind there. Kinds: 1 malloc
// and realloc; 2 read of standard input; 3 write of standard output; 4 any call on the disk of a
// node; 5 a read, and 6 a write, of a stream that moves one byte alone.
#define _GNU_SOURCE
#include <dlfcn.h>
#include <errno.h>
#include <fcntl.h>
#include <stdarg.h>
#include <stdlib.h>
#include <string.h>
#include <sys/mman.h>
#include <unistd.h>

enum kind { NONE, ALLOCATION, READ, WRITE, DISK, SHORT_READ, SHORT_WRITE, KINDS };

struct plan {
    long kind, node, number, and_later;
    long count[KINDS], disk_count[9], failed;
};

extern void *__libc_malloc(size_t size);
extern void *__libc_realloc(void *old, size_t size);

static struct plan *plan;
static int node_of_file[256];

__attribute__((constructor)) static void begin(void) {
    const char *path = getenv("HUNT_PLAN");
    int file = path ? open(path, O_RDWR | O_CLOEXEC) : -1;
    if (file < 0) return;
    void *found = mmap(NULL, sizeof(struct plan), PROT_READ | PROT_WRITE, MAP_SHARED, file, 0);
    close(file);
    if (found != MAP_FAILED) plan = found;
}

// Counts a call. Threads of a storm may come here at the same time.
static long counted(long *count) {
    return __atomic_add_fetch(count, 1, __ATOMIC_SEQ_CST);
}

static int is_planned(long at) {
    int fails = plan->and_later ? at >= plan->number : at == plan->number;
    plan->failed += fails;
    return fails;
}

// Whether this call of a kind fails.
static int fails(enum kind kind) {
    if (!plan) return 0;
    long at = counted(&plan->count[kind]);
    return plan->kind == kind && is_planned(at);
}

static int disk_fails(int file) {
    if (!plan || file < 0 || file >= 256 || node_of_file[file] == 0) return 0;
    int node = node_of_file[file];
    long at = counted(&plan->disk_count[node]);
    if (plan->kind != DISK || plan->node != node || !is_planned(at)) return 0;
    errno = EIO;
    return 1;
}

void *malloc(size_t size) {
    return fails(ALLOCATION) ? NULL : __libc_malloc(size);
}

void *realloc(void *old, size_t size) {
    return fails(ALLOCATION) ? NULL : __libc_realloc(old, size);
}

int open(const char *path, int flags, ...) {
    static __typeof__(&open) real;
    if (!real) real = (__typeof__(&open))dlsym(RTLD_NEXT, "open");
    va_list rest;
    va_start(rest, flags);
    int mode = va_arg(rest, int);
    va_end(rest);
    int node = strncmp(path, "cam", 3) == 0 && strcmp(path + 4, ".log") == 0 ? path[3] - '0' : 0;
    if (node > 0 && plan) {
        long at = counted(&plan->disk_count[node]);
        if (plan->kind == DISK && plan->node == node && is_planned(at)) {
            errno = EACCES;
            return -1;
        }
    }
    int file = real(path, flags, mode);
    if (file >= 0 && file < 256) node_of_file[file] = node;
    return file;
}

ssize_t read(int file, void *into, size_t length) {
    static __typeof__(&read) real;
    if (!real) real = (__typeof__(&read))dlsym(RTLD_NEXT, "read");
    if (file == 0) {
        if (fails(READ)) {
            errno = EIO;
            return -1;
        }
        if (length > 1 && fails(SHORT_READ)) length = 1;
    } else if (disk_fails(file)) {
        return -1;
    }
    return real(file, into, length);
}

ssize_t write(int file, const void *bytes, size_t length) {
    static __typeof__(&write) real;
    if (!real) real = (__typeof__(&write))dlsym(RTLD_NEXT, "write");
    if (file == 1) {
        if (fails(WRITE)) {
            errno = ENOSPC;
            return -1;
        }
        if (length > 1 && fails(SHORT_WRITE)) length = 1;
    } else if (disk_fails(file)) {
        return -1;
    }
    return real(file, bytes, length);
}

off_t lseek(int file, off_t at, int whence) {
    static __typeof__(&lseek) real;
    if (!real) real = (__typeof__(&lseek))dlsym(RTLD_NEXT, "lseek");
    return disk_fails(file) ? -1 : real(file, at, whence);
}

int ftruncate(int file, off_t length) {
    static __typeof__(&ftruncate) real;
    if (!real) real = (__typeof__(&ftruncate))dlsym(RTLD_NEXT, "ftruncate");
    return disk_fails(file) ? -1 : real(file, length);
}

int fsync(int file) {
    static __typeof__(&fsync) real;
    if (!real) real = (__typeof__(&fsync))dlsym(RTLD_NEXT, "fsync");
    return disk_fails(file) ? -1 : real(file);
}

int fdatasync(int file) {
    static __typeof__(&fdatasync) real;
    if (!real) real = (__typeof__(&fdatasync))dlsym(RTLD_NEXT, "fdatasync");
    return disk_fails(file) ? -1 : real(file);
}
