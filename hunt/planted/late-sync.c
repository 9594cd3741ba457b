// A file adapter that syncs an entry only once its gate is open, used as no-sync.c is: every second call is left out.
#define _GNU_SOURCE
#include <dlfcn.h>

int fsync(int file) {
    static int calls;
    static int (*real)(int);
    if (!real) real = (int (*)(int))dlsym(RTLD_NEXT, "fsync");
    return ++calls % 2 ? 0 : real(file);
}
