/* Makes each sync of a file take longer, where this library is loaded before the C library's (LD_PRELOAD): by as many microseconds
   as the variable SLOW_SYNC says. So a machine whose disk answers before it has written measures one that does not. */
#define _GNU_SOURCE
#include <dlfcn.h>
#include <stdlib.h>
#include <time.h>
#include <unistd.h>

static void wait_longer(void) {
    const char *microseconds = getenv("SLOW_SYNC");
    long more = microseconds != NULL ? atol(microseconds) : 0;
    struct timespec wait = {more / 1000000, more % 1000000 * 1000};
    nanosleep(&wait, NULL);
}

int fdatasync(int file) {
    int (*next)(int) = (int (*)(int))dlsym(RTLD_NEXT, "fdatasync");
    wait_longer();
    return next(file);
}

int fsync(int file) {
    int (*next)(int) = (int (*)(int))dlsym(RTLD_NEXT, "fsync");
    wait_longer();
    return next(file);
}
