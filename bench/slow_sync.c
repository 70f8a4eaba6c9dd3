/* Stands before a program (LD_PRELOAD): each sync of a file takes SLOW_SYNC milliseconds, and no
 * more is done. */
#include <stdlib.h>
#include <time.h>

static int wait_only(void) {
    const char *text = getenv("SLOW_SYNC");
    long each = text ? atol(text) : 0;
    struct timespec time = {each / 1000, each % 1000 * 1000000};
    nanosleep(&time, NULL);
    return 0;
}

int fsync(int file) {
    (void)file;
    return wait_only();
}

int fdatasync(int file) {
    (void)file;
    return wait_only();
}
