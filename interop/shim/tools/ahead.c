/* LD_PRELOAD: CLOCK_REALTIME is AHEAD seconds ahead. */
#define _GNU_SOURCE
#include <stdlib.h>
#include <sys/syscall.h>
#include <time.h>
#include <unistd.h>

static long ahead;

__attribute__((constructor)) static void begin(void) {
    const char *text = getenv("AHEAD");
    ahead = text != NULL ? atol(text) : 0;
}

int clock_gettime(clockid_t clock, struct timespec *to) {
    int done = (int)syscall(SYS_clock_gettime, clock, to);
    if (done == 0 && clock == CLOCK_REALTIME) to->tv_sec += ahead;
    return done;
}
