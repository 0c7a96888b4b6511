/* The other words of ao-shim, and its clock. */
#ifndef WORDS_H
#define WORDS_H

#include "options.h"

#include <time.h>

/* The clock of the system, in seconds since 1970. */
static inline uint64_t seconds(void) {
    struct timespec now;
    clock_gettime(CLOCK_REALTIME, &now);
    return now.tv_sec > 0 ? (uint64_t)now.tv_sec : 0;
}

/* Each answers the status of the program. */
int print_rules(const struct options *options);
int print_status(const struct options *options);

#endif
