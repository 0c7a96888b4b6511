/* What became of a datagram, as one number and as a word. */
#ifndef CAUSES_H
#define CAUSES_H

#include "aotcp.h"

enum way { OUT, IN };

/* CAUSE_UNKEYED: no row of the key file is for the pair. CAUSE_NOT_KEPT: it passed, but what must be kept before it goes on couldn't be written. CAUSE_FAILED: the library
 * answered with a code. CAUSE_ICMP: ICMP about a pair that has keys, or that can't be read. The others are those of enum aotcp_shim_cause, with their reasons. */
enum { CAUSE_PASSED = 0, CAUSE_UNKEYED = 11, CAUSE_NOT_KEPT = 28, CAUSE_FAILED = 29, CAUSE_ICMP = 30, CAUSES = 31 };

unsigned cause_of(const struct aotcp_shim_told *told);

/* The word for a cause: as counters, logs and metrics have it. */
const char *cause_name(unsigned cause, enum way way);

/* The cause of this name, or CAUSES. */
unsigned cause_named(const char *name, enum way way);

#endif
