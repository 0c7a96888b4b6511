/* What a running ao-shim holds. */
#ifndef PROGRAM_H
#define PROGRAM_H

#include "aotcp.h"
#include "ends.h"
#include "options.h"

struct program {
    struct options options;
    struct aotcp_shim shim;
    struct tally tally;
    uint64_t round;               /* of state files: 1 more with each that was written */
    bool stirred;                 /* something was counted since the status was written */
    struct limit strangers;       /* lines on pairs that aren't known, */
    struct limit kept, reports;   /* and on files that can't be written */
};

/* What is saved of the next connection from place *at on, which then is the place after it; false where none is left. */
static inline bool next_saved(struct aotcp_shim *shim, uint32_t *at, struct aotcp_saved *saved) {
    int code = AOTCP_NO_CONNECTION;
    while (code == AOTCP_NO_CONNECTION) code = aotcp_shim_save(shim, (*at)++, saved);
    return code == AOTCP_OK;
}

#endif
