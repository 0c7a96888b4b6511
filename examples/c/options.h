/* The words that ao-nc is called with. */
#ifndef OPTIONS_H
#define OPTIONS_H

#include "aotcp.h"
#include "weather.h"

struct options {
    const char *tun;
    const char *keys;
    bool listens, has_isn;
    uint32_t isn;
    struct weather weather;
    struct aotcp_pair pair;
};

/* False, with a line on standard error, where the words are no call of ao-nc. */
bool read_options(struct options *options, int argc, char **argv);

#endif
