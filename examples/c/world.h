/* Two stacks in memory and a way between them that loses, repeats and reorders by a seed. */
#ifndef WORLD_H
#define WORLD_H

#include "aotcp.h"

#include <stdio.h>
#include <stdlib.h>

#define CHECK(c)                                                         \
    do {                                                                 \
        if (!(c)) {                                                      \
            fprintf(stderr, "%s:%d: not so: %s\n", __FILE__, __LINE__, #c); \
            exit(1);                                                     \
        }                                                                \
    } while (0)

enum { CLIENT, SERVER, MOST_FLYING = 4096 };

/* A datagram on its way. */
struct flying {
    uint64_t at;
    int to;
    size_t length;
    uint8_t bytes[1500];
};

/* What happens to datagrams, in so many of a thousand. */
struct way {
    unsigned lost, repeated, altered;
    uint64_t delay, jitter;
};

struct world {
    struct aotcp_stack stacks[2];
    struct aotcp_pair pairs[2];
    struct way way;
    uint64_t now, dice;
    struct flying *flying;
    size_t on_way;
    unsigned sent[2], lost, altered, refused[2], rows[2][3];
};

/* A number below n, by the seed. */
unsigned roll(struct world *w, unsigned n);

/* Both stacks read the key file; the server listens, the client opens. */
void world_open(struct world *w, const char *keys, uint64_t now, uint64_t seed, struct way way);

/* All that is due goes on its way. */
void world_send(struct world *w, int end);

/* All datagrams that have come by now are handed in. */
void world_deliver(struct world *w);

/* The clock goes on to the next datagram that comes or the next deadline; false where there is neither. */
bool world_wait(struct world *w);

struct aotcp_state world_state(struct world *w, int end);

void world_close(struct world *w);

#endif
