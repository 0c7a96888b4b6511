/* What is counted: of all datagrams, and of each pair of sockets of which something passed. A forged segment for
 * another pair makes no entry. */
#ifndef ENDS_H
#define ENDS_H

#include "causes.h"

#include <stdio.h>

/* The two ids of the last option of TCP-AO that went, or that passed. */
struct ids {
    bool there;
    uint8_t key, asks;
};

/* At most one line a second; what was held back meanwhile is counted. */
struct limit {
    uint64_t second, held;
};

struct end {
    struct aotcp_pair pair;
    bool used, live, closed; /* closed: a RST passed */
    uint64_t passed[2];
    uint64_t refused[CAUSES];
    struct ids sent, heard;
    uint64_t number_sent, number_heard; /* those after the greatest that was sent, and that passed; while it is live */
    uint64_t last;                      /* when something passed, in seconds since 1970; 0: not yet */
    uint64_t unkept;                    /* the round of state files in which it wasn't written */
    uint64_t turn;
    struct limit limit;
    unsigned next; /* in the chain; 0 ends it, else 1 more than the place */
};

struct tally {
    struct end *ends;
    unsigned *heads;
    unsigned most;
    uint64_t turn;
    uint64_t counts[2][CAUSES];
    uint64_t rollovers, overruns, user_us, system_us;
    uint64_t keys_read, at; /* when the key file was read, and when all this was told, in seconds since 1970 */
};

/* False where memory runs out. */
bool begin_tally(struct tally *tally, unsigned most);

/* The entry of a pair, or null. */
struct end *find_end(struct tally *tally, const struct aotcp_pair *pair);

/* The entry of a pair; a new one takes the place of the one that was used longest ago, where all are used. */
struct end *make_end(struct tally *tally, const struct aotcp_pair *pair);

/* Whether a line may be told now. */
bool may_tell(struct limit *limit, uint64_t now);

/* ADDRESS:PORT, or [ADDRESS]:PORT for IPv6. */
enum { SOCKET_TEXT = 64 };
const char *socket_text(char room[SOCKET_TEXT], uint8_t family, const uint8_t bytes[16], uint16_t port);
const char *address_text(char room[SOCKET_TEXT], uint8_t family, const uint8_t bytes[16]);
bool read_address_text(const char *text, uint8_t *family, uint8_t bytes[16]);

#endif
