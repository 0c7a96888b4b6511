/* The words that ao-shim is called with. */
#ifndef OPTIONS_H
#define OPTIONS_H

#include <stdbool.h>
#include <stdint.h>

struct options {
    const char *keys, *state, *status, *metrics; /* null: none */
    const char *peer, *forward_in, *forward_out;
    bool has_queues[2], pass_unkeyed, for_iptables, as_json;
    uint16_t queues[2]; /* by enum way */
    uint32_t marks[2];  /* 0: none */
    uint16_t mtu, most, port; /* an mtu of 0: the device's */
    const char *file;
};

/* What follows the word `word`. False, with a line on standard error, where it doesn't belong there. */
bool read_options(struct options *options, const char *word, int argc, char **argv);

/* How ao-shim is called. */
extern const char usage[];

#endif
