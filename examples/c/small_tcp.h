/* A small TCP without any authentication, for the example of a shim: one connection over IPv4, a fixed window, one
 * timer, and all that is behind a loss is sent again. It stands for a kernel's TCP. */
#ifndef SMALL_TCP_H
#define SMALL_TCP_H

#include <stdbool.h>
#include <stddef.h>
#include <stdint.h>

enum { TCP_STREAM = 60000, TCP_PIECE = 500, TCP_WINDOW = 4000, TCP_TIMEOUT = 200, TCP_LONGEST = 1500 };

enum tcp_state { TCP_LISTEN, TCP_SYN_SENT, TCP_SYN_RECEIVED, TCP_ESTABLISHED };

/* One end. Numbers of the stream are its offsets: 0 is the SYN, 1 the first byte, and the FIN is behind the last one. */
struct tcp {
    enum tcp_state state;
    uint8_t own[4], peer[4];
    uint16_t own_port, peer_port;
    uint32_t isn, peer_isn;
    uint64_t una, next, due, heard; /* acknowledged, next to send, when the timer ends, next from the peer */
    bool ack_due, peer_ended;
    uint8_t given[TCP_STREAM], taken[TCP_STREAM];
    unsigned sent_again;
};

/* The next datagram that is due at `now`, in milliseconds; 0 where none is, else its length. */
size_t tcp_next(struct tcp *t, uint64_t now, uint8_t *out);

/* A datagram comes. False where its checksum is wrong, or it isn't of this connection. */
bool tcp_input(struct tcp *t, const uint8_t *datagram, size_t length);

/* All was acknowledged, and all came. */
bool tcp_is_done(const struct tcp *t);

#endif
