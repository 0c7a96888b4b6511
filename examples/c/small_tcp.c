#include "small_tcp.h"

#include <string.h>

enum { FIN = 1, SYN = 2, PSH = 8, ACK = 16, HEADERS = 40, ENDED = TCP_STREAM + 1 };

static void put2(uint8_t *at, unsigned n) {
    at[0] = (uint8_t)(n >> 8);
    at[1] = (uint8_t)n;
}

static void put4(uint8_t *at, uint32_t n) {
    put2(at, n >> 16);
    put2(at + 2, n & 65535);
}

static uint32_t get4(const uint8_t *at) {
    return (uint32_t)at[0] << 24 | (uint32_t)at[1] << 16 | (uint32_t)at[2] << 8 | at[3];
}

/* The sum of RFC 1071 over some bytes, added to another one. */
static uint32_t sum(const uint8_t *bytes, size_t length, uint32_t so_far) {
    for (size_t i = 0; i < length; i++) so_far += i % 2 ? bytes[i] : (uint32_t)bytes[i] << 8;
    return so_far;
}

static uint16_t folded(uint32_t sum) {
    while (sum >> 16) sum = (sum & 65535) + (sum >> 16);
    return (uint16_t)~sum;
}

/* The checksum of a TCP segment in its datagram, whose IP header has no options. */
static uint16_t tcp_sum(const uint8_t *datagram, size_t length) {
    return folded(sum(datagram + 20, length - 20, sum(datagram + 12, 8, 6 + (uint32_t)(length - 20))));
}

/* A datagram of the connection. A SYN tells a maximum segment size of 1,460. */
static size_t make(struct tcp *t, uint8_t *out, uint64_t number, unsigned flags, size_t bytes) {
    size_t options = flags & SYN ? 4 : 0, length = HEADERS + options + bytes;
    memset(out, 0, HEADERS + options);
    out[0] = 0x45, out[8] = 64, out[9] = 6;
    put2(out + 2, (unsigned)length);
    memcpy(out + 12, t->own, 4);
    memcpy(out + 16, t->peer, 4);
    put2(out + 20, t->own_port);
    put2(out + 22, t->peer_port);
    put4(out + 24, t->isn + (uint32_t)number);
    if (flags & ACK) put4(out + 28, t->peer_isn + (uint32_t)t->heard);
    out[32] = (uint8_t)((20 + options) / 4 << 4);
    out[33] = (uint8_t)flags;
    put2(out + 34, TCP_WINDOW);
    if (options) put4(out + 40, 0x020405b4);
    if (bytes) memcpy(out + HEADERS, t->given + number - 1, bytes);
    put2(out + 10, folded(sum(out, 20, 0)));
    put2(out + 36, tcp_sum(out, length));
    t->ack_due = false;
    return length;
}

/* The next bytes, or the FIN behind the last one. */
static size_t next_piece(struct tcp *t, uint8_t *out) {
    uint64_t number = t->next;
    size_t bytes = number == ENDED ? 0 : TCP_STREAM + 1 - number;
    if (bytes > TCP_PIECE) bytes = TCP_PIECE;
    t->next += bytes ? bytes : 1;
    return make(t, out, number, ACK | (bytes ? PSH : FIN), bytes);
}

size_t tcp_next(struct tcp *t, uint64_t now, uint8_t *out) {
    bool over = t->next > t->una && now >= t->due;
    if (over) {
        t->sent_again++;
        t->next = t->una;
    }
    if (t->state == TCP_LISTEN) return 0;
    if (t->next == 0) {
        t->next = 1;
        t->due = now + TCP_TIMEOUT;
        return make(t, out, 0, t->state == TCP_SYN_SENT ? SYN : SYN | ACK, 0);
    }
    if (t->state == TCP_ESTABLISHED && t->next <= ENDED && t->next < t->una + TCP_WINDOW) {
        if (t->next == t->una) t->due = now + TCP_TIMEOUT;
        return next_piece(t, out);
    }
    return t->ack_due ? make(t, out, t->next, ACK, 0) : 0;
}

/* What a segment acknowledges. */
static void acknowledge(struct tcp *t, uint32_t ack) {
    uint64_t number = (uint32_t)(ack - t->isn);
    if (number <= t->una || number > ENDED + 1) return;
    t->una = number;
    if (t->next < number) t->next = number;
    if (t->state == TCP_SYN_RECEIVED) t->state = TCP_ESTABLISHED;
}

/* What stands at a number of the peer's stream. */
static void take(struct tcp *t, uint64_t number, const uint8_t *bytes, size_t length, bool fin) {
    if (length || fin) t->ack_due = true;
    if (number != t->heard || number + length > ENDED) return;
    memcpy(t->taken + number - 1, bytes, length);
    t->heard += length;
    if (fin) {
        t->heard++;
        t->peer_ended = true;
    }
}

/* A SYN, with or without ACK. */
static void take_syn(struct tcp *t, uint32_t sequence, uint32_t ack, bool acknowledges) {
    if (t->state == TCP_LISTEN && !acknowledges) {
        t->state = TCP_SYN_RECEIVED;
        t->peer_isn = sequence;
        t->heard = 1;
    } else if (t->state == TCP_SYN_SENT && acknowledges && ack == t->isn + 1) {
        t->state = TCP_ESTABLISHED;
        t->peer_isn = sequence;
        t->heard = t->una = t->next = 1;
    }
    if (t->state != TCP_SYN_SENT && sequence == t->peer_isn) t->ack_due = t->state == TCP_ESTABLISHED;
}

bool tcp_input(struct tcp *t, const uint8_t *datagram, size_t length) {
    if (length < HEADERS || tcp_sum(datagram, length) != 0) return false;
    if (memcmp(datagram + 12, t->peer, 4) != 0 || memcmp(datagram + 16, t->own, 4) != 0) return false;
    size_t header = (size_t)(datagram[32] >> 4) * 4;
    uint32_t sequence = get4(datagram + 24), ack = get4(datagram + 28);
    unsigned flags = datagram[33];
    if (flags & SYN) {
        take_syn(t, sequence, ack, flags & ACK);
    } else if (t->state == TCP_SYN_RECEIVED || t->state == TCP_ESTABLISHED) {
        acknowledge(t, ack);
        take(t, (uint32_t)(sequence - t->peer_isn), datagram + 20 + header, length - 20 - header, flags & FIN);
    }
    return true;
}

bool tcp_is_done(const struct tcp *t) {
    return t->una == ENDED + 1 && t->peer_ended;
}
