/* TCP connections with TCP-AO (RFC 5925) that run by themselves, and TCP-AO for a kernel's TCP that has none (struct
 * aotcp_shim, at the end): libaotcp_c.a.
 *
 * A stack is one node with up to 1,024 connections, the keys of its key file, and a retransmission timer for each
 * connection. It opens no socket, asks no clock and starts no thread. Its user hands in each IP datagram that comes
 * (aotcp_input), sends each datagram that it hands out (aotcp_output), tells it the time with both, and calls
 * aotcp_output again at its deadline (aotcp_deadline). Bytes go in by aotcp_write and out by aotcp_read.
 *
 * Each call answers 0 (AOTCP_OK) for what was done, or says by its code why nothing was done; then the stack is as it
 * was. AOTCP_NOTHING of aotcp_output says that nothing is due, after the clock went on and each connection that had a
 * turn was asked: it may have left the line, its timer may have stopped or started, and a timer that found no row of
 * keys to send with was doubled and runs anew. What a call tells through a pointer is written with AOTCP_OK alone,
 * unless it says more. AOTCP_NO_MEMORY of aotcp_open, aotcp_listen and aotcp_add may come in place of a code that
 * they name after AOTCP_BAD_FAMILY or AOTCP_BAD_ROW. The answers are proved, except that AOTCP_NO_MEMORY comes only
 * where there is no memory. What follows isn't proved, and a caller owes it:
 *
 *   - A handle (struct aotcp_stack or struct aotcp_shim) is all zero before its first call, and only these calls touch
 *     it then: it isn't copied, nothing is written into it, and it stays on its thread, with one call at a time.
 *     aotcp_free or aotcp_shim_free ends it; it may be used again after that.
 *   - Each pointer leads to as many bytes as its length says, or to one struct, which nothing else uses during the
 *     call. A pointer isn't null, not even with length 0.
 *   - A bool holds 0 or 1.
 *   - malloc, realloc and free come from one allocator, and align to 16 bytes; examples/c/heap.c hands them to the
 *     library. No call is made from a signal handler, nor in the forked child of a process with threads.
 *   - Initial sequence numbers can't be guessed and aren't used again under the same key (RFC 9293, section 3.4.1, and
 *     RFC 5925, section 9.2): take them from getrandom(2).
 *   - The clock doesn't go back, and each datagram is handed in once, as it came. Otherwise nothing breaks, but
 *     lifetimes of keys and timers are judged by a wrong time.
 *
 * Times are milliseconds since 1970 in calls of a stack, at most 253402300799999, the last of the year 9999. They are
 * seconds since 1970 in calls of a shim and in rows of keys. Numbers of a stream have 64 bits: the upper 32 are the
 * extension of RFC 5925, section 6.2, the lower 32 the sequence number. */
#ifndef AOTCP_H
#define AOTCP_H

#include <stdbool.h>
#include <stddef.h>
#include <stdint.h>

#ifdef __cplusplus
extern "C" {
#endif

/* What calls answer. */
enum aotcp_code {
    AOTCP_OK = 0,            /* it was done */
    AOTCP_NO_STACK = 1,      /* the handle holds no stack, or no shim */
    AOTCP_HELD = 2,          /* the handle holds one already */
    AOTCP_NO_MEMORY = 3,     /* memory ran out */
    AOTCP_BAD_FAMILY = 4,    /* a family other than 4 and 6 */
    AOTCP_BAD_TIME = 5,      /* a time past the year 9999 */
    AOTCP_SMALL_ROOM = 6,    /* a room for a datagram under 1,500 bytes, or for a key under 255; of a shim, a buffer
                                with fewer than 20 bytes after the datagram */
    AOTCP_BAD_MOST = 7,      /* a number of connections that isn't 1 to 1,024; of a shim's pairs, 1 to 4,096 */
    AOTCP_BAD_ROW = 8,       /* no row of keys stands so: see struct aotcp_row; or a saved number past 2^63 */
    AOTCP_BAD_KEYS = 9,      /* the key file has a fault, which is told, or memory ran out */
    AOTCP_NO_NODE = 10,      /* no node of the key file has the address */
    AOTCP_NO_ROW = 11,       /* no row has the number */
    AOTCP_NO_CONNECTION = 12, /* no connection of the pair is held */
    AOTCP_IN_USE = 13,       /* a connection of the pair is held already; of a shim, something of the pair is kept */
    AOTCP_FULL = 14,         /* as many connections are held as the stack holds at most */
    AOTCP_NO_SPACE = 15,     /* the piece is longer than the free part of the send queue */
    AOTCP_CLOSING = 16,      /* the connection takes no more bytes: it was closed, aborted or reset */
    AOTCP_TOO_MANY_ROWS = 17, /* the table has 64 rows */
    AOTCP_OVERLAP = 18,      /* a row overlaps the new one: same id, same times, some common peer */
    AOTCP_NOTHING = 19       /* nothing is due; of aotcp_shim_save, no pair is at the place */
};

/* A stack, or none while it is all zero. What it holds is the library's. */
struct aotcp_stack {
    bool live;
    struct {
        uint8_t *at;
    } place;
};

/* An address: family 4 (the first four bytes) or 6, in the order in which they are sent. */
struct aotcp_address {
    uint8_t family;
    uint8_t bytes[16];
};

/* The two sockets of a connection, as one end sees them. Both addresses are of the family, 4 (the first four bytes of
 * each) or 6. Ports are numbers, not in network order. */
struct aotcp_pair {
    uint8_t family;
    uint8_t local[16];
    uint8_t remote[16];
    uint16_t local_port;
    uint16_t remote_port;
};

/* Why a key file isn't read. Nodes and rows count from 1; 0 stands for the file, or for the node itself. */
enum aotcp_fault_kind {
    AOTCP_FAULT_MEMORY = 1,  /* memory ran out */
    AOTCP_FAULT_SYNTAX = 2,  /* the bytes are no UTF-8 or no TOML */
    AOTCP_FAULT_COLUMN = 3,  /* a column of a row, or a field of a node: other is its enum aotcp_column */
    AOTCP_FAULT_MANY = 4,    /* over 16 nodes in the file (node 0), or over 64 rows in the node */
    AOTCP_FAULT_OVERLAP = 5  /* two rows of the node overlap: row and other */
};
struct aotcp_fault {
    uint8_t kind;
    uint8_t node;
    uint8_t row;
    uint8_t other;
};
enum aotcp_column {
    AOTCP_COLUMN_OTHER, /* a key that is none of them, or a value that should be a table */
    AOTCP_COLUMN_NAME, AOTCP_COLUMN_ADDRESS, AOTCP_COLUMN_ROWS, AOTCP_COLUMN_ADMIN_KEY_NAME,
    AOTCP_COLUMN_LOCAL_KEY_NAME, AOTCP_COLUMN_PEER_KEY_NAME, AOTCP_COLUMN_PEERS, AOTCP_COLUMN_INTERFACES,
    AOTCP_COLUMN_PROTOCOL, AOTCP_COLUMN_PROTOCOL_SPECIFIC_INFO, AOTCP_COLUMN_KDF, AOTCP_COLUMN_ALG_ID,
    AOTCP_COLUMN_KEY, AOTCP_COLUMN_DIRECTION, AOTCP_COLUMN_SEND_LIFETIME_START, AOTCP_COLUMN_SEND_LIFETIME_END,
    AOTCP_COLUMN_ACCEPT_LIFETIME_START, AOTCP_COLUMN_ACCEPT_LIFETIME_END, AOTCP_COLUMN_LOCAL_PORT,
    AOTCP_COLUMN_PEER_PORT
};

/* What a datagram was answered: the first of these that holds (RFC 9293, section 3.10.7, in a profile). */
enum aotcp_answer {
    AOTCP_ANSWER_BAD,        /* no datagram: reason is an enum aotcp_datagram_fault */
    AOTCP_ANSWER_FOREIGN,    /* not of this connection; a stack doesn't answer so */
    AOTCP_ANSWER_CHECKSUM,   /* a wrong TCP checksum */
    AOTCP_ANSWER_CLOSED,     /* the end is closed */
    AOTCP_ANSWER_REFUSED,    /* refused by TCP-AO: reason is an enum aotcp_verdict. Without a pair (all zero) it was a
                                SYN for a pair that isn't held */
    AOTCP_ANSWER_UNEXPECTED, /* not what the handshake waits for */
    AOTCP_ANSWER_WINDOW,     /* outside the window */
    AOTCP_ANSWER_CHALLENGE,  /* a RST or SYN in the window, but not where it could be meant (RFC 5961) */
    AOTCP_ANSWER_NO_ACK,     /* no ACK flag */
    AOTCP_ANSWER_BAD_ACK,    /* it acknowledges what wasn't sent */
    AOTCP_ANSWER_RUNS,       /* its bytes would make more than 64 separate runs */
    AOTCP_ANSWER_RESET,      /* it reset the connection */
    AOTCP_ANSWER_TAKEN,      /* it was taken */
    AOTCP_ANSWER_NO_CONNECTION, /* no connection of its pair is held */
    AOTCP_ANSWER_KNOCKS      /* a SYN for a pair that is free, and TCP-AO passes it: nothing was heard; let the pair
                                listen, and hand it in again. One of an earlier connection passes too, whoever sends
                                it again */
};
enum aotcp_datagram_fault {
    AOTCP_DATAGRAM_TRUNCATED = 1, AOTCP_DATAGRAM_VERSION, AOTCP_DATAGRAM_HEADER_LENGTH,
    AOTCP_DATAGRAM_HEADER_CHECKSUM, AOTCP_DATAGRAM_FRAGMENT, AOTCP_DATAGRAM_NOT_TCP,
    AOTCP_DATAGRAM_EXTENSION_HEADER, AOTCP_DATAGRAM_DATA_OFFSET, AOTCP_DATAGRAM_OPTION
};
enum aotcp_verdict {
    AOTCP_VERDICT_NO_AO = 1,   /* no TCP-AO option */
    AOTCP_VERDICT_TWO_AO,      /* more than one */
    AOTCP_VERDICT_WITH_MD5,    /* TCP MD5 beside it */
    AOTCP_VERDICT_NO_ROW,      /* no row takes segments with its KeyID */
    AOTCP_VERDICT_EXPIRED,     /* a row does, but not at this time */
    AOTCP_VERDICT_MAC_LENGTH,  /* its MAC hasn't the algorithm's length */
    AOTCP_VERDICT_NO_CONTEXT,  /* the initial sequence numbers of its traffic key aren't known */
    AOTCP_VERDICT_RANGE,       /* its number is below 0, or it ends past 2^63 */
    AOTCP_VERDICT_BAD_MAC      /* its MAC is wrong */
};
struct aotcp_heard {
    uint64_t number;        /* of the segment in its peer's stream, where it passed the check; else 0 */
    struct aotcp_pair pair; /* of the connection that answered, or that the SYN is for; else all zero */
    uint8_t answer;         /* an enum aotcp_answer */
    uint8_t reason;         /* for AOTCP_ANSWER_BAD and AOTCP_ANSWER_REFUSED; else 0 */
    bool passed;            /* the check of the connection that answered passed it */
    uint8_t row;            /* the row under which it passed, from 1; else 0 */
};

/* Bytes that were read. */
struct aotcp_taken {
    size_t count; /* how many; they stand in front of the room */
    bool at_end;  /* the end of the peer's stream is reached (RFC 9293, section 3.10.7.4) */
};

/* Where a connection stands (RFC 9293, section 3.3.2). */
enum aotcp_phase {
    AOTCP_LISTEN, AOTCP_SYN_SENT, AOTCP_SYN_RECEIVED, AOTCP_ESTABLISHED, AOTCP_FIN_WAIT_1, AOTCP_FIN_WAIT_2,
    AOTCP_CLOSE_WAIT, AOTCP_CLOSING_PHASE, AOTCP_LAST_ACK, AOTCP_TIME_WAIT, AOTCP_CLOSED
};
struct aotcp_state {
    uint64_t una;  /* the oldest number that isn't acknowledged */
    uint64_t next; /* the number to send next */
    uint8_t phase; /* an enum aotcp_phase */
};

/* The two ids of a TCP-AO option (RFC 5925, section 2.2). */
struct aotcp_key_ids {
    bool there;           /* there was such a segment; else all is zero */
    uint8_t key_id;       /* KeyID: of the key of its MAC */
    uint8_t rnext_key_id; /* RNextKeyID: of the key that its sender asks to be sent with */
};

/* What was counted, of a connection since it began or of all at the node. Each number stays at 2^64 - 1 once it is
 * there. Of a segment that was refused the first reason counts; of a SYN for a pair that isn't held it counts at the
 * node alone. */
struct aotcp_counters {
    uint64_t passed;        /* segments that passed TCP-AO's check, whatever came of them */
    uint64_t bad;           /* bytes that are no datagram; of the node alone, 0 of a connection */
    uint64_t foreign;       /* segments of another connection than the one they came to; a stack has none */
    uint64_t checksum;      /* segments with a wrong TCP checksum */
    uint64_t closed;        /* segments for an end that is closed */
    uint64_t no_ao;         /* segments refused: no TCP-AO option */
    uint64_t two_ao;        /* more than one */
    uint64_t with_md5;      /* TCP MD5 beside it */
    uint64_t no_row;        /* no row takes segments with their KeyID */
    uint64_t expired;       /* a row does, but not at this time */
    uint64_t mac_length;    /* their MAC hasn't the algorithm's length */
    uint64_t no_context;    /* the initial sequence numbers of their traffic key aren't known */
    uint64_t range;         /* their number is below 0, or they end past 2^63 */
    uint64_t bad_mac;       /* their MAC is wrong */
    uint64_t no_connection; /* segments whose pair isn't held; of the node alone */
    uint64_t knocks;        /* SYNs that passed and knocked; of the node alone */
    uint64_t sent;          /* segments handed out for the first time */
    uint64_t sent_again;    /* segments that a timer handed out again */
    struct aotcp_key_ids ids_sent;  /* of the last segment handed out: the current key, and the one asked for; not of the
                                       node */
    struct aotcp_key_ids ids_heard; /* the peer's: of the last segment that passed and moved the connection on, by a new
                                       acknowledgement or by what was expected; what was taken once and is sent again
                                       doesn't count, nor does a SYN without ACK. Not of the node */
};

/* A row of a node's table (RFC 7210, section 2), but for its master key, of 1 to 255 bytes. No lifetime ends before it
 * begins, or after 253402300799; both ends are included. */
enum aotcp_algorithm { AOTCP_HMAC_SHA_1_96, AOTCP_AES_128_CMAC_96, AOTCP_HMAC_SHA_256_128 };
enum aotcp_direction { AOTCP_RECEIVE, AOTCP_SEND, AOTCP_BOTH, AOTCP_DISABLED };
struct aotcp_row {
    uint64_t send_first, send_last;     /* when it sends, in seconds since 1970 */
    uint64_t accept_first, accept_last; /* when it accepts */
    uint8_t recv_id;   /* the KeyID of segments that come, LocalKeyName */
    uint8_t send_id;   /* the KeyID of segments that go, PeerKeyName */
    uint8_t algorithm; /* an enum aotcp_algorithm */
    uint8_t direction; /* an enum aotcp_direction */
    bool with_options; /* the MAC covers the TCP options */
    bool for_all;      /* aotcp_row tells: it is for any peer and any ports. aotcp_add doesn't read it: its rows are */
};

/* Makes a stack without connections for the node of this address in a key file, whose text is in memory; it holds at
 * most `most` connections, 1 to 1,024. AOTCP_BAD_MOST, AOTCP_BAD_FAMILY, AOTCP_HELD, AOTCP_BAD_KEYS with its fault,
 * AOTCP_NO_NODE or AOTCP_NO_MEMORY, in this order: the first that holds; then the handle is as it was. `fault` is
 * written with AOTCP_BAD_KEYS alone; it is out of memory, or the first fault of the file. */
int aotcp_new(struct aotcp_stack *stack, const uint8_t *text, size_t length, const struct aotcp_address *node,
              uint16_t most, struct aotcp_fault *fault);

/* Frees the stack with its connections and keys; nothing is sent. AOTCP_NO_STACK. */
int aotcp_free(struct aotcp_stack *stack);

/* A connection of the pair opens actively (RFC 9293, section 3.10.1), with its own initial sequence number.
 * AOTCP_NO_STACK, AOTCP_BAD_FAMILY, AOTCP_IN_USE, AOTCP_FULL, AOTCP_NO_MEMORY. */
int aotcp_open(struct aotcp_stack *stack, const struct aotcp_pair *pair, uint32_t isn);

/* A connection of the pair waits for the SYN of its peer. All else as for aotcp_open. */
int aotcp_listen(struct aotcp_stack *stack, const struct aotcp_pair *pair, uint32_t isn);

/* The connection of the pair is dropped, with all that is kept of it; nothing is sent. AOTCP_NO_STACK,
 * AOTCP_BAD_FAMILY, AOTCP_NO_CONNECTION. */
int aotcp_remove(struct aotcp_stack *stack, const struct aotcp_pair *pair);

/* An IP datagram comes at `now`. With AOTCP_OK `heard` tells what came of it, also where it was refused. It is written
 * with AOTCP_OK alone. AOTCP_NO_STACK, AOTCP_BAD_TIME. */
int aotcp_input(struct aotcp_stack *stack, uint64_t now, const uint8_t *bytes, size_t length,
                struct aotcp_heard *heard);

/* The next IP datagram that is due at `now`: it stands in front of `out`, of `room` bytes, 1,500 at least, and has
 * *length bytes, at most `room`. AOTCP_NOTHING where none is due: call again at aotcp_deadline, or after another call.
 * `length` is written with AOTCP_OK alone. AOTCP_NO_STACK, AOTCP_BAD_TIME, AOTCP_SMALL_ROOM. */
int aotcp_output(struct aotcp_stack *stack, uint64_t now, uint8_t *out, size_t room, size_t *length);

/* When aotcp_output is to be called at the latest, in milliseconds since 1970, once it has answered AOTCP_NOTHING.
 * AOTCP_NOTHING where no timer runs. `at` is written with AOTCP_OK alone. AOTCP_NO_STACK. */
int aotcp_deadline(struct aotcp_stack *stack, uint64_t *at);

/* A piece is given to the connection of the pair, to be sent: all of it or, after a refusal, nothing. The send queue
 * has 65,535 bytes. AOTCP_NO_STACK, AOTCP_BAD_FAMILY, AOTCP_NO_CONNECTION, AOTCP_NO_SPACE, AOTCP_CLOSING. */
int aotcp_write(struct aotcp_stack *stack, const struct aotcp_pair *pair, const uint8_t *piece, size_t length);

/* The first bytes that the connection received are moved to the front of `out`, of `room` bytes, as many as are ready
 * and fit; none may be. The rest of `out` stays. `taken` is written with AOTCP_OK alone. AOTCP_NO_STACK,
 * AOTCP_BAD_FAMILY, AOTCP_NO_CONNECTION. */
int aotcp_read(struct aotcp_stack *stack, const struct aotcp_pair *pair, uint8_t *out, size_t room,
               struct aotcp_taken *taken);

/* The connection takes no more bytes, and a FIN is sent after those that it was given (RFC 9293, section 3.10.4); one
 * that still waits for its handshake is dropped with its bytes. AOTCP_NO_STACK, AOTCP_BAD_FAMILY,
 * AOTCP_NO_CONNECTION. */
int aotcp_close(struct aotcp_stack *stack, const struct aotcp_pair *pair);

/* The connection is closed at once, and a RST is due where the peer may know of it (RFC 9293, section 3.10.5). The RST
 * is handed out once: it isn't sent again. Codes as for aotcp_close. */
int aotcp_abort(struct aotcp_stack *stack, const struct aotcp_pair *pair);

/* Where the connection stands. `state` is written with AOTCP_OK alone. AOTCP_NO_STACK, AOTCP_BAD_FAMILY,
 * AOTCP_NO_CONNECTION. */
int aotcp_state(struct aotcp_stack *stack, const struct aotcp_pair *pair, struct aotcp_state *state);

/* Whether the connection has waited for its peer at `now` for the user timeout of five minutes, and nothing moved it on
 * meanwhile: no new acknowledgement, and nothing that was expected (RFC 9293, section 3.9.1.1). It waits while
 * something that it sent isn't acknowledged, or bytes wait for the peer's window; false where it doesn't, or the pair
 * isn't held. What was taken once counts for nothing when it is sent again, whoever sends it; so a peer whose window
 * stays closed is told as one that is gone. Nothing is done of itself: abort, or wait on. AOTCP_NO_STACK,
 * AOTCP_BAD_FAMILY. */
int aotcp_is_overdue(struct aotcp_stack *stack, const struct aotcp_pair *pair, uint64_t now, bool *overdue);

/* What was counted of the connection since it began, and the key ids that it sent and heard last. `counters` is written
 * with AOTCP_OK alone. AOTCP_NO_STACK, AOTCP_BAD_FAMILY, AOTCP_NO_CONNECTION. */
int aotcp_counters(struct aotcp_stack *stack, const struct aotcp_pair *pair, struct aotcp_counters *counters);

/* What was counted of all that happened at the node, also of connections that are gone; it has no key ids. `counters`
 * is written with AOTCP_OK alone. AOTCP_NO_STACK. */
int aotcp_node_counters(struct aotcp_stack *stack, struct aotcp_counters *counters);

/* Adds a row after the last one, for any peer and any ports, with a master key of `length` bytes; connections go on.
 * *number is the new row's number with AOTCP_OK, and the least row that overlaps it with AOTCP_OVERLAP; else it stays.
 * AOTCP_NO_STACK, AOTCP_BAD_ROW, AOTCP_TOO_MANY_ROWS, AOTCP_OVERLAP, AOTCP_NO_MEMORY. */
int aotcp_add(struct aotcp_stack *stack, const struct aotcp_row *row, const uint8_t *key, size_t length,
              uint8_t *number);

/* Takes a row out of use: it keeps its number, and neither sends nor accepts from now on; connections go on.
 * AOTCP_NO_STACK, AOTCP_NO_ROW. */
int aotcp_withdraw(struct aotcp_stack *stack, uint8_t number);

/* Tells row `number`, from 1, of the node of this address in a key file, whose text is in memory, and its master key,
 * which stands in front of `key`, of `room` bytes, 255 at least, and has *key_length bytes. No stack is needed.
 * AOTCP_SMALL_ROOM, AOTCP_BAD_FAMILY, AOTCP_BAD_KEYS with its fault, AOTCP_NO_NODE, AOTCP_NO_ROW, in this order: the
 * first that holds; then only `fault` may be written, with AOTCP_BAD_KEYS. */
int aotcp_row(const uint8_t *text, size_t length, const struct aotcp_address *node, uint8_t number,
              struct aotcp_row *row, uint8_t *key, size_t room, size_t *key_length, struct aotcp_fault *fault);

/* ---- TCP-AO for a kernel's TCP that has none ---- */

/* A shim, or none while it is all zero: TCP-AO for the connections of a kernel's TCP that has none. It is handed each
 * datagram that the kernel sends and each that comes for it, and hands out what goes on in its place. What it holds is
 * the library's; the rules for a stack's handle hold for it too. */
struct aotcp_shim {
    bool live;
    struct {
        uint8_t *at;
    } place;
};

/* What became of a datagram. */
enum aotcp_shim_cause {
    AOTCP_SHIM_PASSED = 0,     /* it goes on: what is sent, or handed to the kernel, in its place stands in the buffer */
    AOTCP_SHIM_BAD = 1,        /* no datagram: reason is an enum aotcp_datagram_fault */
    AOTCP_SHIM_NO_NODE = 2,    /* no node of the key file has the own address */
    AOTCP_SHIM_CHECKSUM = 4,   /* in: a wrong TCP checksum */
    AOTCP_SHIM_REFUSED = 5,    /* in: refused by TCP-AO: reason is an enum aotcp_verdict */
    AOTCP_SHIM_SIGNED = 6,     /* out: it has an option of TCP-AO or of TCP MD5 already */
    AOTCP_SHIM_NO_CONTEXT = 7, /* out: of no connection whose initial sequence numbers are known */
    AOTCP_SHIM_RANGE = 8,      /* out: its number is below 0, or it ends past 2^63 */
    AOTCP_SHIM_NO_KEY = 9,     /* out: no row may send now */
    AOTCP_SHIM_NO_ROOM = 10,   /* out: its options and TCP-AO have more than 40 bytes */
    AOTCP_SHIM_TOO_LONG = 11,  /* out: with TCP-AO it is longer than its IP header can say */
    AOTCP_SHIM_FOREIGN = 12,   /* of another pair; a shim doesn't answer so */
    AOTCP_SHIM_UNKEYED = 13    /* no row of the node is for the pair, at any time */
};
struct aotcp_shim_told {
    struct aotcp_pair pair;    /* the datagram's sockets, the own one local; all zero where it is no datagram */
    size_t length;             /* the bytes in front of the buffer; 0 unless it goes on */
    uint8_t cause;             /* an enum aotcp_shim_cause */
    uint8_t reason;            /* why, for AOTCP_SHIM_BAD and AOTCP_SHIM_REFUSED; else 0 */
    bool changed;              /* what aotcp_shim_save tells of the pair must be saved before it goes on: other initial
                                  sequence numbers or another key are in use, or a number went past a multiple of 2^29 */
};

/* What a shim counted since it was made, under whatever keys: each datagram that aotcp_shim_outbound or
 * aotcp_shim_inbound answers with AOTCP_OK is counted once, and each one that aotcp_shim_icmp says is to be dropped. A
 * counter that has come to 2^64 - 1 stays there. */
struct aotcp_fault_counters { /* by enum aotcp_datagram_fault */
    uint64_t truncated, version, header_length, header_checksum, fragment, not_tcp, extension_header, data_offset, option;
};
struct aotcp_verdict_counters { /* by enum aotcp_verdict */
    uint64_t no_ao, two_ao, with_md5, no_tuple, expired, mac_length, no_context, range, bad_mac;
};
struct aotcp_shim_counters {
    struct {
        uint64_t passed;
        struct aotcp_fault_counters bad;
        uint64_t no_node, unkeyed, has_option, no_context, range, no_key, no_room, too_long;
    } out;
    struct {
        uint64_t passed;
        struct aotcp_fault_counters bad;
        uint64_t no_node, unkeyed, checksum;
        struct aotcp_verdict_counters refused;
        uint64_t icmp; /* what aotcp_shim_icmp says is to be dropped */
    } in;
};

/* What is saved of a connection, so that a shim that begins anew goes on with it. */
struct aotcp_saved {
    struct aotcp_pair pair;
    uint64_t sent, heard;      /* the numbers after the greatest that was sent, and that passed */
    uint32_t own_isn, peer_isn;
    bool has_key;              /* it has a current key: */
    uint8_t key_id;            /* its KeyID; else 0 */
};

/* Makes a shim for the nodes of a key file, whose text is in memory; each node's address is an own one. It keeps at
 * most `most` pairs of sockets, 1 to 4,096: where so many are kept and another one comes about, the one of which
 * nothing passed for longest goes, first those that were brought back and of which nothing passed since. All its memory
 * is taken here, about 600 bytes for each pair and each row of the largest table; of the other calls aotcp_shim_keys
 * alone takes any. AOTCP_BAD_MOST, AOTCP_HELD, AOTCP_BAD_KEYS with its fault, or AOTCP_NO_MEMORY, in this order: the
 * first that holds; then the handle is as it was. `fault` is written with AOTCP_BAD_KEYS alone; it is out of memory, or
 * the first fault of the file. */
int aotcp_shim_new(struct aotcp_shim *shim, const uint8_t *text, size_t length, uint16_t most,
                   struct aotcp_fault *fault);

/* Frees the shim with what it keeps and its keys. AOTCP_NO_STACK. */
int aotcp_shim_free(struct aotcp_shim *shim);

/* A datagram of the own kernel at `now`, in seconds since 1970, the first *length bytes of `buffer`, which has `room`
 * bytes, at least 20 more: it is sealed by the table of its source address (RFC 5925, section 7.4). With AOTCP_OK
 * `told` tells what became of it. What goes on stands in the buffer then, and *length is its length; the bytes after it
 * are as they were. What doesn't go on is to be dropped: the buffer, *length and what is kept of each pair are as they
 * were. `told` is written with AOTCP_OK alone. AOTCP_NO_STACK, AOTCP_SMALL_ROOM; then nothing has changed. */
int aotcp_shim_outbound(struct aotcp_shim *shim, uint64_t now, uint8_t *buffer, size_t room, size_t *length,
                        struct aotcp_shim_told *told);

/* A datagram from the network at `now`, in seconds since 1970: it is checked by the table of its destination address
 * (RFC 5925, section 7.5), and its option taken off. `mtu` is that of the device over which it came, or of the path if
 * that is less: the maximum segment size that a SYN tells is lowered, so that there is room for TCP-AO. Of a pair of
 * which nothing is kept nothing is kept afterwards either. All else as for aotcp_shim_outbound. */
int aotcp_shim_inbound(struct aotcp_shim *shim, uint64_t now, uint16_t mtu, uint8_t *buffer, size_t room, size_t *length,
                       struct aotcp_shim_told *told);

/* Whether a datagram from the network that came as ICMP or ICMPv6, `length` bytes, is to be dropped: *ignored is true
 * of an error, of whatever code, that quotes a segment of a pair that some row is for, at whatever time (RFC 5925,
 * section 7.8); of an error that can't be read as far as the ports that it quotes; of any fragment; of ICMPv6 with an
 * extension header; and of bytes that are no whole ICMP datagram. It is false of all other ICMP. Checksums are left to
 * the kernel. With true `in.icmp` of the counters goes up by one; all else that the shim keeps is as it was. `ignored`
 * is written with AOTCP_OK alone. AOTCP_NO_STACK. */
int aotcp_shim_icmp(struct aotcp_shim *shim, const uint8_t *datagram, size_t length, bool *ignored);

/* What was counted. `told` is written with AOTCP_OK alone. AOTCP_NO_STACK. */
int aotcp_shim_counters(struct aotcp_shim *shim, struct aotcp_shim_counters *told);

/* What is saved of the pair at place `at`, from 0, in an order that stays while no other call changes what is kept:
 * AOTCP_NO_CONNECTION where no initial sequence numbers of it are known, and AOTCP_NOTHING from the end of the pairs
 * on. So a caller asks for 0, 1, .. until AOTCP_NOTHING. `saved` is written with AOTCP_OK alone. AOTCP_NO_STACK. */
int aotcp_shim_save(struct aotcp_shim *shim, uint32_t at, struct aotcp_saved *saved);

/* Goes on with a connection that was saved, at `now`, in seconds since 1970, also under another key file. Its current
 * key is the one that sends under its KeyID then; where there is none, it is chosen anew. Where as many pairs are kept
 * as may be, one goes, as aotcp_shim_new says. AOTCP_NO_STACK, AOTCP_BAD_FAMILY, AOTCP_BAD_ROW (a number past 2^63),
 * AOTCP_IN_USE (the pair is kept already), AOTCP_NO_NODE (no node has its own address), in this order: the first that
 * holds; then nothing has changed. For new keys a shim that runs needs aotcp_shim_keys alone. */
int aotcp_shim_restore(struct aotcp_shim *shim, uint64_t now, const struct aotcp_saved *saved);

/* Goes on at `now`, in seconds since 1970, with the nodes of another key file, whose text is in memory: each connection
 * that aotcp_shim_save tells is brought back as by aotcp_shim_restore. One whose own address no node has any more is
 * let go, and so is a pair without a connection, and what is kept of a handshake that isn't finished. The counters go
 * on, and so does the number of pairs that are kept at most. It takes memory as aotcp_shim_new does for as many pairs,
 * and then frees the old memory. AOTCP_NO_STACK, AOTCP_BAD_KEYS with its fault, or AOTCP_NO_MEMORY, in this order: the
 * first that holds; then nothing has changed. `fault` is written with AOTCP_BAD_KEYS alone; it is out of memory, or the
 * first fault of the file. */
int aotcp_shim_keys(struct aotcp_shim *shim, uint64_t now, const uint8_t *text, size_t length, struct aotcp_fault *fault);

#ifdef __cplusplus
}
#endif
#endif
