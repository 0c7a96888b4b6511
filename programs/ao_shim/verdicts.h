/* Verdicts on the datagrams of one queue: gathered, and sent together in one call. */
#ifndef VERDICTS_H
#define VERDICTS_H

#include <stdbool.h>
#include <stddef.h>
#include <stdint.h>

/* The most bytes of a datagram that the kernel hands over, and takes back; and the room for one that gets TCP-AO. */
enum { LONGEST = 65531, ROOM = LONGEST + 20 };

struct verdicts {
    int socket;     /* of the queue */
    uint16_t queue; /* its number */
    uint32_t mark;  /* of what passes; 0: none */
    size_t used;    /* how many of these bytes are messages */
    uint8_t bytes[3 * ROOM];
};

/* ROOM bytes for the next datagram that passes, where it stands in its verdict. What was gathered is sent first where
 * there is no room beside it. Null, with errno, where the kernel doesn't take that. */
uint8_t *room_of_next(struct verdicts *verdicts);

/* The datagram of this number passes, as it stands in the room of the next one with so many bytes. */
void pass_next(struct verdicts *verdicts, uint32_t number, size_t length);

/* The datagram of this number is dropped. */
void drop_next(struct verdicts *verdicts, uint32_t number);

/* Sends what was gathered; false, with errno, where the kernel doesn't take it. Then nothing is gathered any more. */
bool send_verdicts(struct verdicts *verdicts);

#endif
