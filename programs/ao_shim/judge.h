/* What becomes of one datagram: judged by the library, counted, and kept before it goes on. */
#ifndef JUDGE_H
#define JUDGE_H

#include "program.h"

/* A datagram of *length bytes at the front of `room` bytes, at least 20 more. True: it goes on as it stands there then,
 * with *length bytes. `mtu` is that of the device by which it came; it isn't looked at for what leaves. */
bool judge(struct program *p, enum way way, uint16_t mtu, uint8_t *datagram, size_t *length, size_t room);

#endif
