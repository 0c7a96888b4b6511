/* A TUN device of Linux. */
#ifndef TUN_H
#define TUN_H

/* Opens the device of this name for IP datagrams, which read(2) and write(2) then move one by one; reads don't wait. -1,
 * with a line on standard error, where that fails. */
int open_tun(const char *name);

#endif
