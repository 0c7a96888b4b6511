/* The two NFQUEUEs, each with a socket of its own. */
#ifndef QUEUES_H
#define QUEUES_H

#include "program.h"

#include <signal.h>

/* Binds both. False, with a line on standard error, where that can't be done. */
bool open_queues(struct program *p);

/* Waits until datagrams come, a signal that `before` lets through comes, or so many milliseconds are over (-1: for
 * ever), and judges what came, by turns. */
void serve_queues(const sigset_t *before, int milliseconds);

#endif
