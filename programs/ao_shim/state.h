/* The state file: what a shim that begins anew needs, so that connections go on. */
#ifndef STATE_H
#define STATE_H

#include "program.h"

/* Goes on with the connections of the file. A line that can't be used is told by its number and left out; what isn't
 * a state file is renamed to FILE.damaged. False, with a line on standard error, where the file is there but can't be
 * read or renamed. */
bool read_state(struct program *p);

/* Writes the file, if there is to be one. False, with errno, where that fails. */
bool keep_state(struct program *p);

#endif
