/* The key file. */
#ifndef KEYS_H
#define KEYS_H

#include "program.h"

/* Reads the key file, and goes on with what the shim held before, if there was one. False, with a line on standard
 * error, where the file has a fault or can't be read, or memory runs out; then all is as it was. */
bool read_keys(struct program *p);

/* The word `check`: the status of the program. */
int check_keys(const struct options *options);

#endif
