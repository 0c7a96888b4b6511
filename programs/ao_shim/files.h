/* Files that are read whole, and files that stand whole or not at all. */
#ifndef FILES_H
#define FILES_H

#include <stdbool.h>
#include <stdint.h>
#include <stdio.h>
#include <sys/types.h>

/* The bytes of a file of at most 4 MiB, to be given back by forget_file; null, with errno, where it can't be read. */
uint8_t *read_file(const char *path, size_t *length);

/* Wipes the bytes and frees them: a key file has keys. */
void forget_file(uint8_t *bytes, size_t length);

/* Writes PATH.new by `print`, with this mode, and moves it to PATH. False, with errno, where that can't be done; then
 * PATH is as it was. */
bool write_file(const char *path, mode_t mode, void (*print)(FILE *file, void *with), void *with);

#endif
