/* The rows of a node in a key file, as ao-nc keeps them to read the file again while a connection lives. */
#ifndef KEY_ROWS_H
#define KEY_ROWS_H

#include "aotcp.h"

struct key_row {
    struct aotcp_row row;
    uint8_t key[255];
    size_t key_length;
    uint8_t number; /* of the stack's table */
    bool in_use;
};

struct key_rows {
    struct key_row rows[64];
    size_t count;
};

/* A whole file in memory that free(3) gives back, or NULL. */
uint8_t *read_file(const char *path, size_t *length);

/* The rows of the node in the text of a key file; false where it has a fault, which is told on standard error. */
bool read_rows(const uint8_t *text, size_t length, const struct aotcp_address *node, struct key_rows *rows);

/* Reads the key file again: rows that went are withdrawn, and then those that the stack does not have are added. With a
 * fault nothing changes. What was done is told on standard error. */
void read_again(struct aotcp_stack *stack, const char *path, const struct aotcp_address *node, struct key_rows *known);

/* Tells the fault of a key file on standard error. */
void tell_fault(int code, const struct aotcp_fault *fault);

#endif
