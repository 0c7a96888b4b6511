#include "key_rows.h"

#include <stdio.h>
#include <stdlib.h>
#include <string.h>

uint8_t *read_file(const char *path, size_t *length) {
    FILE *file = fopen(path, "rb");
    size_t room = 1 << 20;
    uint8_t *text = malloc(room);
    if (file == NULL || text == NULL) {
        if (file != NULL)
            fclose(file);
        free(text);
        return NULL;
    }
    *length = fread(text, 1, room, file);
    bool whole = feof(file) != 0 || fgetc(file) == EOF;
    fclose(file);
    if (whole)
        return text;
    free(text);
    return NULL;
}

void tell_fault(int code, const struct aotcp_fault *fault) {
    static const char *const kinds[] = {"", "memory", "syntax", "column", "too many", "rows overlap"};
    if (code == AOTCP_BAD_KEYS)
        fprintf(stderr, "keys: %s, node %u row %u other %u\n", fault->kind < 6 ? kinds[fault->kind] : "?", fault->node, fault->row, fault->other);
    else
        fprintf(stderr, "keys: code %d\n", code);
}

bool read_rows(const uint8_t *text, size_t length, const struct aotcp_address *node, struct key_rows *rows) {
    struct aotcp_fault fault;
    memset(rows, 0, sizeof *rows);
    for (size_t i = 0; i < 64; i++) {
        struct key_row *next = &rows->rows[i];
        int code = aotcp_row(text, length, node, (uint8_t)(i + 1), &next->row, next->key, sizeof next->key, &next->key_length, &fault);
        if (code == AOTCP_NO_ROW)
            return true;
        if (code != AOTCP_OK) {
            tell_fault(code, &fault);
            return false;
        }
        next->number = (uint8_t)(i + 1);
        next->in_use = true;
        rows->count++;
    }
    return true;
}

static bool is_same(const struct key_row *one, const struct key_row *two) {
    return one->row.send_first == two->row.send_first && one->row.send_last == two->row.send_last
        && one->row.accept_first == two->row.accept_first && one->row.accept_last == two->row.accept_last
        && one->row.recv_id == two->row.recv_id && one->row.send_id == two->row.send_id
        && one->row.algorithm == two->row.algorithm && one->row.direction == two->row.direction
        && one->row.with_options == two->row.with_options && one->key_length == two->key_length
        && memcmp(one->key, two->key, one->key_length) == 0;
}

static bool is_among(const struct key_row *row, const struct key_rows *rows) {
    for (size_t i = 0; i < rows->count; i++)
        if (rows->rows[i].in_use && is_same(row, &rows->rows[i]))
            return true;
    return false;
}

/* A row that went is withdrawn before a new one is added that would overlap it. */
static void withdraw_gone(struct aotcp_stack *stack, struct key_rows *known, const struct key_rows *wanted) {
    for (size_t i = 0; i < known->count; i++) {
        struct key_row *row = &known->rows[i];
        if (!row->in_use || is_among(row, wanted))
            continue;
        int code = aotcp_withdraw(stack, row->number);
        row->in_use = false;
        fprintf(stderr, "row %u is withdrawn: code %d\n", row->number, code);
    }
}

static void add_new(struct aotcp_stack *stack, struct key_rows *known, const struct key_rows *wanted) {
    for (size_t i = 0; i < wanted->count; i++) {
        struct key_row row = wanted->rows[i];
        if (is_among(&row, known))
            continue;
        int code = aotcp_add(stack, &row.row, row.key, row.key_length, &row.number);
        fprintf(stderr, "row %u is added: code %d\n", row.number, code);
        if (code == AOTCP_OK && known->count < 64)
            known->rows[known->count++] = row;
    }
}

void read_again(struct aotcp_stack *stack, const char *path, const struct aotcp_address *node, struct key_rows *known) {
    static struct key_rows wanted;
    size_t length;
    uint8_t *text = read_file(path, &length);
    if (text == NULL) {
        fprintf(stderr, "keys: %s isn't read\n", path);
        return;
    }
    if (read_rows(text, length, node, &wanted)) {
        withdraw_gone(stack, known, &wanted);
        add_new(stack, known, &wanted);
    }
    free(text);
}
