/* The shim against another implementation of the same rules: each datagram of oracle/shim_cases is handed to it, and
 * its answer is compared byte for byte with the one that stands there. The status is 0 where all are the same.
 *
 *   shim_cases FILE
 *
 * A line `shim N` begins shim N anew with the key file in the lines `| ..` after it; `out N TIME HEX` and
 * `in N TIME MTU HEX` hand it a datagram; the line after that says what it answers, `= HEX` or `! CAUSE`. */
#include "aotcp.h"

#include <stdio.h>
#include <stdlib.h>
#include <string.h>

enum { SHIMS = 2, LONGEST = 600, LINE = 4 * LONGEST, TEXT = 8192, MOST_PAIRS = 16 };

struct cause {
    const char *word;
    uint8_t cause, reason;
};

/* The words of docs/SHIM.md. */
static const struct cause CAUSES[] = {
    {"truncated", AOTCP_SHIM_BAD, AOTCP_DATAGRAM_TRUNCATED},
    {"version", AOTCP_SHIM_BAD, AOTCP_DATAGRAM_VERSION},
    {"header-length", AOTCP_SHIM_BAD, AOTCP_DATAGRAM_HEADER_LENGTH},
    {"header-checksum", AOTCP_SHIM_BAD, AOTCP_DATAGRAM_HEADER_CHECKSUM},
    {"fragment", AOTCP_SHIM_BAD, AOTCP_DATAGRAM_FRAGMENT},
    {"not-tcp", AOTCP_SHIM_BAD, AOTCP_DATAGRAM_NOT_TCP},
    {"extension-header", AOTCP_SHIM_BAD, AOTCP_DATAGRAM_EXTENSION_HEADER},
    {"data-offset", AOTCP_SHIM_BAD, AOTCP_DATAGRAM_DATA_OFFSET},
    {"option", AOTCP_SHIM_BAD, AOTCP_DATAGRAM_OPTION},
    {"no-node", AOTCP_SHIM_NO_NODE, 0},
    {"unkeyed", AOTCP_SHIM_UNKEYED, 0},
    {"checksum", AOTCP_SHIM_CHECKSUM, 0},
    {"no-ao", AOTCP_SHIM_REFUSED, AOTCP_VERDICT_NO_AO},
    {"two-ao", AOTCP_SHIM_REFUSED, AOTCP_VERDICT_TWO_AO},
    {"with-md5", AOTCP_SHIM_REFUSED, AOTCP_VERDICT_WITH_MD5},
    {"no-tuple", AOTCP_SHIM_REFUSED, AOTCP_VERDICT_NO_ROW},
    {"expired", AOTCP_SHIM_REFUSED, AOTCP_VERDICT_EXPIRED},
    {"mac-length", AOTCP_SHIM_REFUSED, AOTCP_VERDICT_MAC_LENGTH},
    {"no-context", AOTCP_SHIM_REFUSED, AOTCP_VERDICT_NO_CONTEXT},
    {"range", AOTCP_SHIM_REFUSED, AOTCP_VERDICT_RANGE},
    {"bad-mac", AOTCP_SHIM_REFUSED, AOTCP_VERDICT_BAD_MAC},
    {"has-option", AOTCP_SHIM_SIGNED, 0},
    {"out-no-context", AOTCP_SHIM_NO_CONTEXT, 0},
    {"out-range", AOTCP_SHIM_RANGE, 0},
    {"no-key", AOTCP_SHIM_NO_KEY, 0},
    {"no-room", AOTCP_SHIM_NO_ROOM, 0},
    {"too-long", AOTCP_SHIM_TOO_LONG, 0},
};

/* The file is read line by line; a key file is gathered until the next call needs its shim. */
struct reader {
    FILE *file;
    unsigned line;
    struct aotcp_shim shims[SHIMS];
    size_t filling;
    char text[TEXT];
    size_t text_length;
};

/* A datagram, in no more room than it needs, and what the library answered. */
struct answer {
    bool out;
    struct aotcp_shim_told told;
    size_t length;
    uint8_t *bytes;
};

struct tally {
    unsigned sealed, unsent, opened, refused, different;
};

static void stop(const struct reader *r, const char *why) {
    fprintf(stderr, "shim_cases: line %u: %s\n", r->line, why);
    exit(1);
}

static size_t bytes_of(const struct reader *r, const char *hex, uint8_t *bytes) {
    size_t count = 0;
    if (strcmp(hex, "-") == 0) return 0;
    for (; hex[0] != '\0'; hex += 2) {
        unsigned value;
        if (count == LONGEST || sscanf(hex, "%2x", &value) != 1 || hex[1] == '\0') stop(r, "no bytes");
        bytes[count++] = (uint8_t)value;
    }
    return count;
}

static void begin(struct reader *r) {
    struct aotcp_fault fault = {0, 0, 0, 0};
    struct aotcp_shim *shim = &r->shims[r->filling];
    if (r->text_length == 0) return;
    if (shim->live && aotcp_shim_free(shim) != AOTCP_OK) stop(r, "the shim isn't freed");
    if (aotcp_shim_new(shim, (const uint8_t *)r->text, r->text_length, MOST_PAIRS, &fault) != AOTCP_OK)
        stop(r, "the key file isn't read");
    r->text_length = 0;
}

static void take_text(struct reader *r, const char *line) {
    size_t length = strlen(line);
    if (r->text_length + length + 1 > TEXT) stop(r, "the key file is too long");
    memcpy(r->text + r->text_length, line, length);
    r->text[r->text_length + length] = '\n';
    r->text_length += length + 1;
}

static struct aotcp_shim *shim_at(struct reader *r, unsigned at) {
    begin(r);
    if (at >= SHIMS || !r->shims[at].live) stop(r, "there is no such shim");
    return &r->shims[at];
}

static void place(const struct reader *r, const char *hex, struct answer *a) {
    static uint8_t bytes[LONGEST];
    a->length = bytes_of(r, hex, bytes);
    a->bytes = realloc(a->bytes, a->length + 20);
    if (a->bytes == NULL) stop(r, "no memory");
    memcpy(a->bytes, bytes, a->length);
}

static void send(struct reader *r, const char *line, struct answer *a) {
    static char hex[LINE];
    unsigned at;
    unsigned long long now;
    if (sscanf(line, "out %u %llu %2399s", &at, &now, hex) != 3) stop(r, "no datagram out");
    struct aotcp_shim *shim = shim_at(r, at);
    place(r, hex, a);
    a->out = true;
    if (aotcp_shim_outbound(shim, now, a->bytes, a->length + 20, &a->length, &a->told) != AOTCP_OK)
        stop(r, "the call isn't answered");
}

static void take(struct reader *r, const char *line, struct answer *a) {
    static char hex[LINE];
    unsigned at, mtu;
    unsigned long long now;
    if (sscanf(line, "in %u %llu %u %2399s", &at, &now, &mtu, hex) != 4) stop(r, "no datagram in");
    struct aotcp_shim *shim = shim_at(r, at);
    place(r, hex, a);
    a->out = false;
    if (aotcp_shim_inbound(shim, now, (uint16_t)mtu, a->bytes, a->length + 20, &a->length, &a->told) != AOTCP_OK)
        stop(r, "the call isn't answered");
}

static const char *word_of(const struct aotcp_shim_told *told) {
    for (size_t i = 0; i < sizeof CAUSES / sizeof CAUSES[0]; i++)
        if (CAUSES[i].cause == told->cause && CAUSES[i].reason == told->reason) return CAUSES[i].word;
    return told->cause == AOTCP_SHIM_PASSED ? "passed" : "another cause";
}

static void tell(const struct reader *r, const struct answer *a, const char *expected) {
    printf("line %u: expected %s\n", r->line, expected);
    if (a->told.cause != AOTCP_SHIM_PASSED) {
        printf("  answered ! %s\n", word_of(&a->told));
        return;
    }
    printf("  answered = ");
    for (size_t i = 0; i < a->length; i++) printf("%02x", a->bytes[i]);
    printf("\n");
}

static bool is_right(const struct reader *r, const struct answer *a, const char *expected) {
    static uint8_t bytes[LONGEST];
    if (expected[0] == '!') return strcmp(word_of(&a->told), expected + 2) == 0;
    size_t length = bytes_of(r, expected + 2, bytes);
    return a->told.cause == AOTCP_SHIM_PASSED && a->length == length && a->told.length == length &&
           memcmp(a->bytes, bytes, length) == 0;
}

static void compare(struct reader *r, const struct answer *a, const char *expected, struct tally *t) {
    if (!is_right(r, a, expected)) {
        t->different++;
        tell(r, a, expected);
    } else if (expected[0] == '=') {
        *(a->out ? &t->sealed : &t->opened) += 1;
    } else {
        *(a->out ? &t->unsent : &t->refused) += 1;
    }
}

static void read_line(struct reader *r, const char *line, struct answer *a, struct tally *t) {
    unsigned at;
    if (line[0] == '#' || strncmp(line, "case ", 5) == 0) return;
    if (strncmp(line, "| ", 2) == 0) {
        take_text(r, line + 2);
    } else if (sscanf(line, "shim %u", &at) == 1 && at < SHIMS) {
        begin(r);
        r->filling = at;
    } else if (strncmp(line, "out ", 4) == 0) {
        send(r, line, a);
    } else if (strncmp(line, "in ", 3) == 0) {
        take(r, line, a);
    } else if (strncmp(line, "= ", 2) == 0 || strncmp(line, "! ", 2) == 0) {
        compare(r, a, line, t);
    } else {
        stop(r, "no such line");
    }
}

int main(int argc, char **argv) {
    static struct reader r;
    static struct answer a;
    static char line[LINE];
    struct tally t = {0, 0, 0, 0, 0};
    if (argc != 2 || (r.file = fopen(argv[1], "r")) == NULL) {
        fprintf(stderr, "usage: shim_cases FILE\n");
        return 2;
    }
    while (fgets(line, sizeof line, r.file) != NULL) {
        r.line++;
        line[strcspn(line, "\n")] = '\0';
        read_line(&r, line, &a, &t);
    }
    fclose(r.file);
    free(a.bytes);
    for (size_t i = 0; i < SHIMS; i++)
        if (r.shims[i].live) aotcp_shim_free(&r.shims[i]);
    printf("shim_cases: as the other implementation: sealed %u, not sealed %u, opened %u, refused %u; different %u\n",
           t.sealed, t.unsent, t.opened, t.refused, t.different);
    return t.different == 0 && t.sealed > 0 && t.unsent > 0 && t.opened > 0 && t.refused > 0 ? 0 : 1;
}
