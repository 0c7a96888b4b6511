/* Captures of sessions between kernels behind another implementation of the shim, sealed again: each segment that
 * passes is opened by the shim of its receiver, and what comes out is sealed by the shim of its sender, whose bytes are
 * compared with those that were captured. The status is 0 where each is the same, or has its options in another order.
 *
 *   shim_captures NAME..      each a NAME.pcap (little-endian, Ethernet), with NAME.keys, and NAME.check.txt, in which
 *                             `aotcp check --pcap` says of each packet whether it passes. Where the keys were read
 *                             again, NAME.keys.1 has the first ones, and its first line is `# until packet N` */
#include "aotcp.h"

#include <stdio.h>
#include <stdlib.h>
#include <string.h>

enum { LONGEST = 2000, TEXT = 4096, MOST_PAIRS = 64, LINK = 14, IPV4 = 20, TCP = 20, MSS = 2, SACK = 5, AO = 29 };

struct datagram {
    size_t length;
    uint8_t bytes[LONGEST + 20];
};

struct capture {
    const char *name;
    FILE *packets, *verdicts;
    unsigned until; /* the packet before which the keys are read again, else 0 */
    struct aotcp_shim shims[2]; /* of the end that sends first, and of the other */
    uint8_t first[4];           /* the address of the former */
    unsigned number;            /* of the packet, from 1 */
    uint64_t now;
    struct datagram wire;
};

struct tally {
    unsigned same, other_order, skipped, different;
};

static void stop(const struct capture *c, const char *why) {
    fprintf(stderr, "shim_captures: %s: packet %u: %s\n", c->name, c->number, why);
    exit(1);
}

static FILE *open_part(const struct capture *c, const char *ending) {
    char path[1000];
    snprintf(path, sizeof path, "%s%s", c->name, ending);
    return fopen(path, "rb");
}

static uint32_t read4(const uint8_t *bytes) {
    return (uint32_t)bytes[0] | (uint32_t)bytes[1] << 8 | (uint32_t)bytes[2] << 16 | (uint32_t)bytes[3] << 24;
}

static struct aotcp_shim shim_of(const struct capture *c, FILE *keys) {
    static char text[TEXT];
    struct aotcp_shim shim = {0};
    struct aotcp_fault fault;
    rewind(keys);
    size_t length = fread(text, 1, sizeof text, keys);
    if (aotcp_shim_new(&shim, (const uint8_t *)text, length, MOST_PAIRS, &fault) != AOTCP_OK)
        stop(c, "the key file isn't read");
    return shim;
}

static void open_capture(struct capture *c) {
    uint8_t head[24];
    FILE *keys = open_part(c, ".keys.1");
    if (keys != NULL && fscanf(keys, "# until packet %u", &c->until) != 1) stop(c, "no packet until which keys hold");
    if (keys == NULL) keys = open_part(c, ".keys");
    c->packets = open_part(c, ".pcap");
    c->verdicts = open_part(c, ".check.txt");
    if (keys == NULL || c->packets == NULL || c->verdicts == NULL) stop(c, "a file isn't there");
    for (int end = 0; end < 2; end++) c->shims[end] = shim_of(c, keys);
    fclose(keys);
    if (fread(head, 1, sizeof head, c->packets) != sizeof head || read4(head) != 0xa1b2c3d4u || read4(head + 20) != 1)
        stop(c, "no little-endian capture of Ethernet");
}

/* Shims with the later keys go on with what the earlier ones save. */
static void read_keys_again(struct capture *c) {
    FILE *keys = open_part(c, ".keys");
    if (keys == NULL) stop(c, "no later keys");
    for (int end = 0; end < 2; end++) {
        struct aotcp_shim next = shim_of(c, keys);
        struct aotcp_saved saved;
        int code;
        for (uint32_t at = 0; (code = aotcp_shim_save(&c->shims[end], at, &saved)) != AOTCP_NOTHING; at++)
            if (code == AOTCP_OK && aotcp_shim_restore(&next, c->now, &saved) != AOTCP_OK) stop(c, "not restored");
        if (aotcp_shim_free(&c->shims[end]) != AOTCP_OK) stop(c, "a shim isn't freed");
        c->shims[end] = next;
    }
    fclose(keys);
}

static void close_capture(struct capture *c) {
    fclose(c->packets);
    fclose(c->verdicts);
    for (int end = 0; end < 2; end++)
        if (aotcp_shim_free(&c->shims[end]) != AOTCP_OK) stop(c, "a shim isn't freed");
}

/* The next packet of the capture, without its link header. */
static bool next_packet(struct capture *c) {
    uint8_t head[16], link[LINK];
    if (fread(head, 1, sizeof head, c->packets) != sizeof head) return false;
    c->number++;
    c->now = read4(head);
    size_t length = read4(head + 8);
    if (length < LINK + IPV4 + TCP || length > LINK + LONGEST || fread(link, 1, LINK, c->packets) != LINK)
        stop(c, "not as long as a segment");
    c->wire.length = length - LINK;
    if (fread(c->wire.bytes, 1, c->wire.length, c->packets) != c->wire.length) stop(c, "cut off");
    if (c->number == 1) memcpy(c->first, c->wire.bytes + 12, 4);
    return true;
}

static bool passes(struct capture *c) {
    char line[200], word[20];
    unsigned number;
    if (fgets(line, sizeof line, c->verdicts) == NULL || sscanf(line, "%u %19s", &number, word) != 2 ||
        number != c->number)
        stop(c, "no verdict");
    return strcmp(word, "pass") == 0;
}

static size_t tcp_at(const struct datagram *d) { return (size_t)(d->bytes[0] & 15) * 4; }

static size_t data_at(const struct datagram *d) { return tcp_at(d) + (size_t)(d->bytes[tcp_at(d) + 12] >> 4) * 4; }

/* Where the option after place `at` begins; at the end of the options 0. */
static size_t next_option(const struct datagram *d, size_t at) {
    size_t length = d->bytes[at] < 2 ? 1 : d->bytes[at + 1];
    return d->bytes[at] != 0 && at + length < data_at(d) ? at + length : 0;
}

/* Where the option of this kind stands, else 0. */
static size_t option_at(const struct datagram *d, uint8_t kind) {
    size_t at = tcp_at(d) + TCP < data_at(d) ? tcp_at(d) + TCP : 0;
    while (at != 0 && d->bytes[at] != kind) at = next_option(d, at);
    return at;
}

static bool has_option(const struct datagram *d, const uint8_t *option) {
    size_t at = option_at(d, option[0]);
    return at != 0 && memcmp(d->bytes + at, option, option[1]) == 0;
}

/* All options of one but padding and TCP-AO stand in the other. */
static bool has_options_of(const struct datagram *d, const struct datagram *other) {
    size_t at = tcp_at(other) + TCP < data_at(other) ? tcp_at(other) + TCP : 0;
    for (; at != 0; at = next_option(other, at)) {
        uint8_t kind = other->bytes[at];
        if (kind > 1 && kind != AO && !has_option(d, other->bytes + at)) return false;
    }
    return true;
}

static bool has_same_ids(const struct datagram *d, const struct datagram *other) {
    size_t at = option_at(d, AO), other_at = option_at(other, AO);
    return at != 0 && other_at != 0 && memcmp(d->bytes + at + 2, other->bytes + other_at + 2, 2) == 0;
}

/* They agree in numbers, flags, window and payload, and in their options but for order and padding. */
static bool is_reordered(const struct datagram *d, const struct datagram *other) {
    size_t at = tcp_at(d), data = data_at(d), other_data = data_at(other);
    return memcmp(d->bytes + 12, other->bytes + 12, at) == 0 && d->bytes[at + 13] == other->bytes[at + 13] &&
           memcmp(d->bytes + at + 14, other->bytes + at + 14, 2) == 0 &&
           d->length - data == other->length - other_data &&
           memcmp(d->bytes + data, other->bytes + other_data, d->length - data) == 0 && has_options_of(d, other) &&
           has_options_of(other, d);
}

/* The kernel of the receiver is told a lower maximum segment size; its peer said this one. */
static void put_mss_back(const struct datagram *wire, struct datagram *plain) {
    size_t from = option_at(wire, MSS), to = option_at(plain, MSS);
    if (from != 0 && to != 0) memcpy(plain->bytes + to, wire->bytes + from, 4);
}

static void tell(const struct capture *c, const char *what, const struct datagram *sealed) {
    size_t at = option_at(&c->wire, AO), sealed_at = option_at(sealed, AO);
    printf("%s: packet %u: %s", c->name, c->number, what);
    if (at != 0 && sealed_at != 0)
        printf(": KeyID and RNextKeyID %u/%u, captured %u/%u", sealed->bytes[sealed_at + 2],
               sealed->bytes[sealed_at + 3], c->wire.bytes[at + 2], c->wire.bytes[at + 3]);
    printf("\n");
}

static void compare(const struct capture *c, const struct datagram *sealed, struct tally *t) {
    if (sealed->length == c->wire.length && memcmp(sealed->bytes, c->wire.bytes, sealed->length) == 0) {
        t->same++;
    } else if (has_same_ids(sealed, &c->wire) && is_reordered(sealed, &c->wire)) {
        t->other_order++;
        tell(c, "another order of options", sealed);
    } else {
        t->different++;
        tell(c, "different", sealed);
    }
}

static void seal_again(struct capture *c, struct tally *t) {
    struct datagram d = c->wire;
    struct aotcp_shim_told told;
    int sender = memcmp(c->wire.bytes + 12, c->first, 4) != 0;
    if (aotcp_shim_inbound(&c->shims[!sender], c->now, 65535, d.bytes, sizeof d.bytes, &d.length, &told) != AOTCP_OK)
        stop(c, "inbound isn't answered");
    if (told.cause != AOTCP_SHIM_PASSED) {
        t->different++;
        printf("%s: packet %u: refused inbound, %u %u\n", c->name, c->number, told.cause, told.reason);
        return;
    }
    put_mss_back(&c->wire, &d);
    if (aotcp_shim_outbound(&c->shims[sender], c->now, d.bytes, sizeof d.bytes, &d.length, &told) != AOTCP_OK)
        stop(c, "outbound isn't answered");
    if (told.cause != AOTCP_SHIM_PASSED) {
        t->different++;
        printf("%s: packet %u: refused outbound, %u %u\n", c->name, c->number, told.cause, told.reason);
        return;
    }
    compare(c, &d, t);
}

int main(int argc, char **argv) {
    static struct capture c;
    struct tally t = {0, 0, 0, 0};
    for (int i = 1; i < argc; i++) {
        memset(&c, 0, sizeof c);
        c.name = argv[i];
        open_capture(&c);
        while (next_packet(&c)) {
            if (c.number == c.until) read_keys_again(&c);
            if (passes(&c))
                seal_again(&c, &t);
            else
                t.skipped++;
        }
        close_capture(&c);
    }
    printf("shim_captures: sealed again to the same bytes %u, in another order %u; different %u; passed over %u\n",
           t.same, t.other_order, t.different, t.skipped);
    return t.different == 0 && t.same > 0 ? 0 : 1;
}
