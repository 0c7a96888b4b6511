/* Two shims in memory between two ends of a small TCP that knows nothing of TCP-AO: a handshake, 60,000 bytes both ways
 * over a lossy path that also repeats, reorders and alters by a seed, a rollover to keys that are read while the
 * connection runs, shims that begin anew with what was saved, a close. Every byte is compared. The status is 0 where all is
 * as it must be.
 *
 *   shim_pair [SEED [COUNT]]        so many runs from a seed */
#include "aotcp.h"
#include "small_tcp.h"

#include <stdio.h>
#include <stdlib.h>
#include <string.h>

#define CHECK(c)                                                            \
    do {                                                                    \
        if (!(c)) {                                                         \
            fprintf(stderr, "%s:%d: not so: %s\n", __FILE__, __LINE__, #c); \
            exit(1);                                                        \
        }                                                                   \
    } while (0)

#define ROW(local, peer, other, key, times)                                                                           \
    "[[node.key]]\nAdminKeyName = \"row\"\nLocalKeyName = \"" local "\"\nPeerKeyName = \"" peer "\"\nPeers = [\"" other \
    "\"]\nProtocol = \"TCP-AO\"\nProtocolSpecificInfo = \"options\"\nKDF = \"HMAC-SHA-1\"\n"                            \
    "AlgID = \"HMAC-SHA-1-96\"\nKey = \"" key "\"\nDirection = \"both\"\n" times
#define ONE "000102030405060708090a0b0c0d0e0f10111213"
#define TWO "a0a1a2a3a4a5a6a7a8a9aaabacadaeafb0b1b2b3"
#define OLD "SendLifetimeEnd = \"20261128000010Z\"\n"
#define NEW "SendLifetimeStart = \"20261128000005Z\"\n"
/* The keys of each end at first, and those that it reads while the connection runs. */
static const char *const KEYS[2][2] = {
    {"[[node]]\nname = \"client\"\naddress = \"10.0.0.1\"\n" ROW("7", "5", "10.0.0.2", ONE, OLD),
     "[[node]]\nname = \"server\"\naddress = \"10.0.0.2\"\n" ROW("5", "7", "10.0.0.1", ONE, OLD)},
    {"[[node]]\nname = \"client\"\naddress = \"10.0.0.1\"\n" ROW("8", "6", "10.0.0.2", TWO, NEW)
         ROW("7", "5", "10.0.0.2", ONE, OLD),
     "[[node]]\nname = \"server\"\naddress = \"10.0.0.2\"\n" ROW("6", "8", "10.0.0.1", TWO, NEW)
         ROW("5", "7", "10.0.0.1", ONE, OLD)}};
static const char NO_NODE[] = "[[node]]\nname = \"other\"\naddress = \"10.0.0.3\"\n" ROW("7", "5", "10.0.0.2", ONE, OLD);

enum { CLIENT, SERVER, MOST_FLYING = 4096, ROOM = TCP_LONGEST + 20 };

/* 2026-11-28 00:00:00, in milliseconds. */
static const uint64_t START = 1795824000000u;

struct flying {
    uint64_t at;
    int to;
    bool altered;
    size_t length;
    uint8_t bytes[ROOM];
};

struct seen {
    unsigned sealed, opened, refused;
};

struct world {
    struct aotcp_shim shims[2];
    struct tcp ends[2];
    uint64_t now, dice;
    struct flying flying[MOST_FLYING];
    size_t on_way;
    unsigned sealed[2], opened[2], refused[2], altered, keys[2][256];
    struct seen before[2]; /* when its shim began */
};

static unsigned roll(struct world *w, unsigned n) {
    w->dice = w->dice * 6364136223846793005u + 1442695040888963407u;
    return (unsigned)(w->dice >> 33) % n;
}

static void shim_open(struct aotcp_shim *shim, const char *keys) {
    struct aotcp_fault fault = {0, 0, 0, 0};
    CHECK(aotcp_shim_new(shim, (const uint8_t *)keys, strlen(keys), 4, &fault) == AOTCP_OK);
}

static int shim_keys(struct aotcp_shim *shim, uint64_t now, const char *keys, struct aotcp_fault *fault) {
    return aotcp_shim_keys(shim, now / 1000, (const uint8_t *)keys, strlen(keys), fault);
}

/* All that a shim's calls tell but the answers to datagrams. */
struct picture {
    struct aotcp_saved saved;
    struct aotcp_shim_counters counters;
};

static struct picture picture_of(struct aotcp_shim *shim) {
    struct picture picture;
    memset(&picture, 0, sizeof picture);
    CHECK(aotcp_shim_save(shim, 1, &picture.saved) == AOTCP_NOTHING);
    CHECK(aotcp_shim_save(shim, 0, &picture.saved) == AOTCP_OK);
    CHECK(aotcp_shim_counters(shim, &picture.counters) == AOTCP_OK);
    return picture;
}

/* What the shim counted since it began is what was seen of it. */
static void check_counters(struct world *w, int end) {
    struct aotcp_shim_counters now;
    CHECK(aotcp_shim_counters(&w->shims[end], &now) == AOTCP_OK);
    const struct aotcp_verdict_counters *why = &now.in.refused;
    uint64_t refused = now.in.checksum + why->no_ao + why->two_ao + why->with_md5 + why->no_tuple + why->expired
        + why->mac_length + why->no_context + why->range + why->bad_mac + now.in.bad.data_offset + now.in.bad.option
        + now.in.unkeyed + now.in.no_node + now.in.bad.truncated;
    CHECK(now.out.passed == w->sealed[end] - w->before[end].sealed);
    CHECK(now.in.passed == w->opened[end] - w->before[end].opened);
    CHECK(refused == w->refused[end] - w->before[end].refused);
    w->before[end] = (struct seen){w->sealed[end], w->opened[end], w->refused[end]};
}

/* The shim begins anew with what was saved of the old one. */
static void begin_anew(struct world *w, int end) {
    struct aotcp_shim next = {0};
    struct aotcp_saved saved;
    shim_open(&next, KEYS[1][end]);
    CHECK(aotcp_shim_save(&w->shims[end], 1, &saved) == AOTCP_NOTHING);
    CHECK(aotcp_shim_save(&w->shims[end], 0, &saved) == AOTCP_OK);
    CHECK(aotcp_shim_restore(&next, w->now / 1000, &saved) == AOTCP_OK);
    CHECK(aotcp_shim_restore(&next, w->now / 1000, &saved) == AOTCP_IN_USE);
    check_counters(w, end);
    CHECK(aotcp_shim_free(&w->shims[end]) == AOTCP_OK);
    w->shims[end] = next;
}

/* The shim reads the new keys. A file with a fault, or another table with the connection, changes nothing else. */
static void read_keys(struct world *w, int end) {
    struct aotcp_shim *shim = &w->shims[end], none = {0};
    struct aotcp_fault fault = {9, 9, 9, 9};
    struct picture before = picture_of(shim), after;
    CHECK(shim_keys(&none, w->now, KEYS[1][end], &fault) == AOTCP_NO_STACK && fault.kind == 9);
    CHECK(shim_keys(shim, w->now, "[[node]]\nname = 1\n", &fault) == AOTCP_BAD_KEYS && fault.kind == AOTCP_FAULT_COLUMN);
    after = picture_of(shim);
    CHECK(memcmp(&before, &after, sizeof after) == 0);
    CHECK(before.saved.has_key && before.saved.key_id == (end == CLIENT ? 5 : 7));
    CHECK(shim_keys(shim, w->now, KEYS[1][end], &fault) == AOTCP_OK);
    after = picture_of(shim);
    CHECK(memcmp(&before, &after, sizeof after) == 0);
}

/* Under keys that have no node of its address a connection ends, and the counters go on. */
static void lose_node(struct world *w, int end) {
    struct aotcp_fault fault = {0, 0, 0, 0};
    struct picture before = picture_of(&w->shims[end]);
    struct aotcp_saved saved;
    struct aotcp_shim_counters counters;
    CHECK(shim_keys(&w->shims[end], w->now, NO_NODE, &fault) == AOTCP_OK);
    CHECK(aotcp_shim_save(&w->shims[end], 0, &saved) == AOTCP_NOTHING);
    CHECK(aotcp_shim_counters(&w->shims[end], &counters) == AOTCP_OK);
    CHECK(memcmp(&counters, &before.counters, sizeof counters) == 0);
}

/* A datagram goes on its way, where it may be lost, repeated, delayed and altered. */
static void fly(struct world *w, int to, const uint8_t *bytes, size_t length) {
    if (roll(w, 1000) < 60) return;
    for (unsigned times = roll(w, 1000) < 60 ? 2 : 1; times > 0; times--) {
        CHECK(w->on_way < MOST_FLYING);
        struct flying *f = &w->flying[w->on_way++];
        *f = (struct flying){.at = w->now + 5 + roll(w, 20), .to = to, .length = length};
        memcpy(f->bytes, bytes, length);
        if (roll(w, 1000) < 40) {
            f->bytes[20 + roll(w, (unsigned)length - 20)] ^= (uint8_t)(1 + roll(w, 255));
            f->altered = true;
            w->altered++;
        }
    }
}

static void send_all(struct world *w, int end) {
    uint8_t buffer[TCP_LONGEST + 20];
    for (size_t length; (length = tcp_next(&w->ends[end], w->now, buffer)) > 0;) {
        struct aotcp_shim_told told;
        size_t now = length;
        CHECK(aotcp_shim_outbound(&w->shims[end], w->now / 1000, buffer, length + 19, &now, &told) == AOTCP_SMALL_ROOM);
        CHECK(aotcp_shim_outbound(&w->shims[end], w->now / 1000, buffer, sizeof buffer, &now, &told) == AOTCP_OK);
        CHECK(told.cause == AOTCP_SHIM_PASSED && told.length == now && now == length + 16);
        w->sealed[end]++;
        w->keys[end][buffer[20 + (buffer[32] >> 4) * 4 - 14]]++; /* the KeyID of the option, which stands last */
        fly(w, !end, buffer, now);
    }
}

static void deliver(struct world *w, const struct flying *f) {
    uint8_t buffer[ROOM + 20];
    struct aotcp_shim_told told;
    size_t length = f->length;
    memcpy(buffer, f->bytes, length);
    CHECK(aotcp_shim_inbound(&w->shims[f->to], w->now / 1000, 1500, buffer, sizeof buffer, &length, &told) == AOTCP_OK);
    if (told.cause != AOTCP_SHIM_PASSED) {
        CHECK(told.length == 0 && length == f->length && memcmp(buffer, f->bytes, length) == 0);
        w->refused[f->to]++;
        return;
    }
    CHECK(!f->altered && told.length == length && length == f->length - 16);
    w->opened[f->to]++;
    CHECK(tcp_input(&w->ends[f->to], buffer, length));
}

static void step(struct world *w) {
    for (int end = 0; end < 2; end++) send_all(w, end);
    w->now += 1;
    for (size_t i = 0; i < w->on_way;) {
        if (w->flying[i].at > w->now) {
            i++;
            continue;
        }
        struct flying f = w->flying[i];
        w->flying[i] = w->flying[--w->on_way];
        deliver(w, &f);
    }
}

static void run(struct world *w, uint64_t seed) {
    memset(w, 0, sizeof *w);
    w->now = START;
    w->dice = seed;
    for (int end = 0; end < 2; end++) {
        struct tcp *t = &w->ends[end];
        shim_open(&w->shims[end], KEYS[0][end]);
        *t = (struct tcp){.state = end == CLIENT ? TCP_SYN_SENT : TCP_LISTEN,
                          .own = {10, 0, 0, end == CLIENT ? 1 : 2},
                          .peer = {10, 0, 0, end == CLIENT ? 2 : 1},
                          .own_port = end == CLIENT ? 50000 : 179,
                          .peer_port = end == CLIENT ? 179 : 50000,
                          .isn = end == CLIENT ? 0xfffff000u : 0xffffffffu};
        for (size_t i = 0; i < TCP_STREAM; i++) t->given[i] = (uint8_t)roll(w, 256);
    }
    bool anew = false, rolled = false;
    while (!tcp_is_done(&w->ends[CLIENT]) || !tcp_is_done(&w->ends[SERVER])) {
        step(w);
        if (!rolled && w->ends[CLIENT].heard > TCP_STREAM / 8) {
            read_keys(w, CLIENT);
            read_keys(w, SERVER);
            rolled = true;
        }
        if (!anew && w->ends[CLIENT].heard > TCP_STREAM / 2) {
            begin_anew(w, CLIENT);
            begin_anew(w, SERVER);
            anew = true;
        }
        CHECK(w->now < START + 600000);
    }
    for (int end = 0; end < 2; end++)
        CHECK(memcmp(w->ends[end].taken, w->ends[!end].given, TCP_STREAM) == 0);
    CHECK(w->keys[CLIENT][5] > 0 && w->keys[CLIENT][6] > 0 && w->keys[SERVER][7] > 0 && w->keys[SERVER][8] > 0);
    for (int end = 0; end < 2; end++) lose_node(w, end);
    CHECK(w->altered > 0 && w->refused[CLIENT] + w->refused[SERVER] > 0);
    for (int end = 0; end < 2; end++) CHECK(aotcp_shim_free(&w->shims[end]) == AOTCP_OK);
}

int main(int argc, char **argv) {
    static struct world w;
    struct aotcp_shim none = {0};
    uint64_t seed = argc > 1 ? strtoull(argv[1], NULL, 10) : 1;
    unsigned long count = argc > 2 ? strtoul(argv[2], NULL, 10) : 1;
    CHECK(aotcp_shim_free(&none) == AOTCP_NO_STACK);
    for (unsigned long i = 0; i < count; i++) run(&w, seed + i);
    printf("shim_pair: %lu runs right; the last one: sealed %u and %u, refused %u and %u, sent again %u and %u\n", count,
           w.sealed[CLIENT], w.sealed[SERVER], w.refused[CLIENT], w.refused[SERVER], w.ends[CLIENT].sent_again,
           w.ends[SERVER].sent_again);
    return 0;
}
