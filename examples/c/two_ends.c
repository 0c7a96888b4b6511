/* Two ends in memory: a handshake, 60,000 bytes both ways over a way that loses, repeats, reorders and alters by a
 * seed, a rollover of keys by the clock, a close; every byte is compared. The status is 0 where all is as it must be.
 *
 *   two_ends [SEED [COUNT]]        so many runs from a seed
 *   two_ends --bench MEGABYTES     bytes a second, and processor time a segment, with each algorithm */
#include "bench.h"
#include "world.h"

#include <string.h>

/* How many bytes go each way, and how far giving is ahead of taking at most. */
enum { BYTES = 60000, AHEAD = 12000 };

/* 2026-11-28 00:00:00, in milliseconds. */
static const uint64_t START = 1795824000000u;

#define ROW(local, peer, other, key, times)                                                                        \
    "[[node.key]]\nAdminKeyName = \"row\"\nLocalKeyName = \"" local "\"\nPeerKeyName = \"" peer                       \
    "\"\nPeers = [\"" other "\"]\nProtocol = \"TCP-AO\"\nProtocolSpecificInfo = \"options\"\nKDF = \"HMAC-SHA-1\"\n" \
    "AlgID = \"HMAC-SHA-1-96\"\nKey = \"" key "\"\nDirection = \"both\"\n" times
#define ONE "000102030405060708090a0b0c0d0e0f10111213"
#define TWO "a0a1a2a3a4a5a6a7a8a9aaabacadaeafb0b1b2b3"
#define OLD "SendLifetimeEnd = \"20261128001000Z\"\n"
#define NEW "SendLifetimeStart = \"20261128000500Z\"\n"
static const char KEYS[] = "[[node]]\nname = \"client\"\naddress = \"10.0.0.1\"\n" ROW("7", "5", "10.0.0.2", ONE, OLD)
    ROW("8", "6", "10.0.0.2", TWO, NEW) "[[node]]\nname = \"server\"\naddress = \"10.0.0.2\"\n"
    ROW("5", "7", "10.0.0.1", ONE, OLD) ROW("6", "8", "10.0.0.1", TWO, NEW);

/* One direction: what is given at one end, and what was taken at the other. */
struct stream {
    uint8_t given[BYTES], taken[BYTES];
    size_t offered, came;
    bool closed, ended;
};

/* Gives the next bytes, or closes behind the last one; whether anything was done. */
static bool give(struct world *w, int end, struct stream *s) {
    if (s->closed || s->offered > s->came + AHEAD) return false;
    if (s->offered == BYTES) {
        CHECK(aotcp_close(&w->stacks[end], &w->pairs[end]) == AOTCP_OK);
        CHECK(aotcp_write(&w->stacks[end], &w->pairs[end], s->given, 1) == AOTCP_CLOSING);
        s->closed = true;
        return true;
    }
    size_t left = BYTES - s->offered, piece = 1 + roll(w, 3000);
    if (piece > left) piece = left;
    int code = aotcp_write(&w->stacks[end], &w->pairs[end], s->given + s->offered, piece);
    CHECK(code == AOTCP_OK || code == AOTCP_NO_SPACE);
    if (code == AOTCP_OK) s->offered += piece;
    return code == AOTCP_OK;
}

/* Takes what is ready; whether anything was. */
static bool take(struct world *w, int end, struct stream *s) {
    struct aotcp_taken taken;
    uint8_t room[2000];
    CHECK(aotcp_read(&w->stacks[end], &w->pairs[end], room, 1 + roll(w, sizeof room), &taken) == AOTCP_OK);
    CHECK(taken.count <= BYTES - s->came);
    memcpy(s->taken + s->came, room, taken.count);
    CHECK(memcmp(s->taken + s->came, s->given + s->came, taken.count) == 0);
    s->came += taken.count;
    s->ended = taken.at_end;
    return taken.count > 0;
}

/* What a caller can't get wrong without being told. */
static void check_codes(struct world *w) {
    struct aotcp_stack none = {0};
    struct aotcp_pair strange = w->pairs[CLIENT];
    struct aotcp_heard heard;
    struct aotcp_fault fault = {0, 0, 0, 0};
    struct aotcp_address node = {4, {10, 0, 0, 9}};
    uint8_t out[1500];
    size_t length = 0;
    uint64_t late = 253402300800000u;
    strange.family = 5;
    struct aotcp_counters c;
    CHECK(aotcp_open(&none, &w->pairs[CLIENT], 1) == AOTCP_NO_STACK && aotcp_free(&none) == AOTCP_NO_STACK);
    CHECK(aotcp_counters(&none, &w->pairs[CLIENT], &c) == AOTCP_NO_STACK);
    CHECK(aotcp_node_counters(&none, &c) == AOTCP_NO_STACK);
    CHECK(aotcp_counters(&w->stacks[CLIENT], &strange, &c) == AOTCP_BAD_FAMILY);
    CHECK(aotcp_counters(&w->stacks[CLIENT], &w->pairs[SERVER], &c) == AOTCP_NO_CONNECTION);
    CHECK(aotcp_counters(&w->stacks[CLIENT], &w->pairs[CLIENT], &c) == AOTCP_OK && c.sent == 0 && !c.ids_sent.there);
    CHECK(aotcp_open(&w->stacks[CLIENT], &strange, 1) == AOTCP_BAD_FAMILY);
    CHECK(aotcp_open(&w->stacks[CLIENT], &w->pairs[CLIENT], 1) == AOTCP_IN_USE);
    CHECK(aotcp_close(&w->stacks[CLIENT], &w->pairs[SERVER]) == AOTCP_NO_CONNECTION);
    CHECK(aotcp_input(&w->stacks[CLIENT], late, out, 0, &heard) == AOTCP_BAD_TIME);
    CHECK(aotcp_output(&w->stacks[CLIENT], late, out, sizeof out, &length) == AOTCP_BAD_TIME);
    CHECK(aotcp_output(&w->stacks[CLIENT], w->now, out, sizeof out - 1, &length) == AOTCP_SMALL_ROOM);
    CHECK(aotcp_input(&w->stacks[CLIENT], w->now, out, 0, &heard) == AOTCP_OK);
    CHECK(heard.answer == AOTCP_ANSWER_BAD && heard.reason == AOTCP_DATAGRAM_TRUNCATED);
    CHECK(aotcp_new(&none, (const uint8_t *)KEYS, sizeof KEYS - 1, &node, 0, &fault) == AOTCP_BAD_MOST);
    CHECK(aotcp_new(&none, (const uint8_t *)KEYS, sizeof KEYS - 1, &node, 1, &fault) == AOTCP_NO_NODE);
    CHECK(aotcp_new(&none, (const uint8_t *)"[[nod", 5, &node, 1, &fault) == AOTCP_BAD_KEYS && fault.kind == AOTCP_FAULT_SYNTAX);
    CHECK(aotcp_free(&none) == AOTCP_NO_STACK);
    CHECK(aotcp_new(&w->stacks[CLIENT], (const uint8_t *)KEYS, sizeof KEYS - 1, &node, 1, &fault) == AOTCP_HELD);
}

/* What an end counted is what happened at it: what it sent, what was refused, and what passed under both rows. Its last key and its
 * peer's are the second row's; each asks for the first, since both rows accept at all times, and the lower one is asked for then. */
static void check_counters(struct world *w, int end) {
    struct aotcp_counters c, n;
    uint8_t own = end == CLIENT ? 6 : 8, peer = end == CLIENT ? 8 : 6, asks = end == CLIENT ? 7 : 5, asked = end == CLIENT ? 5 : 7;
    CHECK(aotcp_counters(&w->stacks[end], &w->pairs[end], &c) == AOTCP_OK);
    CHECK(aotcp_node_counters(&w->stacks[end], &n) == AOTCP_OK);
    CHECK(c.sent + c.sent_again == w->sent[end] && c.passed == w->rows[end][1] + w->rows[end][2]);
    CHECK(c.checksum + c.no_row + c.expired + c.no_context + c.range + c.bad_mac + c.mac_length == w->refused[end]);
    CHECK(n.sent == c.sent && n.passed == c.passed && n.no_connection == 0 && n.knocks == 0);
    CHECK(n.bad == (end == CLIENT) && c.bad == 0 && !n.ids_sent.there);
    CHECK(c.ids_sent.there && c.ids_sent.key_id == own && c.ids_sent.rnext_key_id == asks);
    CHECK(c.ids_heard.there && c.ids_heard.key_id == peer && c.ids_heard.rnext_key_id == asked);
}

/* Rows of a key file are told, added and withdrawn. */
static void check_rows(struct world *w) {
    struct aotcp_address node = {4, {10, 0, 0, 1}};
    struct aotcp_row row;
    struct aotcp_fault fault;
    uint8_t key[255], number = 0;
    size_t length = 0;
    const uint8_t *text = (const uint8_t *)KEYS;
    CHECK(aotcp_row(text, sizeof KEYS - 1, &node, 2, &row, key, sizeof key, &length, &fault) == AOTCP_OK);
    CHECK(length == 20 && key[0] == 0xa0 && row.recv_id == 8 && row.send_id == 6 && row.send_first == 1795824300);
    CHECK(row.algorithm == AOTCP_HMAC_SHA_1_96 && row.direction == AOTCP_BOTH && row.with_options && !row.for_all);
    CHECK(aotcp_row(text, sizeof KEYS - 1, &node, 3, &row, key, sizeof key, &length, &fault) == AOTCP_NO_ROW);
    CHECK(aotcp_add(&w->stacks[CLIENT], &row, key, length, &number) == AOTCP_OVERLAP && number == 2);
    row.recv_id = row.send_id = 99;
    CHECK(aotcp_add(&w->stacks[CLIENT], &row, key, 0, &number) == AOTCP_BAD_ROW);
    CHECK(aotcp_add(&w->stacks[CLIENT], &row, key, length, &number) == AOTCP_OK && number == 3);
    CHECK(aotcp_withdraw(&w->stacks[CLIENT], 3) == AOTCP_OK && aotcp_withdraw(&w->stacks[CLIENT], 4) == AOTCP_NO_ROW);
}

/* A SYN for a pair that isn't held knocks where its MAC is right; else it is refused and counted by its cause, and nothing
 * is held. */
static void check_knock(void) {
    struct world w;
    struct way way = {0, 0, 0, 0, 0};
    struct aotcp_heard heard;
    struct aotcp_counters n;
    uint8_t out[1500];
    size_t length = 0;
    world_open(&w, KEYS, START, 1, way);
    CHECK(aotcp_remove(&w.stacks[SERVER], &w.pairs[SERVER]) == AOTCP_OK);
    CHECK(aotcp_output(&w.stacks[CLIENT], START, out, sizeof out, &length) == AOTCP_OK && length <= sizeof out);
    CHECK(aotcp_input(&w.stacks[SERVER], START, out, length, &heard) == AOTCP_OK && heard.answer == AOTCP_ANSWER_KNOCKS);
    unsigned sum = (out[36] << 8 | out[37]) + 1u; /* a window of one byte less, and the checksum right again */
    sum = (sum & 0xffff) + (sum >> 16);
    out[35]--;
    out[36] = (uint8_t)(sum >> 8);
    out[37] = (uint8_t)sum;
    CHECK(aotcp_input(&w.stacks[SERVER], START, out, length, &heard) == AOTCP_OK);
    CHECK(heard.answer == AOTCP_ANSWER_REFUSED && heard.reason == AOTCP_VERDICT_BAD_MAC && heard.pair.family == 0);
    CHECK(aotcp_node_counters(&w.stacks[SERVER], &n) == AOTCP_OK && n.knocks == 1 && n.bad_mac == 1 && n.passed == 0);
    CHECK(aotcp_counters(&w.stacks[SERVER], &w.pairs[SERVER], &n) == AOTCP_NO_CONNECTION);
    world_close(&w);
}

/* An end whose last acknowledgements were all lost until its peer was out of TIME-WAIT hears nothing more: it is told of
 * that after five minutes, and gives up. */
static void give_up(struct world *w, int end) {
    bool overdue = false;
    CHECK(aotcp_is_overdue(&w->stacks[end], &w->pairs[end], w->now, &overdue) == AOTCP_OK);
    if (!overdue || world_state(w, 1 - end).phase != AOTCP_CLOSED) return;
    CHECK(aotcp_abort(&w->stacks[end], &w->pairs[end]) == AOTCP_OK);
    CHECK(world_state(w, end).phase == AOTCP_CLOSED);
}

static bool is_over(struct world *w, const struct stream *s) {
    return s[CLIENT].ended && s[SERVER].ended && world_state(w, CLIENT).phase >= AOTCP_TIME_WAIT
        && world_state(w, SERVER).phase >= AOTCP_TIME_WAIT;
}

static void run(uint64_t seed) {
    static struct stream s[2];
    struct world w;
    struct way way = {150, 80, 80, 10, 60};
    memset(s, 0, sizeof s);
    world_open(&w, KEYS, START, seed, way);
    for (int end = 0; end < 2; end++)
        for (size_t i = 0; i < BYTES; i++) s[end].given[i] = (uint8_t)roll(&w, 256);
    check_codes(&w);
    check_rows(&w);
    bool rolled = false;
    for (unsigned round = 0; !is_over(&w, s); round++) {
        CHECK(round < 200000);
        bool moved = false;
        world_deliver(&w);
        for (int end = 0; end < 2; end++) {
            if (world_state(&w, end).phase >= AOTCP_ESTABLISHED) moved |= give(&w, end, &s[end]);
            moved |= take(&w, end, &s[1 - end]);
            world_send(&w, end);
            give_up(&w, end);
        }
        if (!rolled && s[CLIENT].came > BYTES / 4) { /* row 1 sends no more */
            rolled = true;
            w.now += 601000;
        } else {
            bool waits = world_wait(&w);
            CHECK(waits || moved || is_over(&w, s));
        }
    }
    for (int end = 0; end < 2; end++) {
        CHECK(s[end].came == BYTES && memcmp(s[end].taken, s[end].given, BYTES) == 0);
        CHECK(w.rows[end][1] > 0 && w.rows[end][2] > 0);
        check_counters(&w, end);
    }
    printf("seed %llu: %u segments, %u lost, %u altered, %u refused; under row 1 %u and %u, under row 2 %u and %u; %llu s\n",
           (unsigned long long)seed, w.sent[0] + w.sent[1], w.lost, w.altered, w.refused[0] + w.refused[1], w.rows[0][1],
           w.rows[1][1], w.rows[0][2], w.rows[1][2], (unsigned long long)((w.now - START) / 1000));
    world_close(&w);
}

int main(int argc, char **argv) {
    if (argc > 1 && strcmp(argv[1], "--bench") == 0) return bench(argc > 2 ? strtoul(argv[2], NULL, 10) : 10);
    uint64_t seed = argc > 1 ? strtoull(argv[1], NULL, 10) : 1;
    uint64_t count = argc > 2 ? strtoull(argv[2], NULL, 10) : 1;
    check_knock();
    for (uint64_t i = 0; i < count; i++) run(seed + i);
    return 0;
}
