/* Three situations that a user of a stack meets, and what he does: a listener that waits for the rest of a handshake which
 * never comes, a SYN that knocks, and a window that closes. The status is 0 where all is as it must be.
 *
 *   situations */
#include "world.h"

#include <string.h>

/* 2026-11-28 00:00:00, in milliseconds. */
static const uint64_t START = 1795824000000u;

#define ROW(local, peer, other)                                                                                      \
    "[[node.key]]\nAdminKeyName = \"row\"\nLocalKeyName = \"" local "\"\nPeerKeyName = \"" peer                       \
    "\"\nPeers = [\"" other "\"]\nProtocol = \"TCP-AO\"\nProtocolSpecificInfo = \"options\"\nKDF = \"HMAC-SHA-1\"\n" \
    "AlgID = \"HMAC-SHA-1-96\"\nKey = \"000102030405060708090a0b0c0d0e0f10111213\"\nDirection = \"both\"\n"
static const char KEYS[] = "[[node]]\nname = \"client\"\naddress = \"10.0.0.1\"\n" ROW("7", "5", "10.0.0.2")
    "[[node]]\nname = \"server\"\naddress = \"10.0.0.2\"\n" ROW("5", "7", "10.0.0.1");

static const struct way SURE = {0, 0, 0, 0, 0};

/* A datagram in a buffer. */
struct datagram {
    size_t length;
    uint8_t bytes[1500];
};

/* The next datagram of an end, which has one. */
static struct datagram next_of(struct world *w, int end) {
    struct datagram d;
    CHECK(aotcp_output(&w->stacks[end], w->now, d.bytes, sizeof d.bytes, &d.length) == AOTCP_OK);
    return d;
}

/* What an end answers to a datagram. */
static struct aotcp_heard hears(struct world *w, int end, const struct datagram *d) {
    struct aotcp_heard heard;
    CHECK(aotcp_input(&w->stacks[end], w->now, d->bytes, d->length, &heard) == AOTCP_OK);
    return heard;
}

/* Everything that is due is sent and comes at once, until both ends rest. */
static void settle(struct world *w) {
    for (unsigned round = 0; round < 1000; round++) {
        size_t before = w->sent[CLIENT] + w->sent[SERVER];
        world_send(w, CLIENT);
        world_send(w, SERVER);
        world_deliver(w);
        if (w->sent[CLIENT] + w->sent[SERVER] == before) return;
    }
    CHECK(!"both ends rest");
}

static void drop(struct world *w, int end) {
    CHECK(aotcp_remove(&w->stacks[end], &w->pairs[end]) == AOTCP_OK);
}

static void check_established(struct world *w) {
    CHECK(world_state(w, CLIENT).phase == AOTCP_ESTABLISHED && world_state(w, SERVER).phase == AOTCP_ESTABLISHED);
}

/* A byte goes from one end to the other. */
static void check_byte(struct world *w, int from) {
    uint8_t byte = 0x5a, room[8] = {0};
    struct aotcp_taken taken;
    CHECK(aotcp_write(&w->stacks[from], &w->pairs[from], &byte, 1) == AOTCP_OK);
    settle(w);
    CHECK(aotcp_read(&w->stacks[1 - from], &w->pairs[1 - from], room, sizeof room, &taken) == AOTCP_OK);
    CHECK(taken.count == 1 && room[0] == byte && !taken.at_end);
}

/* A client sends its SYN and is restarted: its next SYN has another number, and the listener, which waits for the rest of
 * the first handshake, doesn't answer it with a SYN-ACK. Its phase shows it at once, aotcp_is_overdue after five minutes. The
 * user removes the connection and listens again, with a fresh number. */
static void stuck_listener(void) {
    struct world w;
    bool overdue = true;
    world_open(&w, KEYS, START, 1, SURE);
    struct datagram first = next_of(&w, CLIENT);
    CHECK(hears(&w, SERVER, &first).answer == AOTCP_ANSWER_TAKEN);
    (void)next_of(&w, SERVER); /* the SYN-ACK is lost */
    drop(&w, CLIENT);
    CHECK(aotcp_open(&w.stacks[CLIENT], &w.pairs[CLIENT], 77) == AOTCP_OK);
    struct datagram second = next_of(&w, CLIENT);
    uint8_t answer = hears(&w, SERVER, &second).answer;
    CHECK(answer == AOTCP_ANSWER_WINDOW || answer == AOTCP_ANSWER_CHALLENGE);
    CHECK(world_state(&w, SERVER).phase == AOTCP_SYN_RECEIVED);
    CHECK(aotcp_is_overdue(&w.stacks[SERVER], &w.pairs[SERVER], START + 299999, &overdue) == AOTCP_OK && !overdue);
    CHECK(aotcp_is_overdue(&w.stacks[SERVER], &w.pairs[SERVER], START + 300000, &overdue) == AOTCP_OK && overdue);
    drop(&w, SERVER);
    CHECK(aotcp_listen(&w.stacks[SERVER], &w.pairs[SERVER], 78) == AOTCP_OK);
    CHECK(hears(&w, SERVER, &second).answer == AOTCP_ANSWER_TAKEN);
    settle(&w);
    check_established(&w);
    check_byte(&w, CLIENT);
    check_byte(&w, SERVER);
    world_close(&w);
}

/* A SYN for a pair that nobody listens on knocks: nothing is held of it. The user who wants the connection listens, and
 * hands the same datagram in again. A replay of the SYN, once that connection is gone, knocks too: a knock doesn't say that
 * the peer is there now. */
static void knock(void) {
    struct world w;
    struct aotcp_counters n;
    struct aotcp_state state;
    world_open(&w, KEYS, START, 2, SURE);
    drop(&w, SERVER);
    struct datagram syn = next_of(&w, CLIENT);
    struct aotcp_heard heard = hears(&w, SERVER, &syn);
    CHECK(heard.answer == AOTCP_ANSWER_KNOCKS && !heard.passed);
    CHECK(memcmp(heard.pair.local, w.pairs[SERVER].local, 4) == 0 && heard.pair.local_port == w.pairs[SERVER].local_port);
    CHECK(memcmp(heard.pair.remote, w.pairs[SERVER].remote, 4) == 0 && heard.pair.remote_port == w.pairs[SERVER].remote_port);
    CHECK(aotcp_state(&w.stacks[SERVER], &w.pairs[SERVER], &state) == AOTCP_NO_CONNECTION);
    CHECK(aotcp_listen(&w.stacks[SERVER], &heard.pair, 79) == AOTCP_OK);
    CHECK(hears(&w, SERVER, &syn).answer == AOTCP_ANSWER_TAKEN);
    settle(&w);
    check_established(&w);
    check_byte(&w, CLIENT);
    CHECK(hears(&w, SERVER, &syn).answer != AOTCP_ANSWER_KNOCKS); /* a connection in use isn't knocked at */
    check_byte(&w, SERVER);
    drop(&w, SERVER);
    CHECK(hears(&w, SERVER, &syn).answer == AOTCP_ANSWER_KNOCKS);
    CHECK(aotcp_node_counters(&w.stacks[SERVER], &n) == AOTCP_OK && n.knocks == 2);
    world_close(&w);
}

/* How much is written, more than the window and the send queue hold together. */
enum { MUCH = 200000 };

/* Writes what the queue has room for. */
static size_t offer(struct world *w, const uint8_t *bytes, size_t offered) {
    size_t piece = MUCH - offered < 5000 ? MUCH - offered : 5000;
    if (piece == 0) return offered;
    int code = aotcp_write(&w->stacks[CLIENT], &w->pairs[CLIENT], bytes + offered, piece);
    CHECK(code == AOTCP_OK || code == AOTCP_NO_SPACE);
    return code == AOTCP_OK ? offered + piece : offered;
}

/* A server that doesn't read: its window closes after 65,535 bytes, and the client probes it by its timer, ever more slowly,
 * without giving up. Once the server reads, everything comes, in order. */
static void closed_window(void) {
    static uint8_t given[MUCH], taken[MUCH];
    struct world w;
    struct aotcp_taken read;
    size_t offered = 0, came = 0;
    world_open(&w, KEYS, START, 3, SURE);
    settle(&w);
    check_established(&w);
    for (size_t i = 0; i < MUCH; i++) given[i] = (uint8_t)roll(&w, 256);
    for (unsigned round = 0; w.now < START + 600000; round++) {
        CHECK(round < 10000);
        offered = offer(&w, given, offered);
        settle(&w);
        if (!world_wait(&w)) w.now += 1000;
    }
    CHECK(offered < MUCH && world_state(&w, CLIENT).phase == AOTCP_ESTABLISHED);
    for (unsigned round = 0; came < MUCH; round++) {
        CHECK(round < 10000);
        CHECK(aotcp_read(&w.stacks[SERVER], &w.pairs[SERVER], taken + came, MUCH - came, &read) == AOTCP_OK);
        came += read.count;
        offered = offer(&w, given, offered);
        settle(&w);
        if (read.count == 0) world_wait(&w);
    }
    CHECK(memcmp(given, taken, MUCH) == 0);
    world_close(&w);
}

int main(void) {
    stuck_listener();
    knock();
    closed_window();
    printf("situations: a stuck listener, a knock and a closed window, each as told\n");
    return 0;
}
