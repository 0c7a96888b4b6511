/* stack CONNECTIONS BUSY MEGABYTES: two stacks in memory with so many connections between them, of which the first BUSY carry so many
 * megabytes one way, in turns, while the others are idle. Prints the seconds of a processor that this takes, and how many datagrams
 * were handed over. See stack.py. */
#define _POSIX_C_SOURCE 200809L
#include "aotcp.h"

#include <stdio.h>
#include <stdlib.h>
#include <string.h>
#include <time.h>

#define NODE(name, address, other)                                                                       \
    "[[node]]\nname = \"" name "\"\naddress = \"" address "\"\n[[node.key]]\nAdminKeyName = \"row\"\n"   \
    "LocalKeyName = \"1\"\nPeerKeyName = \"1\"\nPeers = [\"" other "\"]\nProtocol = \"TCP-AO\"\n"      \
    "ProtocolSpecificInfo = \"options\"\nKDF = \"HMAC-SHA-1\"\nAlgID = \"HMAC-SHA-1-96\"\n"            \
    "Key = \"000102030405060708090a0b0c0d0e0f10111213\"\nDirection = \"both\"\n"

/* A piece is three segments. */
enum { CLIENT, SERVER, PIECE = 4096, RING = 65536 };

/* The time, in milliseconds since 1970, and the datagrams so far. */
static uint64_t now = 1795824000000u;
static unsigned long datagrams;
static struct aotcp_stack stacks[2];

static void check(bool right, const char *what) {
    if (right) return;
    fprintf(stderr, "not so: %s\n", what);
    exit(1);
}

static struct aotcp_pair pair(int end, unsigned number) {
    struct aotcp_pair client = {4, {10, 0, 0, 1}, {10, 0, 0, 2}, (uint16_t)(40000 + number), 179};
    struct aotcp_pair server = {4, {10, 0, 0, 2}, {10, 0, 0, 1}, 179, (uint16_t)(40000 + number)};
    return end == CLIENT ? client : server;
}

/* All that is due at an end is heard at the other; how many datagrams that were. */
static unsigned pass(int end) {
    uint8_t datagram[1500];
    size_t length;
    unsigned count = 0;
    struct aotcp_heard heard;
    while (aotcp_output(&stacks[end], now, datagram, sizeof datagram, &length) == AOTCP_OK) {
        check(aotcp_input(&stacks[1 - end], now, datagram, length, &heard) == AOTCP_OK && heard.passed, "a segment passes");
        count++;
    }
    return count;
}

static void begin(int end) {
    static const char keys[] = NODE("client", "10.0.0.1", "10.0.0.2") NODE("server", "10.0.0.2", "10.0.0.1");
    struct aotcp_address node = {4, {10, 0, 0, (uint8_t)(end + 1)}};
    struct aotcp_fault fault;
    check(aotcp_new(&stacks[end], (const uint8_t *)keys, strlen(keys), &node, 1024, &fault) == AOTCP_OK, "a stack begins");
}

static void connect_all(unsigned connections) {
    for (unsigned i = 0; i < connections; i++) {
        struct aotcp_pair client = pair(CLIENT, i), server = pair(SERVER, i);
        check(aotcp_listen(&stacks[SERVER], &server, 1000 + i) == AOTCP_OK, "a connection listens");
        check(aotcp_open(&stacks[CLIENT], &client, 2000 + i) == AOTCP_OK, "a connection opens");
    }
    while (pass(CLIENT) + pass(SERVER) > 0) {
    }
    for (unsigned i = 0; i < connections; i++) {
        struct aotcp_pair client = pair(CLIENT, i);
        struct aotcp_state state;
        check(aotcp_state(&stacks[CLIENT], &client, &state) == AOTCP_OK && state.phase == AOTCP_ESTABLISHED, "a connection is up");
    }
}

/* Each turn gives a piece to every busy connection, hands over what is due, reads it at the other end, and hands over the
 * acknowledgements: so all of them stand in line and have their timers running at the same time. A turn takes a millisecond. */
static void move(unsigned busy, size_t total) {
    static uint8_t piece[PIECE], room[PIECE];
    struct aotcp_taken taken;
    for (size_t came = 0; came < total; now++) {
        for (unsigned i = 0; i < busy; i++) {
            struct aotcp_pair client = pair(CLIENT, i);
            check(aotcp_write(&stacks[CLIENT], &client, piece, sizeof piece) == AOTCP_OK, "a piece is given");
        }
        datagrams += pass(CLIENT);
        for (unsigned i = 0; i < busy; i++) {
            struct aotcp_pair server = pair(SERVER, i);
            check(aotcp_read(&stacks[SERVER], &server, room, sizeof room, &taken) == AOTCP_OK && taken.count == sizeof piece, "a piece is read");
            came += taken.count;
        }
        datagrams += pass(SERVER);
    }
}

int main(int argc, char **argv) {
    struct timespec before, after;
    if (argc != 4) return 2;
    begin(CLIENT);
    begin(SERVER);
    connect_all((unsigned)strtoul(argv[1], NULL, 10));
    /* First as much as fills the buffers of each connection once, so that no page of memory is new later. */
    unsigned busy = (unsigned)strtoul(argv[2], NULL, 10);
    move(busy, (size_t)busy * RING);
    datagrams = 0;
    clock_gettime(CLOCK_PROCESS_CPUTIME_ID, &before);
    move(busy, 1000000 * strtoul(argv[3], NULL, 10));
    clock_gettime(CLOCK_PROCESS_CPUTIME_ID, &after);
    double seconds = (double)(after.tv_sec - before.tv_sec) + 1e-9 * (double)(after.tv_nsec - before.tv_nsec);
    printf("%.6f %lu\n", seconds, datagrams);
    aotcp_free(&stacks[CLIENT]);
    aotcp_free(&stacks[SERVER]);
    return 0;
}
