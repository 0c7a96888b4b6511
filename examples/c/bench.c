#include "bench.h"
#include "world.h"

#include <string.h>
#include <time.h>

#define NODE(name, address, other, alg, kdf)                                                                     \
    "[[node]]\nname = \"" name "\"\naddress = \"" address "\"\n[[node.key]]\nAdminKeyName = \"row\"\n"           \
    "LocalKeyName = \"1\"\nPeerKeyName = \"1\"\nPeers = [\"" other "\"]\nProtocol = \"TCP-AO\"\n"              \
    "ProtocolSpecificInfo = \"options\"\nKDF = \"" kdf "\"\nAlgID = \"" alg "\"\n"                             \
    "Key = \"000102030405060708090a0b0c0d0e0f10111213\"\nDirection = \"both\"\n"
#define TABLES(alg, kdf) NODE("client", "10.0.0.1", "10.0.0.2", alg, kdf) NODE("server", "10.0.0.2", "10.0.0.1", alg, kdf)

static double seconds(clockid_t clock) {
    struct timespec t;
    clock_gettime(clock, &t);
    return (double)t.tv_sec + 1e-9 * (double)t.tv_nsec;
}

static void move(struct world *w, size_t total) {
    static uint8_t piece[16384], room[65536];
    size_t given = 0, came = 0;
    memset(piece, 'x', sizeof piece);
    while (came < total) {
        struct aotcp_taken taken;
        if (given < total && world_state(w, CLIENT).phase == AOTCP_ESTABLISHED) {
            size_t n = total - given < sizeof piece ? total - given : sizeof piece;
            if (aotcp_write(&w->stacks[CLIENT], &w->pairs[CLIENT], piece, n) == AOTCP_OK) given += n;
        }
        world_send(w, CLIENT);
        world_deliver(w);
        CHECK(aotcp_read(&w->stacks[SERVER], &w->pairs[SERVER], room, sizeof room, &taken) == AOTCP_OK);
        came += taken.count;
        world_send(w, SERVER);
        world_deliver(w);
    }
}

static void measure(const char *name, const char *keys, size_t total) {
    struct world w;
    struct way way = {0, 0, 0, 0, 0};
    world_open(&w, keys, 1795824000000u, 1, way);
    double wall = seconds(CLOCK_MONOTONIC), work = seconds(CLOCK_PROCESS_CPUTIME_ID);
    move(&w, total);
    wall = seconds(CLOCK_MONOTONIC) - wall;
    work = seconds(CLOCK_PROCESS_CPUTIME_ID) - work;
    unsigned sent = w.sent[CLIENT] + w.sent[SERVER];
    printf("%s: %.0f bytes a second of processor, %.0f by the clock; %u segments, each made and checked in %.2f us\n",
           name, (double)total / work, (double)total / wall, sent, 1e6 * work / sent);
    world_close(&w);
}

int bench(unsigned long megabytes) {
    size_t total = megabytes * 1000000;
    measure("HMAC-SHA-1-96", TABLES("HMAC-SHA-1-96", "HMAC-SHA-1"), total);
    measure("AES-128-CMAC-96", TABLES("AES-128-CMAC-96", "AES-128-CMAC"), total);
    return 0;
}
