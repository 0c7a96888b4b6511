/* shim PAIRS COUNT ALGORITHM: two shims in memory, each of which keeps so many pairs of sockets; of one pair in the midst, so many
 * segments of 1,400 bytes are sealed by the one and checked by the other. Prints the seconds of a processor that this takes. See
 * shim.py. */
#define _POSIX_C_SOURCE 200809L
#include "aotcp.h"

#include <stdio.h>
#include <stdlib.h>
#include <string.h>
#include <time.h>

enum { CLIENT, SERVER, HEADERS = 40, SIZE = 1400, SYN = 2, ACK = 16 };

static const uint64_t NOW = 1795824000u;
static struct aotcp_shim shims[2];

static void check(bool right, const char *what) {
    if (right) return;
    fprintf(stderr, "not so: %s\n", what);
    exit(1);
}

static void put2(uint8_t *at, unsigned n) {
    at[0] = (uint8_t)(n >> 8);
    at[1] = (uint8_t)n;
}

static void put4(uint8_t *at, uint32_t n) {
    put2(at, n >> 16);
    put2(at + 2, n & 65535);
}

/* A datagram of a kernel whose device sets the checksums. */
static size_t make(uint8_t *out, int end, unsigned pair, uint32_t sequence, uint32_t ack, unsigned flags, size_t bytes) {
    size_t length = HEADERS + bytes;
    uint32_t sum = 0;
    memset(out, 0, length);
    out[0] = 0x45, out[8] = 64, out[9] = 6;
    put2(out + 2, (unsigned)length);
    out[12] = out[16] = 10, out[15] = end == CLIENT ? 1 : 2, out[19] = end == CLIENT ? 2 : 1;
    for (int i = 0; i < 20; i += 2) sum += (unsigned)(out[i] << 8 | out[i + 1]);
    while (sum >> 16) sum = (sum & 65535) + (sum >> 16);
    put2(out + 10, ~sum & 65535);
    put2(out + 20, end == CLIENT ? 1024 + pair : 179);
    put2(out + 22, end == CLIENT ? 179 : 1024 + pair);
    put4(out + 24, sequence);
    put4(out + 28, ack);
    out[32] = 0x50, out[33] = (uint8_t)flags;
    put2(out + 34, 65535);
    return length;
}

/* What an end's kernel sends is sealed there, and checked at the other end. */
static void pass(int end, const uint8_t *datagram, size_t length) {
    uint8_t buffer[SIZE + HEADERS + 60];
    struct aotcp_shim_told told;
    memcpy(buffer, datagram, length);
    check(aotcp_shim_outbound(&shims[end], NOW, buffer, sizeof buffer, &length, &told) == AOTCP_OK
          && told.cause == AOTCP_SHIM_PASSED, "a segment is sealed");
    check(aotcp_shim_inbound(&shims[!end], NOW, 1500, buffer, sizeof buffer, &length, &told) == AOTCP_OK
          && told.cause == AOTCP_SHIM_PASSED, "a segment passes");
}

static void begin(int end, unsigned pairs, const char *algorithm) {
    char keys[1000];
    struct aotcp_fault fault;
    int length = snprintf(keys, sizeof keys,
        "[[node]]\nname = \"end\"\naddress = \"10.0.0.%d\"\n[[node.key]]\nAdminKeyName = \"row\"\nLocalKeyName = \"1\"\n"
        "PeerKeyName = \"1\"\nPeers = [\"10.0.0.%d\"]\nProtocol = \"TCP-AO\"\nProtocolSpecificInfo = \"options\"\nKDF = \"%s\"\n"
        "AlgID = \"%s\"\nKey = \"000102030405060708090a0b0c0d0e0f\"\nDirection = \"both\"\n",
        end == CLIENT ? 1 : 2, end == CLIENT ? 2 : 1, strcmp(algorithm, "cmac") == 0 ? "AES-128-CMAC" : "HMAC-SHA-1",
        strcmp(algorithm, "cmac") == 0 ? "AES-128-CMAC-96" : "HMAC-SHA-1-96");
    check(aotcp_shim_new(&shims[end], (const uint8_t *)keys, (size_t)length, (uint16_t)pairs, &fault) == AOTCP_OK, "a shim begins");
}

static void connect(unsigned pair) {
    uint8_t datagram[HEADERS];
    pass(CLIENT, datagram, make(datagram, CLIENT, pair, 1000 + pair, 0, SYN, 0));
    pass(SERVER, datagram, make(datagram, SERVER, pair, 5000 + pair, 1001 + pair, SYN | ACK, 0));
    pass(CLIENT, datagram, make(datagram, CLIENT, pair, 1001 + pair, 5001 + pair, ACK, 0));
}

int main(int argc, char **argv) {
    check(argc == 4, "shim PAIRS COUNT ALGORITHM");
    unsigned pairs = (unsigned)strtoul(argv[1], NULL, 10), pair = pairs / 2;
    unsigned long count = strtoul(argv[2], NULL, 10);
    uint8_t datagram[HEADERS + SIZE];
    for (int end = 0; end < 2; end++) begin(end, pairs, argv[3]);
    for (unsigned i = 0; i < pairs; i++) connect(i);
    clock_t begun = clock();
    for (unsigned long i = 0; i < count; i++)
        pass(CLIENT, datagram, make(datagram, CLIENT, pair, 1001 + pair + (uint32_t)(i * SIZE), 5001 + pair, ACK, SIZE));
    printf("%.6f\n", (double)(clock() - begun) / CLOCKS_PER_SEC);
    return 0;
}
