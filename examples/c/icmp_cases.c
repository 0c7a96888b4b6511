/* Asks a shim of each datagram of a file of worked cases, made by hand: whether it is ignored.
 *
 *   icmp_cases FILE */
#include "aotcp.h"

#include <stdio.h>
#include <stdlib.h>
#include <string.h>

#define ROW(peer)                                                                                                     \
    "[[node.key]]\nAdminKeyName = \"row\"\nLocalKeyName = \"7\"\nPeerKeyName = \"5\"\nPeers = [\"" peer "\"]\n"         \
    "Protocol = \"TCP-AO\"\nProtocolSpecificInfo = \"options\"\nKDF = \"HMAC-SHA-1\"\nAlgID = \"HMAC-SHA-1-96\"\n"      \
    "Key = \"000102030405060708090a0b0c0d0e0f10111213\"\nDirection = \"both\"\n"
static const char KEYS[] = "[[node]]\nname = \"four\"\naddress = \"10.0.0.1\"\n" ROW("10.0.0.2")
    "[[node]]\nname = \"six\"\naddress = \"fd000000000000000000000000000001\"\n"
        ROW("fd000000000000000000000000000002");

static void fail(unsigned line, const char *why) {
    fprintf(stderr, "icmp_cases: line %u: %s\n", line, why);
    exit(1);
}

/* The bytes of a line, in memory of just their number, so that a reading past them is seen. */
static uint8_t *bytes_of(const char *hex, size_t length) {
    uint8_t *bytes = malloc(length == 0 ? 1 : length);
    unsigned byte;
    for (size_t i = 0; bytes != NULL && i < length; i++) {
        if (sscanf(hex + 2 * i, "%2x", &byte) != 1) {
            free(bytes);
            return NULL;
        }
        bytes[i] = (uint8_t)byte;
    }
    return bytes;
}

static void try_line(struct aotcp_shim *shim, const char *text, unsigned line, uint64_t *ignored) {
    struct aotcp_shim_counters counters;
    size_t digits = strcspn(text, " ");
    bool is_ignored, answer = false, must = strncmp(text + digits, " ignored ", 9) == 0;
    if (!must && strncmp(text + digits, " passes ", 8) != 0) fail(line, "neither ignored nor passes");
    uint8_t *bytes = bytes_of(text, digits / 2);
    if (digits % 2 != 0 || bytes == NULL) fail(line, "no hexadecimal");
    is_ignored = aotcp_shim_icmp(shim, bytes, digits / 2, &answer) == AOTCP_OK && answer;
    free(bytes);
    if (is_ignored != must) fail(line, must ? "it passes" : "it is ignored");
    *ignored += must;
    if (aotcp_shim_counters(shim, &counters) != AOTCP_OK || counters.in.icmp != *ignored) fail(line, "counted otherwise");
}

int main(int argc, char **argv) {
    struct aotcp_shim shim = {0};
    struct aotcp_fault fault = {0, 0, 0, 0};
    char text[1024];
    unsigned line = 0, cases = 0;
    uint64_t ignored = 0;
    bool answer = true;
    FILE *file = argc == 2 ? fopen(argv[1], "r") : NULL;
    if (file == NULL) fail(0, "icmp_cases FILE");
    if (aotcp_shim_icmp(&shim, NULL, 0, &answer) != AOTCP_NO_STACK || !answer) fail(0, "a shim that isn't there answers");
    if (aotcp_shim_new(&shim, (const uint8_t *)KEYS, sizeof KEYS - 1, 1, &fault) != AOTCP_OK) fail(0, "no shim");
    while (fgets(text, sizeof text, file) != NULL) {
        line++;
        if (text[0] == '#') continue;
        try_line(&shim, text, line, &ignored);
        cases++;
    }
    fclose(file);
    aotcp_shim_free(&shim);
    if (cases == 0 || ignored == 0 || ignored == cases) fail(line, "no cases of both answers");
    printf("icmp_cases: %u right, %llu ignored\n", cases, (unsigned long long)ignored);
    return 0;
}
