#include "options.h"

#include <arpa/inet.h>
#include <stdio.h>
#include <stdlib.h>
#include <string.h>

/* ADDRESS:PORT, or [ADDRESS]:PORT for IPv6. */
static bool read_socket(const char *word, uint8_t *family, uint8_t bytes[16], uint16_t *port) {
    char address[64];
    const char *colon = strrchr(word, ':');
    if (colon == NULL || colon == word || (size_t)(colon - word) >= sizeof address) return false;
    memcpy(address, word, (size_t)(colon - word));
    address[colon - word] = '\0';
    char *end = NULL;
    unsigned long number = strtoul(colon + 1, &end, 10);
    if (colon[1] < '0' || colon[1] > '9' || *end != '\0' || number > 65535) return false;
    *port = (uint16_t)number;
    memset(bytes, 0, 16);
    size_t length = strlen(address);
    if (address[0] == '[' && address[length - 1] == ']') {
        address[length - 1] = '\0';
        *family = 6;
        return inet_pton(AF_INET6, address + 1, bytes) == 1;
    }
    *family = 4;
    return inet_pton(AF_INET, address, bytes) == 1;
}

static bool read_pair(struct aotcp_pair *pair, const char *local, const char *remote) {
    uint8_t other = 0;
    return read_socket(local, &pair->family, pair->local, &pair->local_port)
        && read_socket(remote, &other, pair->remote, &pair->remote_port) && other == pair->family;
}

/* So many of a hundred are lost each way. */
static bool read_loss(struct weather *weather, const char *value) {
    char rules[64];
    unsigned long lost = strtoul(value, NULL, 10);
    if (lost == 0) return true;
    snprintf(rules, sizeof rules, "out:~%lu:drop,in:~%lu:drop", lost, lost);
    return read_weather(weather, rules);
}

/* A word with its value; false for another word, and for weather that has a fault. */
static bool read_word(struct options *options, const char *word, const char *value) {
    if (strcmp(word, "--tun") == 0) {
        options->tun = value;
    } else if (strcmp(word, "--keys") == 0) {
        options->keys = value;
    } else if (strcmp(word, "--isn") == 0) {
        options->has_isn = true;
        options->isn = (uint32_t)strtoul(value, NULL, 10);
    } else if (strcmp(word, "--lose") == 0) {
        return read_loss(&options->weather, value);
    } else if (strcmp(word, "--weather") == 0) {
        return read_weather(&options->weather, value);
    } else if (strcmp(word, "--seed") == 0) {
        options->weather.seed = strtoull(value, NULL, 10);
    } else {
        return false;
    }
    return true;
}

bool read_options(struct options *options, int argc, char **argv) {
    int at = 1;
    memset(options, 0, sizeof *options);
    for (; at < argc && strncmp(argv[at], "--", 2) == 0; at++) {
        if (strcmp(argv[at], "--listen") == 0) {
            options->listens = true;
        } else if (at + 1 < argc && read_word(options, argv[at], argv[at + 1])) {
            at++;
        } else {
            break;
        }
    }
    if (options->tun != NULL && options->keys != NULL && at + 2 == argc && read_pair(&options->pair, argv[at], argv[at + 1]))
        return true;
    fprintf(stderr, "usage: ao-nc --tun DEV --keys FILE [--listen] LOCAL:PORT REMOTE:PORT\n"
                    "for tests: --isn N, --lose PERCENT, --seed N, --weather WAY:WHICH:FATE,..\n");
    return false;
}
