#include "ends.h"

#include <arpa/inet.h>
#include <stdlib.h>
#include <string.h>

static bool is_same(const struct aotcp_pair *one, const struct aotcp_pair *two) {
    return one->family == two->family && one->local_port == two->local_port && one->remote_port == two->remote_port
        && memcmp(one->local, two->local, 16) == 0 && memcmp(one->remote, two->remote, 16) == 0;
}

static uint64_t mixed(uint64_t sum, const uint8_t *bytes, size_t length) {
    for (size_t i = 0; i < length; i++) sum = (sum ^ bytes[i]) * 1099511628211u;
    return sum;
}

/* The chain of a pair. */
static unsigned *head_of(struct tally *tally, const struct aotcp_pair *pair) {
    uint16_t local = pair->local_port, remote = pair->remote_port;
    uint8_t ports[4] = {(uint8_t)(local >> 8), (uint8_t)local, (uint8_t)(remote >> 8), (uint8_t)remote};
    uint64_t sum = mixed(mixed(mixed(14695981039346656037u, pair->local, 16), pair->remote, 16), ports, 4);
    return &tally->heads[(sum >> 32) % tally->most];
}

bool begin_tally(struct tally *tally, unsigned most) {
    memset(tally, 0, sizeof *tally);
    tally->most = most;
    tally->ends = calloc(most, sizeof *tally->ends);
    tally->heads = calloc(most, sizeof *tally->heads);
    return tally->ends != NULL && tally->heads != NULL;
}

struct end *find_end(struct tally *tally, const struct aotcp_pair *pair) {
    for (unsigned at = *head_of(tally, pair); at != 0; at = tally->ends[at - 1].next)
        if (is_same(&tally->ends[at - 1].pair, pair)) return &tally->ends[at - 1];
    return NULL;
}

static void unlink_end(struct tally *tally, unsigned place) {
    unsigned *at = head_of(tally, &tally->ends[place].pair);
    while (*at != 0 && *at != place + 1) at = &tally->ends[*at - 1].next;
    if (*at != 0) *at = tally->ends[place].next;
}

struct end *make_end(struct tally *tally, const struct aotcp_pair *pair) {
    struct end *end = find_end(tally, pair);
    unsigned place = 0;
    if (end == NULL) {
        for (unsigned i = 0; i < tally->most && tally->ends[place].used; i++)
            if (!tally->ends[i].used || tally->ends[i].turn < tally->ends[place].turn) place = i;
        end = &tally->ends[place];
        if (end->used) unlink_end(tally, place);
        memset(end, 0, sizeof *end);
        end->used = true;
        end->pair = *pair;
        unsigned *head = head_of(tally, pair);
        end->next = *head;
        *head = place + 1;
    }
    end->turn = ++tally->turn;
    return end;
}

bool may_tell(struct limit *limit, uint64_t now) {
    bool may = limit->second != now;
    if (!may) limit->held++;
    limit->second = now;
    return may;
}

const char *address_text(char room[SOCKET_TEXT], uint8_t family, const uint8_t bytes[16]) {
    if (inet_ntop(family == 6 ? AF_INET6 : AF_INET, bytes, room, SOCKET_TEXT) == NULL) room[0] = '\0';
    return room;
}

const char *socket_text(char room[SOCKET_TEXT], uint8_t family, const uint8_t bytes[16], uint16_t port) {
    char address[SOCKET_TEXT];
    address_text(address, family, bytes);
    snprintf(room, SOCKET_TEXT, family == 6 ? "[%.46s]:%u" : "%.46s:%u", address, port);
    return room;
}

bool read_address_text(const char *text, uint8_t *family, uint8_t bytes[16]) {
    memset(bytes, 0, 16);
    *family = strchr(text, ':') != NULL ? 6 : 4;
    return inet_pton(*family == 6 ? AF_INET6 : AF_INET, text, bytes) == 1;
}
