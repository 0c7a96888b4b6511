/* Sockets of the kernel with TCP-AO keys, and what is done to them. */
#define _GNU_SOURCE
#include "guest.h"

#include <arpa/inet.h>
#include <errno.h>
#include <linux/tcp.h>
#include <netinet/in.h>
#include <stdint.h>
#include <stdlib.h>
#include <string.h>
#include <unistd.h>

/* key SLOT PEER ALGORITHM SEND RECEIVE EXCLUDE MACLENGTH CURRENT RNEXT HEX */
static int key(int socket, char **words) {
    struct tcp_ao_add add;
    struct sockaddr_storage peer;
    memset(&add, 0, sizeof add);
    socklen_t length = address(words[2], 0, &peer);
    memcpy(&add.addr, &peer, length);
    strcpy(add.alg_name, words[3]);
    add.prefix = is_v6 ? 128 : 32;
    add.sndid = (uint8_t)atoi(words[4]);
    add.rcvid = (uint8_t)atoi(words[5]);
    add.keyflags = atoi(words[6]) ? TCP_AO_KEYF_EXCLUDE_OPT : 0;
    add.maclen = (uint8_t)atoi(words[7]);
    add.set_current = atoi(words[8]) != 0;
    add.set_rnext = atoi(words[9]) != 0;
    add.keylen = (uint8_t)bytes_of(words[10], add.key, sizeof add.key);
    return setsockopt(socket, IPPROTO_TCP, TCP_AO_ADD_KEY, &add, sizeof add) ? fail("TCP_AO_ADD_KEY") : 0;
}

/* delkey SLOT PEER SEND RECEIVE */
static int drop_key(int socket, char **words) {
    struct tcp_ao_del del;
    struct sockaddr_storage peer;
    memset(&del, 0, sizeof del);
    socklen_t length = address(words[2], 0, &peer);
    memcpy(&del.addr, &peer, length);
    del.prefix = is_v6 ? 128 : 32;
    del.sndid = (uint8_t)atoi(words[3]);
    del.rcvid = (uint8_t)atoi(words[4]);
    return setsockopt(socket, IPPROTO_TCP, TCP_AO_DEL_KEY, &del, sizeof del) ? fail("TCP_AO_DEL_KEY") : 0;
}

/* choose SLOT CURRENT RNEXT: the key to send with and the one to ask for; -1 leaves it */
static int choose(int socket, char **words) {
    struct tcp_ao_info_opt info;
    memset(&info, 0, sizeof info);
    int current = atoi(words[2]), next = atoi(words[3]);
    info.set_current = current >= 0;
    info.current_key = (uint8_t)current;
    info.set_rnext = next >= 0;
    info.rnext = (uint8_t)next;
    return setsockopt(socket, IPPROTO_TCP, TCP_AO_INFO, &info, sizeof info) ? fail("TCP_AO_INFO") : 0;
}

void tell_socket(int socket) {
    struct tcp_ao_info_opt info;
    struct tcp_info tcp;
    socklen_t length = sizeof info;
    memset(&info, 0, sizeof info);
    memset(&tcp, 0, sizeof tcp);
    int none = getsockopt(socket, IPPROTO_TCP, TCP_AO_INFO, &info, &length);
    length = sizeof tcp;
    getsockopt(socket, IPPROTO_TCP, TCP_INFO, &tcp, &length);
    if (none)
        say('A', "ok state %u ao none", tcp.tcpi_state);
    else
        say('A', "ok state %u current %u rnext %u good %llu bad %llu notfound %llu", tcp.tcpi_state, info.current_key, info.rnext,
            (unsigned long long)info.pkt_good, (unsigned long long)info.pkt_bad, (unsigned long long)info.pkt_key_not_found);
}

static int open_socket(struct slot *slot) {
    int one = 1, socket_ = socket(is_v6 ? AF_INET6 : AF_INET, SOCK_STREAM | SOCK_NONBLOCK | SOCK_CLOEXEC, 0);
    if (socket_ < 0)
        return fail("socket");
    setsockopt(socket_, SOL_SOCKET, SO_REUSEADDR, &one, sizeof one);
    setsockopt(socket_, IPPROTO_TCP, TCP_NODELAY, &one, sizeof one);
    *slot = (struct slot){.kind = SOCKET, .in = socket_, .out = socket_, .err = -1, .ended = 1};
    return 0;
}

/* The ISN that the socket will begin with. */
static int begin_at(int socket, char **words) {
    int on = TCP_REPAIR_ON, off = TCP_REPAIR_OFF, queue = TCP_SEND_QUEUE;
    unsigned number = (unsigned)strtoul(words[2], NULL, 10);
    if (setsockopt(socket, IPPROTO_TCP, TCP_REPAIR, &on, sizeof on) ||
        setsockopt(socket, IPPROTO_TCP, TCP_REPAIR_QUEUE, &queue, sizeof queue) ||
        setsockopt(socket, IPPROTO_TCP, TCP_QUEUE_SEQ, &number, sizeof number) ||
        setsockopt(socket, IPPROTO_TCP, TCP_REPAIR, &off, sizeof off))
        return fail("repair");
    return 0;
}

/* set SLOT LEVEL OPTION HEX */
static int set(int socket, char **words) {
    unsigned char value[100];
    size_t count = bytes_of(words[4], value, sizeof value);
    return setsockopt(socket, atoi(words[2]), atoi(words[3]), value, (socklen_t)count) ? fail("set") : 0;
}

/* The socket is gone, and neither a FIN nor a RST was sent. */
static int vanish(struct slot *slot) {
    int on = TCP_REPAIR_ON;
    if (setsockopt(slot->in, IPPROTO_TCP, TCP_REPAIR, &on, sizeof on))
        return fail("repair");
    clear(slot);
    return 0;
}

/* bind SLOT ADDRESS PORT: an address of IPv6 isn't there at once */
static int bind_to(int socket, char **words) {
    struct sockaddr_storage to;
    socklen_t length = address(words[2], atoi(words[3]), &to);
    for (int i = 0; i < 200; i++) {
        if (bind(socket, (struct sockaddr *)&to, length) == 0)
            return 0;
        if (errno != EADDRNOTAVAIL)
            break;
        usleep(20000);
    }
    return fail("bind");
}

int at_socket(struct slot *slot, char **words) {
    struct sockaddr_storage to;
    if (!strcmp(words[0], "socket")) {
        clear(slot);
        return open_socket(slot);
    }
    if (!strcmp(words[0], "key"))
        return key(slot->in, words);
    if (!strcmp(words[0], "delkey"))
        return drop_key(slot->in, words);
    if (!strcmp(words[0], "choose"))
        return choose(slot->in, words);
    if (!strcmp(words[0], "isn"))
        return begin_at(slot->in, words);
    if (!strcmp(words[0], "set"))
        return set(slot->in, words);
    if (!strcmp(words[0], "urgent"))
        return send(slot->in, words[2], 1, MSG_OOB) == 1 ? 0 : fail("urgent");
    if (!strcmp(words[0], "vanish"))
        return vanish(slot);
    if (!strcmp(words[0], "bind"))
        return bind_to(slot->in, words);
    if (!strcmp(words[0], "listen")) {
        slot->kind = LISTENER;
        slot->ended = 0;
        return listen(slot->in, 100) ? fail("listen") : 0;
    }
    if (!strcmp(words[0], "connect")) {
        socklen_t length = address(words[2], atoi(words[3]), &to);
        if (connect(slot->in, (struct sockaddr *)&to, length) && errno != EINPROGRESS)
            return fail("connect");
        slot->kind = CONNECTING;
        slot->ended = 0;
        return 0;
    }
    say('A', "ERR word %s", words[0]);
    return -1;
}

