#include "verdicts.h"

#include <arpa/inet.h>
#include <errno.h>
#include <linux/netfilter.h>
#include <linux/netfilter/nfnetlink.h>
#include <linux/netfilter/nfnetlink_queue.h>
#include <linux/netlink.h>
#include <string.h>
#include <sys/socket.h>

/* A message: its two heads, the verdict, the mark if there is one, and the datagram if it passes. */
struct opening {
    struct nlmsghdr message;
    struct nfgenmsg generic;
    struct nlattr of_verdict;
    struct nfqnl_msg_verdict_hdr verdict;
};
struct mark {
    struct nlattr of_mark;
    uint32_t mark;
};

static size_t head_length(const struct verdicts *v) {
    return sizeof(struct opening) + (v->mark != 0 ? sizeof(struct mark) : 0) + sizeof(struct nlattr);
}

static size_t put(struct verdicts *v, size_t at, const void *bytes, size_t length) {
    memcpy(v->bytes + at, bytes, length);
    return at + length;
}

static void put_opening(struct verdicts *v, uint32_t number, uint32_t verdict, size_t length) {
    struct opening o;
    memset(&o, 0, sizeof o);
    o.message.nlmsg_len = (uint32_t)length;
    o.message.nlmsg_type = NFNL_SUBSYS_QUEUE << 8 | NFQNL_MSG_VERDICT;
    o.message.nlmsg_flags = NLM_F_REQUEST;
    o.generic.version = NFNETLINK_V0;
    o.generic.res_id = htons(v->queue);
    o.of_verdict.nla_len = sizeof o.of_verdict + sizeof o.verdict;
    o.of_verdict.nla_type = NFQA_VERDICT_HDR;
    o.verdict.verdict = htonl(verdict);
    o.verdict.id = htonl(number);
    put(v, v->used, &o, sizeof o);
}

uint8_t *room_of_next(struct verdicts *v) {
    size_t head = head_length(v);
    if (v->used + head + NLMSG_ALIGN(ROOM) > sizeof v->bytes && !send_verdicts(v)) return NULL;
    return v->bytes + v->used + head;
}

void pass_next(struct verdicts *v, uint32_t number, size_t length) {
    size_t whole = head_length(v) + length, at = v->used + sizeof(struct opening);
    struct nlattr payload = {(uint16_t)(sizeof payload + length), NFQA_PAYLOAD};
    put_opening(v, number, NF_ACCEPT, whole);
    if (v->mark != 0) {
        struct mark mark = {{sizeof mark, NFQA_MARK}, htonl(v->mark)};
        at = put(v, at, &mark, sizeof mark);
    }
    put(v, at, &payload, sizeof payload);
    memset(v->bytes + v->used + whole, 0, NLMSG_ALIGN(whole) - whole);
    v->used += NLMSG_ALIGN(whole);
}

void drop_next(struct verdicts *v, uint32_t number) {
    put_opening(v, number, NF_DROP, sizeof(struct opening));
    v->used += sizeof(struct opening);
}

bool send_verdicts(struct verdicts *v) {
    size_t length = v->used;
    ssize_t sent;
    v->used = 0;
    if (length == 0) return true;
    do sent = send(v->socket, v->bytes, length, 0);
    while (sent < 0 && errno == EINTR);
    return sent == (ssize_t)length;
}
