#include "judge.h"

#include "state.h"
#include "words.h"

#include <errno.h>
#include <string.h>

enum { SYN = 2, RST = 4, KIND_AO = 29, ICMP = 1, ICMPV6 = 58 };

/* The flags of a segment, and the ids of its option of TCP-AO. */
struct seen {
    uint8_t flags;
    struct ids ids;
};

/* Where TCP's header begins. */
static size_t tcp_at(const uint8_t *bytes, size_t length) {
    return length == 0 ? 0 : bytes[0] >> 4 == 6 ? 40 : (bytes[0] & 15u) * 4u;
}

static struct seen look_at(const uint8_t *bytes, size_t length) {
    struct seen seen;
    memset(&seen, 0, sizeof seen);
    size_t at = tcp_at(bytes, length);
    if (length < at + 20) return seen;
    seen.flags = bytes[at + 13];
    size_t end = at + (bytes[at + 12] >> 4) * 4u;
    for (at += 20; at + 4 <= end && end <= length && bytes[at] != 0;) {
        if (bytes[at] == KIND_AO) {
            struct ids ids = {true, bytes[at + 2], bytes[at + 3]};
            seen.ids = ids;
            break;
        }
        size_t step = bytes[at] == 1 ? 1 : bytes[at + 1];
        if (step == 0) break;
        at += step;
    }
    return seen;
}

static void note_passed(struct program *p, struct end *end, enum way way, const struct seen *seen) {
    struct ids *ids = way == OUT ? &end->sent : &end->heard;
    if (way == OUT && ids->there && seen->ids.there && ids->key != seen->ids.key) p->tally.rollovers++;
    if (seen->ids.there) *ids = seen->ids;
    if ((seen->flags & RST) != 0) end->closed = true;
    if ((seen->flags & SYN) != 0) end->closed = false;
    end->passed[way]++;
    end->last = p->tally.at;
}

/* A line on what was dropped, at most one a second for each pair; all that aren't known share one. */
static void tell_dropped(struct program *p, struct end *end, enum way way, const struct aotcp_pair *pair,
                         unsigned cause) {
    char local[SOCKET_TEXT], remote[SOCKET_TEXT];
    struct limit *limit = end != NULL ? &end->limit : &p->strangers;
    if (!may_tell(limit, p->tally.at)) return;
    fprintf(stderr, "ao-shim: dropped %s", way == OUT ? "out" : "in");
    if (pair->family != 0)
        fprintf(stderr, " %s %s", socket_text(local, pair->family, pair->local, pair->local_port),
                socket_text(remote, pair->family, pair->remote, pair->remote_port));
    fprintf(stderr, ": %s", cause_name(cause, way));
    if (limit->held > 0) fprintf(stderr, " (%llu more weren't told)", (unsigned long long)limit->held);
    fputc('\n', stderr);
    limit->held = 0;
}

/* Whether what must be kept is kept. A pair whose state couldn't be written waits until it can. */
static bool is_kept(struct program *p, struct end *end, bool changed) {
    if (p->options.state == NULL || (!changed && end->unkept != p->round)) return true;
    if (keep_state(p)) {
        p->round++;
        return true;
    }
    int why = errno;
    end->unkept = p->round;
    if (may_tell(&p->kept, p->tally.at)) fprintf(stderr, "ao-shim: state %s: %s\n", p->options.state, strerror(why));
    return false;
}

/* A datagram that no key is for, and that --pass-unkeyed lets by as it is. */
static bool is_let_by(const struct program *p, unsigned cause) {
    return cause == CAUSE_UNKEYED && p->options.pass_unkeyed;
}

static unsigned ask(struct program *p, enum way way, uint16_t mtu, uint8_t *datagram, size_t *length, size_t room,
                    struct aotcp_shim_told *told) {
    memset(told, 0, sizeof *told);
    int code = way == OUT ? aotcp_shim_outbound(&p->shim, p->tally.at, datagram, room, length, told)
                          : aotcp_shim_inbound(&p->shim, p->tally.at, mtu, datagram, room, length, told);
    return code == AOTCP_OK ? cause_of(told) : CAUSE_FAILED;
}

static bool is_icmp(const uint8_t *bytes, size_t length) {
    return length >= 20 && (bytes[0] >> 4 == 6 ? bytes[6] == ICMPV6 : bytes[9] == ICMP);
}

/* ICMP from the network. What passes isn't counted, since no key vouches for it. */
static bool judge_icmp(struct program *p, const uint8_t *datagram, size_t length) {
    static const struct aotcp_pair none;
    bool ignored = true;
    int code = aotcp_shim_icmp(&p->shim, datagram, length, &ignored);
    if (code == AOTCP_OK && !ignored) return true;
    unsigned cause = code == AOTCP_OK ? CAUSE_ICMP : CAUSE_FAILED;
    p->tally.counts[IN][cause]++;
    tell_dropped(p, NULL, IN, &none, cause);
    return false;
}

bool judge(struct program *p, enum way way, uint16_t mtu, uint8_t *datagram, size_t *length, size_t room) {
    struct aotcp_shim_told told;
    struct end *end = NULL;
    p->tally.at = seconds();
    p->stirred = true;
    if (way == IN && is_icmp(datagram, *length)) return judge_icmp(p, datagram, *length);
    struct seen came = look_at(datagram, *length);
    unsigned cause = ask(p, way, mtu, datagram, length, room, &told);
    if (cause == CAUSE_PASSED)
        end = make_end(&p->tally, &told.pair);
    else if (told.pair.family != 0)
        end = find_end(&p->tally, &told.pair);
    if (cause == CAUSE_PASSED && !is_kept(p, end, told.changed)) cause = CAUSE_NOT_KEPT;
    p->tally.counts[way][cause]++;
    if (is_let_by(p, cause)) return true;
    if (cause != CAUSE_PASSED) {
        if (end != NULL) end->refused[cause]++;
        tell_dropped(p, end, way, &told.pair, cause);
        return false;
    }
    struct seen seen = way == OUT ? look_at(datagram, *length) : came;
    note_passed(p, end, way, &seen);
    return true;
}
