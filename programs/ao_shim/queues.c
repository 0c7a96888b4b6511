#include "queues.h"

#include "judge.h"
#include "verdicts.h"

#include <arpa/inet.h>
#include <errno.h>
#include <libnetfilter_queue/libnetfilter_queue.h>
#include <linux/netfilter.h>
#include <net/if.h>
#include <poll.h>
#include <stdio.h>
#include <string.h>
#include <sys/ioctl.h>
#include <sys/socket.h>
#include <time.h>
#include <unistd.h>

#ifndef SOL_NETLINK
#define SOL_NETLINK 270
#endif
/* Of 8,192 datagrams that wait, 16 are read at a time from each queue, up to eight times in turn. A message has the
 * datagram and some 200 bytes. */
enum { NO_ENOBUFS = 5, WAITING = 8192, AT_ONCE = 16, TURNS = 8, MESSAGE = LONGEST + 4096 };

struct queue {
    struct program *p;
    enum way way;
    struct nfq_handle *handle;
    struct nfq_q_handle *queue;
    struct verdicts verdicts;
    struct limit limit;
};

static struct queue queues[2];
static int devices = -1; /* a socket to ask for devices by */

/* The MTU of a device, asked for at most once a second. */
static uint16_t mtu_of(uint32_t device) {
    static struct {
        uint32_t device;
        time_t at;
        uint16_t mtu;
    } known[64];
    size_t place = device % 64;
    struct timespec now;
    struct ifreq request;
    clock_gettime(CLOCK_MONOTONIC, &now);
    if (known[place].mtu != 0 && known[place].device == device && known[place].at == now.tv_sec)
        return known[place].mtu;
    int mtu = 1500;
    memset(&request, 0, sizeof request);
    request.ifr_ifindex = (int)device;
    if (device != 0 && ioctl(devices, SIOCGIFNAME, &request) == 0 && ioctl(devices, SIOCGIFMTU, &request) == 0)
        mtu = request.ifr_mtu;
    known[place].device = device;
    known[place].at = now.tv_sec;
    known[place].mtu = (uint16_t)(mtu < 576 ? 576 : mtu > LONGEST ? LONGEST : mtu);
    return known[place].mtu;
}

static int tell_untaken(struct queue *q) {
    int why = errno;
    if (may_tell(&q->limit, q->p->tally.at)) fprintf(stderr, "ao-shim: verdicts aren't taken: %s\n", strerror(why));
    return 0;
}

/* A datagram: whatever isn't told to pass is dropped. */
static int on_datagram(struct nfq_q_handle *queue, struct nfgenmsg *message, struct nfq_data *data, void *with) {
    struct queue *q = with;
    struct nfqnl_msg_packet_hdr *header = nfq_get_msg_packet_hdr(data);
    unsigned char *bytes = NULL;
    int count = nfq_get_payload(data, &bytes);
    (void)queue;
    (void)message;
    if (header == NULL) return 0; /* without its number there is no verdict: it doesn't go on */
    uint32_t number = ntohl(header->packet_id);
    uint16_t mtu = q->p->options.mtu;
    if (mtu == 0 && q->way == IN) mtu = mtu_of(nfq_get_indev(data));
    uint8_t *room = room_of_next(&q->verdicts);
    size_t length = count >= 0 && count <= LONGEST ? (size_t)count : 0;
    if (room == NULL) return tell_untaken(q);
    if (length > 0) memcpy(room, bytes, length);
    bool passes = count >= 0 && length == (size_t)count && judge(q->p, q->way, mtu, room, &length, ROOM);
    if (passes && length <= LONGEST)
        pass_next(&q->verdicts, number, length);
    else
        drop_next(&q->verdicts, number);
    return 0;
}

/* No NFQA_CFG_F_FAIL_OPEN: what can't be queued is dropped. No NFQA_CFG_F_GSO: the kernel cuts what it had put
 * together, and fills in checksums. */
static bool open_queue(struct program *p, enum way way) {
    struct queue *q = &queues[way];
    int room = 8 << 20, one = 1;
    q->p = p;
    q->way = way;
    q->handle = nfq_open();
    if (q->handle != NULL) q->queue = nfq_create_queue(q->handle, p->options.queues[way], on_datagram, q);
    if (q->queue == NULL || nfq_set_mode(q->queue, NFQNL_COPY_PACKET, LONGEST) < 0
        || nfq_set_queue_maxlen(q->queue, WAITING) < 0) {
        fprintf(stderr, "ao-shim: queue %u can't be bound: %s\n", p->options.queues[way], strerror(errno));
        return false;
    }
    int fd = nfq_fd(q->handle);
    q->verdicts.socket = fd;
    q->verdicts.queue = p->options.queues[way];
    q->verdicts.mark = p->options.marks[way];
    setsockopt(fd, SOL_SOCKET, SO_SNDBUFFORCE, &room, sizeof room);
    setsockopt(fd, SOL_SOCKET, SO_RCVBUFFORCE, &room, sizeof room);
    setsockopt(fd, SOL_NETLINK, NO_ENOBUFS, &one, sizeof one);
    return true;
}

bool open_queues(struct program *p) {
    devices = socket(AF_INET, SOCK_DGRAM | SOCK_CLOEXEC, 0);
    return devices >= 0 && open_queue(p, OUT) && open_queue(p, IN);
}

/* What waits in a queue, up to AT_ONCE messages: judged, and answered together. False where no more is there. */
static bool serve(struct queue *q) {
    static uint8_t messages[AT_ONCE][MESSAGE];
    struct iovec rooms[AT_ONCE];
    struct mmsghdr heads[AT_ONCE];
    memset(heads, 0, sizeof heads);
    for (int i = 0; i < AT_ONCE; i++) {
        rooms[i].iov_base = messages[i];
        rooms[i].iov_len = MESSAGE;
        heads[i].msg_hdr.msg_iov = &rooms[i];
        heads[i].msg_hdr.msg_iovlen = 1;
    }
    int count = recvmmsg(nfq_fd(q->handle), heads, AT_ONCE, MSG_DONTWAIT, NULL);
    if (count < 0 && errno == ENOBUFS) q->p->tally.overruns++;
    if (count < 0) return errno == ENOBUFS;
    for (int i = 0; i < count; i++) nfq_handle_packet(q->handle, (char *)messages[i], (int)heads[i].msg_len);
    if (!send_verdicts(&q->verdicts)) tell_untaken(q);
    return count == AT_ONCE;
}

void serve_queues(const sigset_t *before, int milliseconds) {
    struct pollfd fds[2] = {{nfq_fd(queues[OUT].handle), POLLIN, 0}, {nfq_fd(queues[IN].handle), POLLIN, 0}};
    struct timespec most = {milliseconds / 1000, milliseconds % 1000 * 1000000L};
    if (ppoll(fds, 2, milliseconds < 0 ? NULL : &most, before) <= 0) return;
    bool more[2] = {fds[OUT].revents != 0, fds[IN].revents != 0};
    for (int turn = 0; turn < TURNS && (more[OUT] || more[IN]); turn++)
        for (int way = OUT; way <= IN; way++)
            if (more[way]) more[way] = serve(&queues[way]);
}
