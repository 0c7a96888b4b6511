/* Networks with TUN devices, packets that pass them or are put on them, and what the kernel counts. */
#define _GNU_SOURCE
#include "guest.h"

#include <arpa/inet.h>
#include <errno.h>
#include <fcntl.h>
#include <linux/if_ether.h>
#include <linux/if_packet.h>
#include <linux/if_tun.h>
#include <net/if.h>
#include <sched.h>
#include <stdint.h>
#include <stdio.h>
#include <stdlib.h>
#include <string.h>
#include <sys/ioctl.h>
#include <sys/time.h>
#include <unistd.h>

int sniffer = -1, is_v6;
static int other_side = -1; /* of a device of the guest's own, over which packets reach the kernel */

static int put(const char *path, const char *value) {
    int file = open(path, O_WRONLY);
    if (file < 0)
        return -1;
    ssize_t wrote = write(file, value, strlen(value));
    close(file);
    return wrote < 0 ? -1 : 0;
}

socklen_t address(const char *text, int number, struct sockaddr_storage *to) {
    memset(to, 0, sizeof *to);
    if (is_v6) {
        struct sockaddr_in6 *six = (struct sockaddr_in6 *)to;
        six->sin6_family = AF_INET6;
        six->sin6_port = htons((uint16_t)number);
        inet_pton(AF_INET6, text, &six->sin6_addr);
        return sizeof *six;
    }
    struct sockaddr_in *four = (struct sockaddr_in *)to;
    four->sin_family = AF_INET;
    four->sin_port = htons((uint16_t)number);
    inet_pton(AF_INET, text, &four->sin_addr);
    return sizeof *four;
}

/* The bytes of hexadecimal digits; how many there are. */
size_t bytes_of(const char *hex, unsigned char *bytes, size_t most) {
    size_t count = strlen(hex) / 2;
    for (size_t i = 0; i < count && i < most; i++) {
        unsigned value = 0;
        sscanf(hex + 2 * i, "%2x", &value);
        bytes[i] = (unsigned char)value;
    }
    return count < most ? count : most;
}

static void name_device(struct ifreq *ask, const char *name) {
    memset(ask, 0, sizeof *ask);
    strcpy(ask->ifr_name, name);
}

/* A TUN device of this name, and its side of user space. */
static int open_tun(const char *name, const char *mtu) {
    struct ifreq ask;
    int tun = open("/dev/net/tun", O_RDWR | O_CLOEXEC | O_NONBLOCK), four = socket(AF_INET, SOCK_DGRAM, 0);
    name_device(&ask, name);
    ask.ifr_flags = IFF_TUN | IFF_NO_PI;
    if (tun < 0 || ioctl(tun, TUNSETIFF, &ask) || ioctl(tun, TUNSETOFFLOAD, 0))
        return fail("tun");
    name_device(&ask, name);
    ask.ifr_mtu = atoi(mtu);
    if (ioctl(four, SIOCSIFMTU, &ask))
        return fail("mtu");
    ask.ifr_qlen = 1000;
    ioctl(four, SIOCSIFTXQLEN, &ask);
    close(four);
    return tun;
}

static int raise_device(const char *name) {
    struct ifreq ask;
    int four = socket(AF_INET, SOCK_DGRAM, 0);
    name_device(&ask, name);
    ioctl(four, SIOCGIFFLAGS, &ask);
    ask.ifr_flags |= IFF_UP;
    int failed = ioctl(four, SIOCSIFFLAGS, &ask);
    close(four);
    return failed ? fail("up") : 0;
}

static int give_address_6(const char *name, int number) {
    struct { struct in6_addr address; uint32_t prefix; int index; } six;
    char text[64];
    int socket6 = socket(AF_INET6, SOCK_DGRAM, 0);
    memset(&six, 0, sizeof six);
    snprintf(text, sizeof text, "2001:db8:%x::2", number);
    inet_pton(AF_INET6, text, &six.address);
    six.prefix = 64;
    six.index = (int)if_nametoindex(name);
    int failed = ioctl(socket6, SIOCSIFADDR, &six);
    close(socket6);
    return failed ? fail("address") : 0;
}

static int give_address_4(const char *name, int number) {
    struct ifreq ask;
    char text[64];
    int four = socket(AF_INET, SOCK_DGRAM, 0);
    name_device(&ask, name);
    struct sockaddr_in *at = (struct sockaddr_in *)&ask.ifr_addr;
    at->sin_family = AF_INET;
    snprintf(text, sizeof text, "10.0.%d.2", number);
    inet_pton(AF_INET, text, &at->sin_addr);
    int failed = ioctl(four, SIOCSIFADDR, &ask);
    inet_pton(AF_INET, "255.255.255.0", &at->sin_addr);
    failed = failed || ioctl(four, SIOCSIFNETMASK, &ask);
    close(four);
    return failed ? fail("address") : 0;
}

/* A TUN device of this number that stays, with the kernel's address 10.0.N.2 or 2001:db8:N::2 on it. */
static int device(int number, const char *mtu) {
    char name[16];
    snprintf(name, sizeof name, "t%d", number);
    int tun = open_tun(name, mtu);
    if (tun < 0 || ioctl(tun, TUNSETPERSIST, 1))
        return -1;
    close(tun);
    if (is_v6 ? give_address_6(name, number) : give_address_4(name, number))
        return -1;
    return raise_device(name);
}

/* A value of the kernel for this network, as NAME=VALUE under /proc/sys/net. */
static int set_value(char *word) {
    char path[200], *value = strchr(word, '=');
    if (value == NULL)
        return fail(word);
    *value = 0;
    snprintf(path, sizeof path, "/proc/sys/net/%s", word);
    return put(path, value + 1) ? fail(word) : 0;
}

/* net 4|6 MTU COUNT [NAME=VALUE ..]: a new namespace with so many TUN devices, of which all packets are told */
int net(char **words) {
    for (int i = 0; i < SLOTS; i++)
        clear(&slots[i]);
    if (sniffer >= 0)
        close(sniffer);
    if (other_side >= 0)
        close(other_side);
    is_v6 = atoi(words[1]) == 6;
    if (unshare(CLONE_NEWNET))
        return fail("unshare");
    put("/proc/sys/net/ipv6/conf/default/accept_dad", "0");
    put("/proc/sys/net/ipv6/conf/default/dad_transmits", "0");
    put("/proc/sys/net/ipv6/conf/default/router_solicitations", "0");
    for (int i = 4; words[i]; i++)
        if (set_value(words[i]))
            return -1;
    for (int i = 0; i < atoi(words[3]); i++)
        if (device(i, words[2]))
            return -1;
    other_side = open_tun("other", words[2]);
    if (other_side < 0 || raise_device("other"))
        return -1;
    sniffer = socket(AF_PACKET, SOCK_DGRAM | SOCK_NONBLOCK | SOCK_CLOEXEC, htons(ETH_P_ALL));
    int room = 16 << 20;
    setsockopt(sniffer, SOL_SOCKET, SO_RCVBUFFORCE, &room, sizeof room);
    return sniffer < 0 ? fail("sniffer") : 0;
}

/* put DEVICE HEX: a packet goes out on the device, so to ao-nc; put kernel HEX: it comes in to the kernel */
int put_packet(char **words) {
    static unsigned char packet[2000];
    size_t count = bytes_of(words[2], packet, sizeof packet);
    if (!strcmp(words[1], "kernel"))
        return write(other_side, packet, count) < 0 ? fail("put") : 0;
    struct sockaddr_ll to;
    memset(&to, 0, sizeof to);
    to.sll_family = AF_PACKET;
    to.sll_protocol = htons(is_v6 ? ETH_P_IPV6 : ETH_P_IP);
    to.sll_ifindex = (int)if_nametoindex(words[1]);
    int raw = socket(AF_PACKET, SOCK_DGRAM, to.sll_protocol);
    ssize_t sent = sendto(raw, packet, count, 0, (struct sockaddr *)&to, sizeof to);
    close(raw);
    return sent < 0 ? fail("put") : 0;
}

void hear_packets(void) {
    static unsigned char packet[70000];
    for (int i = 0; i < 64; i++) {
        struct timeval now;
        uint32_t head[2];
        struct sockaddr_ll from;
        socklen_t size = sizeof from;
        ssize_t got = recvfrom(sniffer, packet, sizeof packet, 0, (struct sockaddr *)&from, &size);
        if (got <= 0)
            return;
        gettimeofday(&now, NULL);
        head[0] = (uint32_t)now.tv_sec;
        head[1] = (uint32_t)now.tv_usec;
        frame('P', head, sizeof head, packet, (size_t)got);
    }
}

/* The first bytes of a file of the kernel. */
void tell_file(const char *path) {
    static char text[7000];
    int file = open(path, O_RDONLY | O_CLOEXEC);
    ssize_t count = file < 0 ? -1 : read(file, text, sizeof text - 1);
    if (count < 0) {
        fail(path);
    } else {
        text[count] = 0;
        say('A', "ok %s", text);
    }
    close(file);
}

/* The extended counters of TCP in this network that aren't 0, as NAME VALUE. */
void tell_counters(void) {
    static char text[60000], told[7000];
    size_t length = 0;
    int file = open("/proc/thread-self/net/netstat", O_RDONLY | O_CLOEXEC);
    ssize_t count = read(file, text, sizeof text - 1);
    close(file);
    told[0] = 0;
    text[count < 0 ? 0 : count] = 0;
    char *names = text, *values = strchr(text, '\n'), *end = values ? strchr(values + 1, '\n') : NULL;
    if (end) {
        char *left = NULL, *right = NULL, *name, *value;
        *values++ = *end = 0;
        name = strtok_r(names, " ", &left);
        value = strtok_r(values, " ", &right);
        while ((name = strtok_r(NULL, " ", &left)) && (value = strtok_r(NULL, " ", &right)))
            if (strcmp(value, "0") && length < sizeof told - 100)
                length += (size_t)snprintf(told + length, sizeof told - length, "%s %s ", name, value);
    }
    say('A', "ok %s", told);
}
