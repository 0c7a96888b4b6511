/* The word `rules`: what leads the segments of a peer to the queues, and a guard that keeps out what didn't go through
 * them. Nothing is set here: it is printed, for `nft -f -` or for a shell. */
#include "ends.h"
#include "words.h"

#include <stdio.h>
#include <string.h>

struct plan {
    const struct options *options;
    uint8_t family, bytes[16];
    char peer[SOCKET_TEXT];
    unsigned queues[2], mark;
};

static bool make_plan(const struct options *o, struct plan *plan) {
    plan->options = o;
    if (!read_address_text(o->peer, &plan->family, plan->bytes)) {
        fprintf(stderr, "ao-shim: rules: %s is no address\n", o->peer);
        return false;
    }
    address_text(plan->peer, plan->family, plan->bytes);
    plan->queues[OUT] = o->has_queues[OUT] ? o->queues[OUT] : 1;
    plan->queues[IN] = o->has_queues[IN] ? o->queues[IN] : 2;
    plan->mark = o->marks[IN] != 0 ? o->marks[IN] : 0xa1;
    return true;
}

/* A name of a device goes into a line of a shell: only what such names have. */
static bool is_device(const char *name) {
    static const char may[] = "abcdefghijklmnopqrstuvwxyzABCDEFGHIJKLMNOPQRSTUVWXYZ0123456789._-@";
    return name[0] != '\0' && name[0] != '-' && strlen(name) < 16 && strspn(name, may) == strlen(name);
}

static void print_head(const struct plan *p) {
    printf("# TCP-AO for TCP with %s, where either port is %u, by\n", p->peer, p->options->port);
    printf("#   ao-shim run --queue-out %u --queue-in %u --mark-in 0x%x --keys FILE ..\n", p->queues[OUT],
           p->queues[IN], p->mark);
    printf("# The guard drops what comes of them without the mark 0x%x: all, while no ao-shim sets it.\n", p->mark);
    if (p->family == 4)
        printf("# It drops ICMP errors of type 3 that quote a TCP segment for the peer, whatever its ports\n"
               "# (RFC 5925, section 7.8): no path MTU, and no \"unreachable\", is heard for TCP to it.\n");
    else
        printf("# It drops ICMPv6 errors of types 1 and 2 that quote a datagram for the peer, whatever its protocol,\n"
               "# or that have an extension header (RFC 5925, section 7.8): no path MTU, and no \"unreachable\", is\n"
               "# heard for TCP and UDP to it.\n");
}

static uint32_t word_of(const struct plan *p, int at) {
    const uint8_t *b = p->bytes + 4 * at;
    return (uint32_t)b[0] << 24 | (uint32_t)b[1] << 16 | (uint32_t)b[2] << 8 | b[3];
}

/* ---- iptables ---- */

static const char *tool(const struct plan *p) { return p->family == 4 ? "iptables -w" : "ip6tables -w"; }

/* The two ports: the connection may be dialled from either end. */
static void print_tcp(const struct plan *p, const char *chain, const char *way, const char *does) {
    static const char *const sides[] = {"sport", "dport"};
    for (int i = 0; i < 2; i++)
        printf("%s %s -p tcp %s %s --%s %u %s\n", tool(p), chain, way, p->peer, sides[i], p->options->port, does);
}

/* The quoted header follows the 8 bytes of ICMP. */
static void print_icmp4(const struct plan *p, const char *chain) {
    if (p->options->forward_in != NULL) printf("%s %s -p icmp -f -j DROP\n", tool(p), chain);
    printf("%s %s -p icmp --icmp-type 3 -m u32 --u32 \"0>>22&0x3C@16>>16&0xFF=6&&0>>22&0x3C@24=0x%08x\" -j DROP\n",
           tool(p), chain, word_of(p, 0));
}

static void print_icmp6(const struct plan *p, const char *chain) {
    for (int type = 1; type <= 2; type++) {
        printf("%s %s -p icmpv6 --icmpv6-type %d -m u32 ! --u32 \"4>>8&0xFF=58\" -j DROP\n", tool(p), chain, type);
        printf("%s %s -p icmpv6 --icmpv6-type %d -m u32 --u32 "
               "\"72=0x%08x&&76=0x%08x&&80=0x%08x&&84=0x%08x\" -j DROP\n",
               tool(p), chain, type, word_of(p, 0), word_of(p, 1), word_of(p, 2), word_of(p, 3));
    }
}

static void print_iptables(const struct plan *p) {
    const struct options *o = p->options;
    char guard[96], in[96], out[96], does[96];
    bool forward = o->forward_in != NULL;
    snprintf(guard, sizeof guard, forward ? "-t security -A FORWARD -i %s -o %s" : "-t security -A INPUT",
             o->forward_in, o->forward_out);
    snprintf(in, sizeof in, forward ? "-t raw -A PREROUTING -i %s" : "-t raw -A PREROUTING", o->forward_in);
    snprintf(out, sizeof out, forward ? "-t mangle -A POSTROUTING -o %s" : "-t mangle -A POSTROUTING", o->forward_in);
    printf("# the guard\n");
    snprintf(does, sizeof does, "-m mark ! --mark 0x%x -j DROP", p->mark);
    print_tcp(p, guard, "-s", does);
    if (p->family == 4)
        print_icmp4(p, guard);
    else
        print_icmp6(p, guard);
    printf("# the queues\n");
    snprintf(does, sizeof does, "-j NFQUEUE --queue-num %u", p->queues[OUT]);
    print_tcp(p, out, "-d", does);
    snprintf(does, sizeof does, "-j NFQUEUE --queue-num %u", p->queues[IN]);
    print_tcp(p, in, "-s", does);
}

/* ---- nft ---- */

static void print_nft_tcp(const struct plan *p, const char *device, const char *way, const char *does) {
    static const char *const sides[] = {"sport", "dport"};
    for (int i = 0; i < 2; i++)
        printf("    %s%s %s %s tcp %s %u %s\n", device, p->family == 4 ? "ip" : "ip6", way, p->peer, sides[i],
               p->options->port, does);
}

static void print_nft_icmp(const struct plan *p, const char *device) {
    if (p->family == 4) {
        if (p->options->forward_in != NULL) printf("    %sip protocol icmp ip frag-off & 0x1fff != 0 drop\n", device);
        printf("    %sicmp type destination-unreachable @th,136,8 6 @th,192,32 0x%08x drop\n", device, word_of(p, 0));
        return;
    }
    printf("    %sip6 nexthdr != 58 icmpv6 type { destination-unreachable, packet-too-big } drop\n", device);
    printf("    %sicmpv6 type { destination-unreachable, packet-too-big } @th,256,128 0x%08x%08x%08x%08x drop\n",
           device, word_of(p, 0), word_of(p, 1), word_of(p, 2), word_of(p, 3));
}

static void print_nft(const struct plan *p) {
    const struct options *o = p->options;
    char guard[96] = "", in[64] = "", out[64] = "", does[64];
    if (o->forward_in != NULL) {
        snprintf(guard, sizeof guard, "iifname \"%s\" oifname \"%s\" ", o->forward_in, o->forward_out);
        snprintf(in, sizeof in, "iifname \"%s\" ", o->forward_in);
        snprintf(out, sizeof out, "oifname \"%s\" ", o->forward_in);
    }
    printf("table inet ao_shim_guard {\n  chain in {\n    type filter hook %s priority 0; policy accept;\n",
           o->forward_in != NULL ? "forward" : "input");
    snprintf(does, sizeof does, "meta mark != 0x%x drop", p->mark);
    print_nft_tcp(p, guard, "saddr", does);
    print_nft_icmp(p, guard);
    printf("  }\n}\ntable inet ao_shim {\n  chain out {\n"
           "    type filter hook postrouting priority -150; policy accept;\n");
    snprintf(does, sizeof does, "queue num %u", p->queues[OUT]);
    print_nft_tcp(p, out, "daddr", does);
    printf("  }\n  chain in {\n    type filter hook prerouting priority -300; policy accept;\n");
    snprintf(does, sizeof does, "queue num %u", p->queues[IN]);
    print_nft_tcp(p, in, "saddr", does);
    printf("  }\n}\n");
}

int print_rules(const struct options *options) {
    struct plan plan;
    if (options->forward_in != NULL && !(is_device(options->forward_in) && is_device(options->forward_out))) {
        fprintf(stderr, "ao-shim: rules: --forward takes the names of two devices\n");
        return 2;
    }
    if (!make_plan(options, &plan)) return 2;
    print_head(&plan);
    if (options->for_iptables)
        print_iptables(&plan);
    else
        print_nft(&plan);
    return ferror(stdout) != 0 || fflush(stdout) != 0;
}
