"""The rules that `rules` prints, as they stand: a session, forged RSTs and ICMP errors; then the queues' rules are flushed, and the program is killed: the guard keeps out what isn't verified."""
from lab import *
VARIANTS = {"v4": {}, "v6": dict(family=6), "nft-guard": dict(nft=True), "nft-guard-v6": dict(nft=True, family=6),
            "icmp-queue": dict(queued=True), "icmp-queue-v6": dict(queued=True, family=6)}


def icmp_error(l, quoted, kind, code):
    """An ICMP error of b's address for a, which quotes the front of a datagram."""
    a, b = l.address["a"], l.address["b"]
    if l.family == 4:
        m = struct.pack(">BBHHH", kind, code, 0, 0, 300 if code == 4 else 0) + quoted[:28]
        m = m[:2] + struct.pack(">H", checksum(m)) + m[4:]
        ip = struct.pack(">BBHHHBBH", 0x45, 0, 20 + len(m), 0, 0, 64, 1, 0) + socket.inet_aton(b) + socket.inet_aton(a)
        return ip[:10] + struct.pack(">H", checksum(ip)) + ip[12:] + m
    src, dst = (socket.inet_pton(socket.AF_INET6, it) for it in (b, a))
    m = struct.pack(">BBHI", kind, code, 0, 1280 if kind == 2 else 0) + quoted[:60]
    m = m[:2] + struct.pack(">H", checksum(src + dst + struct.pack(">I3xB", len(m), 58) + m)) + m[4:]
    return struct.pack(">IHBB", 6 << 28, len(m), 58, 64) + src + dst + m


def udp_refused(l):
    s = l.socket("a", socket.SOCK_DGRAM)
    s.settimeout(2)
    s.connect((l.address["b"], 9))
    try: s.send(b"x"); s.recv(1); return False
    except ConnectionRefusedError: return True
    except TimeoutError: return False


def run_queued(l):
    """ICMP goes to the inbound queue too: ao-shim drops errors of each type about the session, and a fragment; all other ICMP passes."""
    l.build(); l.keys(Row("one", (7, 5))); l.both()
    t, protocol = ("iptables-nft", "icmp") if l.family == 4 else ("ip6tables-nft", "icmpv6")
    l.at("a", [t, "-w", "-t", "security", "-F"])
    types = [[]] if l.family == 4 else [["--icmpv6-type", str(it)] for it in (1, 2, 3, 4, 128, 129)]
    for kind in types: l.at("a", [t, "-w", "-t", "raw", "-A", "PREROUTING", "-p", protocol, *kind, "-j", "NFQUEUE", "--queue-num", "2"])
    l.capture()
    c, d = l.pair(); l.move(c, d, 100_000); l.move(d, c, 100_000)
    s2 = l.dial("a", 179, 5555, wait=False); time.sleep(0.2)
    mine = [p for p in l.packets() if p["src"] == l.address["a"]]
    syn, whole = [p for p in mine if p["sport"] == 5555][-1]["raw"], [p for p in mine if p["sport"] != 5555][-1]["raw"]
    kinds = ((3, 3), (3, 2), (3, 4), (11, 0), (12, 0)) if l.family == 4 else ((1, 4), (1, 1), (2, 0), (3, 0), (4, 1))
    for kind, code in kinds:
        for quoted in (syn, whole): l.inject("x", icmp_error(l, quoted, kind, code))
    time.sleep(0.3)
    count = l.counters("a")["in"]["icmp"]
    l.expect(count == 2 * len(kinds), f"ao-shim drops each ICMP error about a connection that has a key, and counts it: {count}")
    l.expect(tcp_state(c) == 1 and tcp_state(s2) == 2, "forged ICMP errors end no session, and no connect")
    l.move(c, d, 2_000_000); l.move(d, c, 2_000_000)
    l.expect(info(c)["pmtu"] == 1500, "and teach the kernel no path MTU")
    l.at("a", ["ping", "-c", "1", "-W", "2", l.address["b"]])
    l.expect(udp_refused(l), "ping goes on, and of UDP to the peer ICMP errors are heard")
    time.sleep(0.2)
    l.judge()


def run(l, nft=False, queued=False):
    if queued: return run_queued(l)
    l.build(); l.keys(Row("one", (7, 5)))
    for e in "ab":
        l.set_printed(e, "NFQUEUE" if nft else "")
        if nft:
            text = "\n".join(l.printed(e, "--nft")); l.at(e, ["nft", text[:text.index("table inet ao_shim {")]])
        l.shim(e, "--mark-in", "0xa1", rules=False)
    l.capture()
    c, d = l.pair(); l.move(c, d, 100_000); l.move(d, c, 100_000)
    port = c.getsockname()[1]
    def numbers(): return next(k["rcv"] for k in l.counters("b")["connections"] if k["rport"] == port)
    def forge(number): l.inject("x", make(l.address["a"], l.address["b"], port, 179, number, 0, RST)); time.sleep(0.3)
    forge(numbers()); l.expect(tcp_state(d) == 1, "a forged RST is refused")
    s2 = l.dial("a", 179, 5555, wait=False); time.sleep(0.2)
    syn = [p for p in l.packets() if p["sport"] == 5555][-1]["raw"]
    whole = l.packets()[-1]["raw"] if l.packets()[-1]["src"] == l.address["a"] else [p for p in l.packets() if p["src"] == l.address["a"] and p["sport"] != 5555][-1]["raw"]
    for kind, code in ((3, 3), (3, 2), (3, 4)) if l.family == 4 else ((1, 4), (1, 1), (2, 0)):
        for quoted in (syn, whole): l.inject("x", icmp_error(l, quoted, kind, code))
    time.sleep(0.3)
    l.expect(tcp_state(c) == 1 and tcp_state(s2) == 2, "forged ICMP errors end no session, and no connect")
    l.move(c, d, 2_000_000); l.move(d, c, 2_000_000)
    l.expect(info(c)["pmtu"] == 1500, "and teach the kernel no path MTU")
    if not nft: l.expect(l.guarded("a")[1] >= 6, f"the guard counts them: {l.guarded('a')}")
    l.at("a", ["ping", "-c", "1", "-W", "2", l.address["b"]])
    l.expect(udp_refused(l) == (l.family == 4), "ping goes on; of UDP to the peer ICMP errors are heard over IPv4 alone")
    t = "iptables-nft" if l.family == 4 else "ip6tables-nft"
    l.at("b", f"{t} -w -t raw -F"); l.at("b", f"{t} -w -t mangle -F")
    forge(numbers()); l.expect(tcp_state(d) == 1, "with the queues' rules gone a forged RST is dropped for want of the mark")
    l.set_printed("b", "NFQUEUE"); l.move(c, d, 100_000); l.move(d, c, 100_000)
    last = numbers(); l.stop("b", signal.SIGKILL)
    forge(last); l.expect(tcp_state(d) == 1, "with the program killed nothing comes in")
    l.shim("b", "--mark-in", "0xa1", rules=False); l.move(c, d, 100_000); l.move(d, c, 100_000)
    l.expect(True, "with the program again the session goes on")
    time.sleep(0.2)
    l.judge(refused=("refused no-ao",))
