"""A third host forges and replays, with the very numbers: RSTs, SYNs, data, ICMP; with the shims the connection stays up and its bytes are right; without them each kills it or comes in."""
from lab import *
VARIANTS = {"v4": dict(shim=True), "v6": dict(shim=True, family=6), "no-options": dict(shim=True, options=False), "contrast-rst": dict(shim=False, what="rst"), "contrast-data": dict(shim=False, what="data"), "contrast-replay": dict(shim=False, what="replay"),
            "contrast-icmp": dict(shim=False, what="icmp"), "conntrack": dict(shim=True, track=True), "conntrack-input": dict(shim=True, track=True, late=True)}

def run(l, shim, what=None, track=False, late=False, options=True):
    l.build()
    l.keys(Row("one", (7, 5), options=options), Row("old", (8, 6), accept=(0, 1000), send=(0, 1000)))
    if track:
        for e in "ab":
            l.at(e, "iptables-nft -w -A INPUT -p tcp -m conntrack --ctstate INVALID -j DROP"); l.at(e, "iptables-nft -w -A OUTPUT -p tcp -m conntrack --ctstate INVALID -j DROP")
            l.at(e, "iptables-nft -w -A INPUT -p tcp -m conntrack --ctstate ESTABLISHED,NEW -j ACCEPT"); l.at(e, "iptables-nft -w -A OUTPUT -p tcp -m conntrack --ctstate ESTABLISHED,NEW -j ACCEPT")
            l.rules(e, raw=not late)
    if shim: l.both()
    l.capture()
    c, d = l.pair()
    l.move(c, d, 20_000); l.move(d, c, 20_000)
    time.sleep(0.3)
    seen = l.packets()
    a, b = l.address["a"], l.address["b"]
    lp, rp = c.getsockname()[1], c.getpeername()[1]
    last = {x: [p for p in seen if p["src"] == x][-1] for x in (a, b)}
    nxt = {x: (last[x]["seq"] + last[x]["len"]) & 0xffffffff for x in (a, b)}
    def forge(src, flags, seq, ack, payload=b"", options=b""): return make(src, b if src == a else a, lp if src == a else rp, rp if src == a else lp, seq, ack, flags, payload, options)
    def ao(key, fill=b"\x55", n=12): return bytes([29, 4 + n, key, key]) + fill * n
    forged = []
    def kinds(src, o):
        other = b if src == a else a
        forged.extend([("rst", forge(src, RST, nxt[src], 0, options=o)), ("rst", forge(src, RST | ACK, nxt[src], nxt[other], options=o)), ("syn", forge(src, SYN, nxt[src], 0, options=o)),
                       ("data", forge(src, PSH | ACK, nxt[src], nxt[other], b"forged bytes", o)), ("fin", forge(src, FIN | ACK, nxt[src], nxt[other], options=o)), ("synack", forge(src, SYN | ACK, nxt[src], nxt[other], options=o))])
    for src, key in ((a, 5), (b, 7)):
        kinds(src, b""); kinds(src, ao(key)); kinds(src, ao(99)); kinds(src, ao(key) + ao(key)); kinds(src, ao(key, n=8)); kinds(src, ao(8 if src == b else 6)); kinds(src, b"\1\1" + bytes([19, 18]) + b"\0" * 16); kinds(src, ao(key) + b"\1\1" + bytes([19, 18]) + b"\0" * 16)
    if what == "icmp":
        l.at("b", "iptables-nft -w -A INPUT -p tcp --dport 180 -j DROP"); l.at("b", "iptables-nft -w -A OUTPUT -p tcp --sport 180 -j DROP")
        s2 = l.dial("a", 180, 5555, wait=False); time.sleep(0.3)
        q = [p for p in l.packets() if p["sport"] == 5555][-1]["raw"][:28]; m = struct.pack(">BBHHH", 3, 3, 0, 0, 0) + q; m = m[:2] + struct.pack(">H", checksum(m)) + m[4:]
        ip = struct.pack(">BBHHHBBH", 0x45, 0, 20 + len(m), 0, 0, 64, 1, 0) + socket.inet_aton(b) + socket.inet_aton(a)
        l.expect(tcp_state(s2) == 2, "a connect waits"); l.inject("x", ip[:10] + struct.pack(">H", checksum(ip)) + ip[12:] + m); time.sleep(0.3)
        l.expect(tcp_state(s2) == 7, "without the shim a forged ICMP error ends it"); l.stop_capture(); return
    if what: forged = [x for x in forged if x[0] == what][:4]
    replayed = [p["raw"] for p in seen if p["src"] in (a, b)]
    if what == "replay":
        # without TCP-AO, an old connection's data are taken where numbers fit: here the peer's next bytes, sent twice with other content, stand for it
        forged = [("replay", forge(a, PSH | ACK, nxt[a], nxt[b], b"replayed"))]
    n = 0
    for kind, bytes_ in forged: l.inject("x", bytes_); n += 1
    if shim:
        for raw in replayed: l.inject("x", raw); n += 1
        # replays with the flags changed to RST, checksum right again
        for raw in replayed[-6:]:
            p = parse(raw); h = 20 if l.family == 4 else 40
            l.inject("x", make(p["src"], p["dst"], p["sport"], p["dport"], nxt[p["src"]], p["ack"], RST | ACK, b"", raw[h + 20: h + (raw[h + 12] >> 4) * 4])); n += 1
        # options altered, and the checksum left wrong: the shim makes checksums anew, so it must not hide this one
        before = {e: l.counters(e)["in"].get("checksum", 0) for e in "ab"}
        for raw in replayed[-6:]:
            at = (20 if l.family == 4 else 40) + 20 + 4; l.inject("x", raw[:at] + bytes([raw[at] ^ 1]) + raw[at + 1:]); n += 1
        time.sleep(0.2); l.expect(sum(l.counters(e)["in"].get("checksum", 0) - before[e] for e in "ab") == 6, "wrong checksums are seen before they are made anew")
        # hard ICMP errors that quote the connection
        if l.family == 4:
            for code in (2, 3, 4, 1, 0):
                q = last[a]["raw"][:28]; m = struct.pack(">BBHHH", 3, code, 0, 0, 300 if code == 4 else 0) + q
                m = m[:2] + struct.pack(">H", checksum(m)) + m[4:]
                ip = struct.pack(">BBHHHBBH", 0x45, 0, 20 + len(m), 0, 0, 64, 1, 0) + socket.inet_aton(b) + socket.inet_aton(a)
                l.inject("x", ip[:10] + struct.pack(">H", checksum(ip)) + ip[12:] + m); n += 1
    l.figure("injected", n)
    time.sleep(0.5)
    if shim and not late:
        l.expect(tcp_state(c) == 1 and tcp_state(d) == 1, "both ends are still established")
        t = l.move(c, d, 2_000_000); l.move(d, c, 2_000_000)
        l.expect(True, f"and all bytes are those that were sent; {t:.2f} s")
        for e in "ab":
            k = l.counters(e)["in"]; l.say(f"{e} in {k}")
            # (a SYN-ACK that isn't awaited is no-context, whatever its option: the eight of kinds())
            l.expect(all(k.get(w, 0) >= 5 for w in ("no-ao", "two-ao", "with-md5", "no-tuple", "expired", "mac-length", "bad-mac")) and k.get("no-context", 0) >= 8, f"{e} counts each under its cause")
        if l.family == 4:
            l.expect(l.guarded("a")[1] >= 5, "ICMP errors are dropped")
            # a forged "port unreachable" ends a connect in Linux, whatever RFC 5925, 7.8, says of synchronized states alone
            s2 = l.dial("a", 180, 5555, wait=False); time.sleep(0.3)
            q = make(a, b, 5555, 180, 0, 0, SYN)[:28]; isn = [p for p in l.packets() if p["sport"] == 5555][-1]["raw"][:28]
            m = struct.pack(">BBHHH", 3, 3, 0, 0, 0) + isn; m = m[:2] + struct.pack(">H", checksum(m)) + m[4:]
            ip = struct.pack(">BBHHHBBH", 0x45, 0, 20 + len(m), 0, 0, 64, 1, 0) + socket.inet_aton(b) + socket.inet_aton(a)
            l.inject("x", ip[:10] + struct.pack(">H", checksum(ip)) + ip[12:] + m); time.sleep(0.3)
            l.expect(tcp_state(s2) == 2, "a connect goes on after a forged ICMP error")
        l.stop_capture()
    elif shim:
        try: t = l.move(c, d, 2_000_000, seconds=6); went = True
        except Failed as e: went, t = False, e
        l.say(f"after hook behind conntrack: {went} {t}; {l.at('b', 'conntrack -L', check=False)}")
        l.figure("survives", went)
        l.stop_capture()
    else:
        state = tcp_state(c), tcp_state(d)
        if what == "rst": l.expect(1 not in state or state[0] == 7 or state[1] == 7, f"without the shim the RST ends the connection: states {state}")
        else:
            d.settimeout(1); c.settimeout(1); got = b""
            for s in (c, d):
                try: got += s.recv(1000)
                except OSError: pass
            l.expect(b"forged" in got or b"replayed" in got, f"without the shim the forged bytes come in: {got[:40]}")
        l.stop_capture()
