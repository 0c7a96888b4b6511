"""A connection each way over each algorithm, family and option flag: bytes both ways, FIN both ways; no segment over the MTU."""
from lab import *
VARIANTS = {f"v{f}-{a}-{'opt' if o else 'noopt'}": dict(family=f, algorithm=a, options=o) for f in (4, 6) for a in ("sha1", "cmac", "sha256") for o in (True, False)}
VARIANTS["gro"] = dict(algorithm="sha1", options=True, gro=True)

def run(l, algorithm, options, gro=False):
    l.build()
    if gro: [l.say(l.at(e, "ethtool -K eth0 gro on", check=False) + str([x.strip() for x in l.at(e, "ethtool -k eth0").splitlines() if "generic-receive" in x or "tcp-seg" in x])) for e in "ab"]
    l.keys(Row("one", (7, 5), algorithm, options))
    l.both()
    l.capture()
    for frm in "ab":
        c, d = l.pair(frm=frm)
        l.move(c, d, 3_000_000)
        l.move(d, c, 3_000_000)
        i = info(c)
        l.expect(i["options"] & 7 == 7, "timestamps, SACK and window scaling are agreed on")
        c.shutdown(socket.SHUT_WR)
        l.expect(d.recv(1) == b"", "the FIN comes")
        d.close()
        l.expect(c.recv(1) == b"", "the other FIN comes")
        c.close()
    time.sleep(0.3)
    most = max(p["size"] for p in l.packets())
    l.figure("largest", most)
    l.expect(most <= 1500, "no datagram is over the MTU")
    for e in "ab":
        k = l.counters(e)
        l.expect(set(k["in"]) == {"verified"} and set(k["out"]) == {"signed"}, f"{e} drops nothing: {k['in']} {k['out']}")
    l.judge()
