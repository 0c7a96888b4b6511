"""The program on a router in front of an end that has nothing (an appliance): the rules that `rules --forward` prints; the other end has its own shim."""
from lab import *
import daemons
VARIANTS = {"v4": {}, "v6": dict(family=6), "bird": dict(bird=True)}

def run(l, bird=False):
    l.routed = True
    l.address = {"a": "10.9.1.1", "b": "10.9.2.2"} if l.family == 4 else {"a": "fd00:9:1::1", "b": "fd00:9:2::2"}
    l.build(); l.keys(Row("one", (7, 5)))
    l.shim("a")
    for line in l.printed("b", "--iptables", "--forward", "to-a", "to-b"): l.at("m", ["sh", "-c", line])
    l.ruled.add("b"); l.spaces["b"], keep = l.spaces["m"], l.spaces["b"]
    l.shim("b", "--mark-in", "0xa1"); l.spaces["b"] = keep
    l.capture("to-a")
    if bird:
        x, y = daemons.Bird(l, "a", 5000, "multihop;"), daemons.Bird(l, "b", 5000, "multihop;")
        l.expect(daemons.wait(lambda: x.established() and y.established() and x.routes() == y.routes() == 5000, 40) is not None, "established, and full")
    else:
        for frm in "ab":
            c, d = l.pair(frm=frm); l.move(c, d, 2_000_000); l.move(d, c, 2_000_000); c.close(); d.close()
    time.sleep(0.3)
    for e in "ab": k = l.counters(e); l.say(f"{e} {k['in']} {k['out']}"); l.expect(set(k["in"]) <= {"verified"}, "nothing refused")
    l.expect(max(p["size"] for p in l.packets()) <= 1500, "within the MTU")
    l.judge()
