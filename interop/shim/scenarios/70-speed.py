"""Bulk transfer by iperf3 through two shims against plain: throughput, processor time per segment. queue-only has the queues and no keys (the shim hands all on)."""
from lab import *
VARIANTS = {"plain": dict(algorithm=None), "plain-no-offload": dict(algorithm=None, offload=False), "queue-only": dict(algorithm="none"), "sha1": dict(algorithm="sha1"), "cmac": dict(algorithm="cmac"), "sha256": dict(algorithm="sha256"), "sha1-v6": dict(algorithm="sha1", family=6),
            "sha1-rollover": dict(algorithm="sha1", change=True), "sha1-lossy": dict(algorithm="sha1", wire="--delay 25 --loss 10 --seed 3"), "plain-lossy": dict(algorithm=None, wire="--delay 25 --loss 10 --seed 3"),
            "sha1-lossy-cubic": dict(algorithm="sha1", wire="--delay 25 --loss 10 --seed 3", control="cubic"), "plain-lossy-cubic": dict(algorithm=None, wire="--delay 25 --loss 10 --seed 3", control="cubic")}

def run(l, algorithm, offload=True, change=False, wire="", control=None, seconds=5):
    l.build()
    if not offload:
        for e in "ab": l.at(e, "ethtool -K eth0 tx off tso off gso off gro off", check=False)
    t0 = int(time.time())
    if algorithm == "none": l.keys(); l.both("--pass-unkeyed")
    elif algorithm:
        rows = [Row("old", (7, 5), algorithm)]
        if change: rows = [Row("old", (7, 5), algorithm, send=(None, t0 + 6)), Row("new", (8, 6), "cmac", accept=(t0 + 4, None), send=(t0 + 4, None))]
        l.keys(*rows); l.both()
    if wire: l.wire(wire)
    server = l.start("iperf3-s", ["iperf3", "-s", "-1", "--forceflush", "-B", l.address["b"]], "b", ready="listening")
    out = l.at("a", ["timeout", "30", "iperf3", "-c", l.address["b"], "-t", str(seconds), "-J"] + (["-C", control] if control else []))
    r = json.loads(out)["end"]
    l.figure("mbit", round(r["sum_received"]["bits_per_second"] / 1e6)); l.figure("retransmitted", r["sum_sent"]["retransmits"])
    if algorithm:
        for e in "ab":
            k = l.counters(e); n = k["macs"] or sum(k["in"].values()) + sum(k["out"].values())
            l.figure(f"us-a-segment-{e}", round((k["user_us"] + k["system_us"]) / n, 2)); l.figure(f"user-{e}", round(k["user_us"] / n, 2)); l.figure(f"segments-{e}", n)
            l.say(f"{e}: {k['in']} {k['out']} overruns {k['overruns']}")
            if change: l.expect(k["rollovers"] >= 1, "the keys changed"); l.expect(set(k["in"]) <= {"verified"}, "nothing was refused")
