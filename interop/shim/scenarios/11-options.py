"""Option space: what a SYN and segments hold with 16 and 20 bytes of TCP-AO; SACK blocks go where they don't fit; with and without timestamps; MSS."""
from lab import *
VARIANTS = {f"{a}-{'ts' if ts else 'nots'}": dict(algorithm=a, ts=ts) for a in ("sha1", "sha256") for ts in (1, 0)}

def run(l, algorithm, ts):
    l.build(sysctls={"net.ipv4.tcp_timestamps": ts})
    l.keys(Row("one", (7, 5), algorithm))
    l.both()
    l.wire("--delay 5 --jitter 4 --loss 20 --double 10 --seed 7")
    l.capture()
    c, d = l.pair()
    l.say(f"{l.family} info {info(c)}")
    l.move(c, d, 4_000_000)
    l.move(d, c, 1_000_000)
    c.close(); d.close()
    time.sleep(0.5)
    forms = {}
    for p in l.packets():
        k = ("SYN " if p["flags"] & SYN else "") + ",".join({1: "nop", 2: "mss", 3: "ws", 4: "sackok", 5: f"sack{len(o) // 8}", 8: "ts", 29: f"ao{len(o) + 2}"}.get(n, str(n)) for n, o in p["options"])
        forms[k] = forms.get(k, 0) + 1
    for k, n in sorted(forms.items(), key=lambda x: -x[1]): l.say(f"{n:6d} {k}")
    l.figure("forms", len(forms))
    l.expect(any("sack1" in f for f in forms), "SACK blocks still go")
    l.judge()
