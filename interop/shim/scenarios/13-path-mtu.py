"""Path MTU: a router between the ends has a link of 1400 and tells so by ICMP. The shim drops that (RFC 5925, 7.8), and the connection stalls, unless
tcp_mtu_probing is set or the shim is told the MTU."""
from lab import *
T = {"tcp_mtu_probing": 1}
VARIANTS = {"dropped": dict(works=False), "probing": dict(works=True, probing=1), "told": dict(works=True, more=["--mtu", "1400"]),
            "route": dict(works=False, route=True), "route-told": dict(works=True, route=True, more=["--mtu", "1380"])}

def run(l, works, probing=0, more=(), route=False):
    l.routed = True
    l.address = {"a": "10.9.1.1", "b": "10.9.2.2"} if l.family == 4 else {"a": "fd00:9:1::1", "b": "fd00:9:2::2"}
    l.build(sysctls={"net.ipv4.tcp_mtu_probing": probing})
    l.at("m", "ip link set to-b mtu 1400")
    if route: l.at("a", "ip route replace default via 10.9.1.254 mtu 1380")
    l.keys(Row("one", (7, 5)))
    l.shim("a", *more); l.shim("b")
    l.capture()
    c, d = l.pair()
    try: t = l.move(c, d, 1_000_000, seconds=6 if not works else 30); went = True
    except Failed as e: went, t = False, str(e)
    l.say(f"moved {went} {t} {info(c)}")
    l.say(f"a in {l.counters('a')['in']}")
    if went: l.figure("seconds", round(t, 2))
    l.expect(went == works, "it runs" if works else "it stalls, as stated")
    time.sleep(0.2)
    l.judge(refused=("bad fragment checksum",) if not works else ())
