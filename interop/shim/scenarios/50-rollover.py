"""Keys change while bytes flow both ways: by lifetimes; by SIGHUP (a row added, the old one withdrawn); of another algorithm with a longer option; to a peer whose clock is off."""
from lab import *
VARIANTS = {"lifetimes": {}, "hup": {}, "longer": {}, "withdrawn": {}, "lossy": {}, "silent": {}, "faulty-file": {}, "replayed": {}}

def run(l):
    kind = l.name.split(":")[1]
    l.build()
    t0 = int(time.time())
    old = Row("old", (7, 5), "sha1", accept=(None, t0 + 8), send=(None, t0 + 6))
    new = Row("new", (8, 6), "sha256" if kind == "longer" else "cmac", accept=(t0 + 2, None), send=(t0 + 3, None))
    def later(): n = int(time.time()); return Row("old", (7, 5)), Row("new", (8, 6), "cmac", accept=(n, None), send=(n + 2, None))   # used once both ends have read it
    if kind in ("lifetimes", "longer", "lossy"): l.keys(old, new)
    else: l.keys(Row("old", (7, 5)))
    l.both()
    if kind == "lossy": l.wire("--delay 3 --jitter 3 --loss 20 --double 20 --seed 11")
    l.capture()
    c, d = l.pair()
    stop, fault, sums = [False], [], [0, 0]
    def flow(i, s, r):
        try:
            n = 0
            while not stop[0] or n < 3:
                l.move(s, r, 60_000, seconds=15); sums[i] += 60_000; n += 1
                time.sleep(0.05)
        except Exception as e: fault.append(str(e))
    ts = [threading.Thread(target=flow, args=x) for x in ((0, c, d), (1, d, c))]
    if kind != "silent":
        for t in ts: t.start()
    if kind == "hup":
        time.sleep(1); l.keys(Row("old", (7, 5)), Row("new", (8, 6), "cmac", accept=(t0, None), send=(t0, None)))     # both rows: the new one began later, so both ask for it
        time.sleep(2)
        l.expect({l.counters(e)["connections"][0]["sent"][0] for e in "ab"} == {6, 8}, "both send under the new key, since it was asked for, before the old one is withdrawn")
        l.keys(Row("new", (8, 6), "cmac", accept=(t0, None), send=(t0, None)))
        time.sleep(1)
    elif kind == "faulty-file":
        time.sleep(1); good = open(f"{l.out}/keys-a").read(); open(f"{l.out}/keys-a", "w").write(good[:-40] + "nonsense"); os.kill(l.shims["a"].pid, signal.SIGHUP); time.sleep(0.5)
        l.say(open(l.shims["a"].log).read()[-200:])
        l.expect("the keys stay as they were" in open(l.shims["a"].log).read(), "the faulty file is refused")
        l.keys(*later()); time.sleep(3)
    elif kind == "replayed":
        # after the change all segments of before come again: they pass, but must not turn the key back
        time.sleep(1); l.keys(*later()); time.sleep(3); stop[0] = True
        for t in ts: t.join(20)
        before = {e: l.counters(e) for e in "ab"}
        for p in [p for p in l.packets() if p["key"] in (5, 7)][:300]: l.inject("x", p["raw"])
        time.sleep(0.3); l.move(c, d, 1000); l.move(d, c, 1000)
        for e in "ab":
            k = l.counters(e); l.say(f"{e} {k['in']} {k['connections'][0]['sent']} rollovers {k['rollovers']}")
            l.expect(k["in"]["verified"] > before[e]["in"]["verified"] and k["rollovers"] == 1 and k["connections"][0]["sent"] in ([6, 8], [8, 6]), "the key stays the new one")
    elif kind == "withdrawn":
        # the row is withdrawn at one end first: what the other sends is refused until its file says so too; then the connection goes on, unless TCP gave up
        time.sleep(1); both = [Row("old", (7, 5)), Row("new", (8, 6), "cmac")]
        l.keys(*both); time.sleep(0.5)
        l.key_file(f"{l.out}/keys-a", both[1:], "a"); l.hup("a"); time.sleep(1.5)
        k = l.counters("a"); l.say(f"a in {k['in']} out {k['out']}")
        l.key_file(f"{l.out}/keys-b", both[1:], "b"); l.hup("b"); time.sleep(2.5)
    elif kind == "silent":
        # nothing flows while the new row is added; afterwards the first segment asks for it
        l.keys(Row("old", (7, 5)), Row("new", (8, 6), "cmac", accept=(t0, None), send=(t0, None))); time.sleep(0.5)
        for t in ts: t.start()
        time.sleep(1)
    else: time.sleep(max(0, t0 + 10.5 - time.time()))
    stop[0] = True
    for t in ts: t.join(40)
    l.expect(not fault, f"bytes flow over the change: {sums} {fault}")
    time.sleep(0.3)
    used = {}
    for p in l.packets(): used.setdefault((p["src"], p["key"]), [p["time"], 0, 0]); u = used[(p["src"], p["key"])]; u[1] = p["time"]; u[2] += 1
    for k, u in sorted(used.items(), key=lambda x: x[1]): l.say(f"{k[0]} key {k[1]}: {u[2]} segments from {u[0] - t0:.2f} to {u[1] - t0:.2f} s")
    l.expect({k for _, k in used} == {5, 6, 7, 8}, "both keys were used by both ends")
    i = info(c); l.figure("retransmitted", i["total_retrans"] + info(d)["total_retrans"])
    for e in "ab": k = l.counters(e); l.say(f"{e} in {k['in']} out {k['out']} rollovers {k['rollovers']}"); l.figure(f"rollovers-{e}", k["rollovers"])
    if kind not in ("withdrawn",):
        for e in "ab": l.expect(set(l.counters(e)["in"]) == {"verified"}, "nothing is refused")
    if kind == "longer": l.expect(max(p["size"] for p in l.packets()) <= 1500, "the longer option fits")
    l.judge()
