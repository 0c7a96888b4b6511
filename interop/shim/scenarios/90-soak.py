"""Two BIRDs for an hour, over a way that loses and doubles, under forged RSTs: keys change again and again while the table is sent anew; no flap, every segment passes, and aoscope says of each old key that it may go. Asked for by name."""
from lab import *
import daemons
ASKED = True
LONG = {"hour"}
VARIANTS = {"hour": dict(count=120_000, seconds=3600, changes=12), "minute": dict(count=2_000, seconds=60, changes=2)}
LEAD = 3                                                    # seconds between the row's acceptance and its use


def forge(l, stop, sent):
    """A RST with the very numbers for either end, each second."""
    while not stop.wait(1):
        for e, other in ("ab", "ba"):
            for k in l.counters(e)["connections"]:
                if not k["live"] or k["closed"]: continue
                l.inject("x", make(k["remote"], k["local"], k["rport"], k["lport"], k["rcv"], 0, RST)); sent.append(e)


def may_go(l, name):
    with open(l.pcap, "rb") as f:
        r = subprocess.run([f"{l.judge_dir}/aoscope", "sessions", f"{l.out}/keys", "--retire", name], stdin=f, capture_output=True, text=True, timeout=600)
    return r.returncode == 0, r.stdout + r.stderr


def has_moved(l, key):
    ids = {key.ids[0], key.ids[1]}
    live = [[k for k in l.counters(e)["connections"] if k["live"] and not k["closed"]] for e in "ab"]
    return all(any(k["sent"] and k["heard"] and k["sent"][0] in ids and k["heard"][0] in ids for k in it) for it in live)


def run(l, count, seconds, changes):
    l.build()
    key = Row("key-0", (1, 2))
    l.keys(key); l.both(); l.wire("--delay 5 --loss 5 --double 5 --seed 9"); l.capture()
    x, y = daemons.Bird(l, "a", count), daemons.Bird(l, "b", 10)
    l.expect(daemons.wait(lambda: x.established() and y.established() and y.routes() >= count, 180) is not None, f"established, with {count} routes")
    stop, sent = threading.Event(), []
    t = threading.Thread(target=forge, args=(l, stop, sent), daemon=True); t.start()
    try:
        for n in range(1, changes + 1):
            begun, now = time.time(), int(time.time())
            l.expect(not may_go(l, key.name)[0], f"{key.name} is in use: it may not go")
            new = Row(f"key-{n}", (2 * n + 1, 2 * n + 2), ("sha1", "cmac", "sha256")[n % 3], accept=(now, None), send=(now + LEAD, None))
            l.keys(key, new)
            x.ask("reload out peer")                        # the table is on its way while the keys change
            l.expect(daemons.wait(lambda: has_moved(l, new), 60, 0.5) is not None, f"both use {new.name}")
            l.keys(new)                                     # the old row is withdrawn, but the judge knows it still
            l.expect(daemons.wait(lambda: may_go(l, key.name)[0], 60, 2) is not None, f"aoscope says that {key.name} may go")
            key = new
            time.sleep(max(0, seconds / changes - (time.time() - begun)))
    finally: stop.set(); t.join(20)
    l.figure("forged", len(sent))
    l.expect(x.established() and y.established() and x.flaps() == y.flaps() == 0 and y.routes() >= count, "the session is the first one still")
    for e in "ab": k = l.counters(e); l.say(f"{e} in {k['in']} out {k['out']} rollovers {k['rollovers']}"); l.expect(set(k["in"]) <= {"verified", "no-ao"}, "nothing but forgeries is refused")
    l.judge(refused=("refused no-ao",))
