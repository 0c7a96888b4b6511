"""The shim is killed in the middle of a running transfer: with its state file the connection goes on; without, it is lost, and what that costs is measured.
While no shim runs nothing passes: the queue drops (fail closed)."""
from lab import *
VARIANTS = {"kept": dict(lose=False), "kept-late": dict(lose=False, pause=4), "lost": dict(lose=True), "lost-both": dict(lose=True, both=True), "rebooted": dict(lose=False, reboot=True), "rebooted-lost": dict(lose=True, reboot=True), "unwritable": dict(lose=False, unwritable=True)}

def run(l, lose, pause=0.2, both=False, reboot=False, unwritable=False):
    l.build()
    l.keys(Row("one", (7, 5)))
    l.both()
    l.capture()
    if unwritable:
        # nothing goes on that needs a state which can't be written; once it can, the handshake goes on
        os.mkdir(f"{l.out}/state-a.new"); x = l.listen("b"); c = l.dial("a", wait=False); time.sleep(2.5)
        k = l.counters("a"); l.say(f"a in {k['in']}")
        l.expect(tcp_state(c) == 2 and k["in"].get("not-kept", 0) >= 2 and "verified" not in k["in"], "the SYN-ACKs that pass are dropped")
        os.rmdir(f"{l.out}/state-a.new"); c.setblocking(True); d = l.accept(x); l.move(c, d, 1000); l.move(d, c, 1000)
        l.expect(len(open(f"{l.out}/state-a").read().splitlines()) == 2, "and the state has the connection")
        l.judge(); return
    x = l.listen("b"); c = l.dial("a"); d = l.accept(x)
    l.move(c, d, 500_000)
    if reboot:
        # the host of a goes down: its sockets and its shim are gone at once. With the state kept over it, its kernel's RST for what the peer sends is signed, and the peer knows at once
        l.stop("a", signal.SIGKILL); c.setsockopt(socket.IPPROTO_TCP, TCP_REPAIR, 1); c.close()
        if lose: os.remove(f"{l.out}/state-a")
        l.shim("a"); d.send(b"a keepalive"); time.sleep(1.5)
        l.say(f"b in state {tcp_state(d)}; a {l.counters('a')['in']} {l.counters('a')['out']}")
        l.expect((tcp_state(d) == 7) == (not lose), "the peer hears a signed RST" if not lose else "the peer hears nothing, until its own timer")
        l.judge(); return
    done = []
    t = threading.Thread(target=lambda: done.append(l.move(c, d, 60_000_000, seconds=40)) if not lose else None); t.start()
    time.sleep(0.3)
    ends = "ab" if both else "a"
    for e in ends:
        l.stop(e, signal.SIGKILL)
        if lose: os.remove(f"{l.out}/state-{e}")
    time.sleep(pause)
    for e in ends: l.shim(e)
    if not lose:
        t.join(45)
        l.expect(done, "the transfer goes on to its end")
        l.figure("seconds", round(done[0], 2))
        for _ in range(2):
            for e in "ab": l.stop(e); l.shim(e)
            l.move(c, d, 100_000); l.move(d, c, 100_000)
    else:
        c.send(b"x" * 1000); d.send(b"y" * 1000); time.sleep(1.5)
        k = l.counters("a"); l.say(f"a out {k['out']} in {k['in']}")
        l.expect("out-no-context" in k["out"] and info(c)["retrans"] > 0, "what the kernel sends for the lost connection is dropped, and it retransmits")
        l.expect(both or "no-context" in k["in"], "what the peer sends is refused")
        begun = time.time(); c2 = l.dial("a"); d2 = l.accept(x); l.move(c2, d2, 1000)
        l.figure("new-connection-seconds", round(time.time() - begun, 2))
        l.at("a", "ss -K dst " + l.address["b"] + " dport = 179", check=False)
        time.sleep(0.3)
        l.say(f"after ss -K at a: c in state {tcp_state(c)}, d in state {tcp_state(d)}")
        l.expect(tcp_state(c) == 7 and tcp_state(d) == 1, "ss -K ends the lost connection at this end at once; the peer goes on until its own timer")
    time.sleep(0.3)
    l.judge()
