"""The shim against TCP-AO of a stock Linux 7.3 kernel in qemu: bytes both ways, dialled from either side, BIRD under LD_PRELOAD in the guest, a rollover that the shim asks for. Asked for by name; VM=FOLDER."""
from lab import *
import daemons
ASKED = True
KERNEL = {"sha1": ("hmac(sha1)", 12), "cmac": ("cmac(aes128)", 12), "sha256": ("hmac(sha256)", 16)}
VARIANTS = {f"{a}-{'opt' if o else 'noopt'}": dict(algorithm=a, options=o) for a in ("sha1", "cmac", "sha256") for o in (True, False)}

def run(l, algorithm, options, count=20_000):
    vm = os.environ.get("VM", "/tmp/ao-shim-vm")
    l.build()
    l.at("m", "ip link del to-b")
    l.at("m", "ip tuntap add dev tap0 mode tap"); l.at("m", "ip link set tap0 up"); l.at("m", "ip link set tap0 master br0")
    guest = daemons.Bird(l, "b", count, start=False)
    kernel = l.sh([f"{HERE}/guest/build", vm, f"bird.conf={guest.conf}"]).split()[-1]
    t0 = int(time.time())
    def rows_at(change): return [Row("old", (7, 5), algorithm, options, accept=(None, change + 3600), send=(None, change + 9)), Row("new", (8, 6), algorithm, options, accept=(change, None), send=(change, None))]
    rows = rows_at(t0 + 3600)
    l.keys(*rows)
    name, n = KERNEL[algorithm]
    keys = ",".join(f"{l.address['a']}/{r.ids[0]}/{r.ids[1]}/{name}/{n}/{0 if options else 1}/{r.key}" for r in rows)   # the guest sends what a receives
    l.shim("a"); l.capture()
    s = l.listen("a", 5002)
    x = daemons.Bird(l, "a", count)
    console = f"{l.out}/console.txt"
    begun = time.time()
    l.start("qemu", ["nice", "-n", "3", "qemu-system-x86_64", "-accel", os.environ.get("ACCEL", "tcg"), "-M", "pc", "-cpu", "max", "-smp", "1", "-m", "512", "-nodefaults", "-display", "none", "-no-reboot", "-serial", f"file:{console}",
        "-kernel", kernel, "-initrd", f"{vm}/build/initrd", "-append", f"console=ttyS0 loglevel=4 panic=-1 tsc=reliable mitigations=off net.ifnames=0 address={l.address['b']} peer={l.address['a']} keys={keys}",
        "-netdev", "tap,id=n,ifname=tap0,script=no,downscript=no", "-device", "virtio-net-pci,netdev=n,csum=off,guest_csum=off"], "m")
    said = lambda: open(console, errors="replace").read() if os.path.exists(console) else ""
    t = daemons.wait(lambda: "guest: ready" in said(), 60)
    l.expect(t is not None, f"the guest is ready after {t} s")
    t = daemons.wait(x.established, 40)
    l.expect(t is not None, f"BIRD and BIRD are established after {t} s")
    t = daemons.wait(lambda: x.routes() >= count, 60, 0.3)
    l.expect(t is not None, f"all {count} routes came from the guest")
    t = daemons.wait(lambda: re.findall(r"Routes:\s+(\d+) imported", said())[-1:] == [str(count)], 30)
    l.expect(t is not None, f"all {count} routes are there in the guest")
    for frm in ("a", "b"):
        if frm == "a": c = l.dial("a", 5001)
        else: c = l.accept(s, 30)
        l.figure(f"echo-{frm}-seconds", round(l.move(c, c, 2_000_000, seconds=60), 1)); c.close()
    s.close()
    change = int(time.time()) + 3
    l.keys(*rows_at(change))                          # SIGHUP: the new key is accepted from then on, and the old one sent until 9 s later
    time.sleep(max(0, change + 6 - time.time()))
    k = l.counters("a"); live = [c for c in k["connections"] if c["live"] and not c["closed"] and 179 in (c["lport"], c["rport"])]
    l.say(f"after the change: {[(c['sent'], c['heard']) for c in live]}")
    l.expect(any(c["heard"][0] == 8 for c in live), "the kernel sends under the new key, which the shim asked for")
    time.sleep(max(0, change + 14 - time.time()))
    k = l.counters("a"); live = [c for c in k["connections"] if c["live"] and not c["closed"] and 179 in (c["lport"], c["rport"])]
    l.say(f"after the end of the old one's send lifetime: {[(c['sent'], c['heard']) for c in live]} in {k['in']} out {k['out']}")
    l.expect(any(c["sent"][0] == 6 for c in live), "the shim sends under the new key, by its lifetimes")
    l.expect(x.established() and x.flaps() == 0, "the session is the first one still")
    ao = dict(re.findall(r"guest: (TCPAO\S+) (\d+)", said())); l.say(f"the guest's kernel counts {ao}"); l.figure("guest", ao)
    l.expect(int(ao.get("TCPAOBad", 0)) == 0 and int(ao.get("TCPAOGood", 0)) > 0, "it takes every segment")
    l.expect(set(k["in"]) == {"verified"}, "the shim takes every segment")
    for p in l.packets():
        if p["flags"] & SYN: l.say(f"{p['src']} flags {p['flags']} options {p['kinds']}")
    l.judge()
