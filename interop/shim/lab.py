"""The laboratory: network namespaces, the shim under test, daemons, captures and their judge. All that a Lab makes it takes away again."""
import contextlib, ctypes, datetime, hashlib, json, os, re, select, shutil, signal, socket, struct, subprocess, threading, time

HERE = os.path.dirname(os.path.abspath(__file__))
LIBC = ctypes.CDLL("libc.so.6", use_errno=True)
ALGORITHMS = {"sha1": ("HMAC-SHA-1", "HMAC-SHA-1-96", 20), "cmac": ("AES-128-CMAC", "AES-128-CMAC-96", 16), "sha256": ("HMAC-SHA-256", "HMAC-SHA-256-128", 32)}
TCP_REPAIR, TCP_REPAIR_QUEUE, TCP_QUEUE_SEQ, TCP_INFO = 19, 20, 21, 11


class Failed(Exception):
    pass


def stamp(t):
    return datetime.datetime.fromtimestamp(int(t), datetime.timezone.utc).strftime("%Y%m%d%H%M%SZ")


def spelt(address):
    """An address as key files have it: of IPv6, 32 digits."""
    return socket.inet_pton(socket.AF_INET6, address).hex() if ":" in address else address


class Row:
    """A key that both ends have: a's view; b's has the ids in the other order. Times are seconds since 1970, or None."""

    def __init__(self, name, ids=(1, 1), algorithm="sha1", options=True, send=(None, None), accept=(None, None), key=None, ends="ab", direction="both"):
        self.name, self.ids, self.algorithm, self.options, self.send, self.accept, self.ends, self.direction = name, ids, algorithm, options, send, accept, ends, direction
        self.key = key or hashlib.sha512(name.encode()).hexdigest()[: 2 * ALGORITHMS[algorithm][2]]

    def text(self, end, peer):
        kdf, alg, _ = ALGORITHMS[self.algorithm]
        local, remote = self.ids if end == "a" else self.ids[::-1]
        t = [f'[[node.key]]', f'AdminKeyName = "{self.name}"', f'LocalKeyName = "{local}"', f'PeerKeyName = "{remote}"', f'Peers = ["{spelt(peer)}"]', 'Protocol = "TCP-AO"',
             f'ProtocolSpecificInfo = "{"options" if self.options else "no-options"}"', f'KDF = "{kdf}"', f'AlgID = "{alg}"', f'Key = "{self.key}"', f'Direction = "{self.direction}"']
        for word, (first, last) in (("Send", self.send), ("Accept", self.accept)):
            if first is not None: t.append(f'{word}LifetimeStart = "{stamp(first)}"')
            if last is not None: t.append(f'{word}LifetimeEnd = "{stamp(last)}"')
        return "\n".join(t) + "\n"


class Lab:
    def __init__(self, name, out, program, judge, verbose=False, family=4, routed=False, extra=()):
        self.name, self.out, self.program, self.judge_dir, self.verbose, self.family, self.routed, self.extra = name, out, program, judge, verbose, family, routed, list(extra)
        shutil.rmtree(out, ignore_errors=True)
        os.makedirs(out)
        self.tag = f"aos{os.getpid()}"
        self.spaces, self.processes, self.sockets, self.shims, self.notes, self.figures = {}, [], [], {}, [], {}
        self.capture_process, self.wire_process, self.rows, self.all_rows, self.ruled = None, None, [], [], set()
        if routed: self.address = {"a": "10.9.1.1", "b": "10.9.2.2"} if family == 4 else {"a": "fd00:9:1::1", "b": "fd00:9:2::2"}
        else: self.address = {"a": "10.9.0.1", "b": "10.9.0.2"} if family == 4 else {"a": "fd00:9::1", "b": "fd00:9::2"}

    # -- words --
    def say(self, text):
        self.notes.append(text)
        if self.verbose: print("     ", text, flush=True)

    def expect(self, truth, text):
        self.say(("ok: " if truth else "NOT: ") + text)
        if not truth: raise Failed(text)

    def figure(self, name, value):
        self.figures[name] = value
        self.say(f"{name}: {value}")

    # -- namespaces --
    def sh(self, words, check=True):
        r = subprocess.run(words if isinstance(words, list) else words.split(), capture_output=True, text=True, timeout=60)
        if check and r.returncode: raise Failed(f"{words}: {r.stdout}{r.stderr}")
        return r.stdout

    def at(self, end, words, check=True):
        return self.sh(["ip", "netns", "exec", self.spaces[end]] + (words if isinstance(words, list) else words.split()), check)

    def build(self, mtu={}, sysctls={}):
        for end in "abmx":
            n = f"{self.tag}-{end}"
            self.sh(f"ip netns add {n}")
            self.spaces[end] = n
            self.at(end, "ip link set lo up")
            for k in ("net.ipv6.conf.all.accept_dad=0", "net.ipv6.conf.default.accept_dad=0", "net.ipv6.conf.default.router_solicitations=0", "net.ipv4.tcp_syn_retries=6"): self.at(end, f"sysctl -qw {k}")
            for k, v in sysctls.items():
                if end in "ab": self.at(end, ["sysctl", "-qw", f"{k}={v}"])
        for i, end in enumerate("abx"):
            self.at("m", f"ip link add to-{end} type veth peer name eth0 netns {self.spaces[end]}")
            self.at(end, f"ip link set eth0 address 02:00:00:00:00:0{i + 1}")
            for d, e in ((f"to-{end}", "m"), ("eth0", end)):
                if end in mtu: self.at(e, f"ip link set {d} mtu {mtu[end]}")
                self.at(e, f"ip link set {d} up")
        if self.routed:
            for e in "ab":
                net = {"a": 1, "b": 2}[e]
                gate = f"10.9.{net}.254/24" if self.family == 4 else f"fd00:9:{net}::fe/64"
                size = 24 if self.family == 4 else 64
                self.at("m", ["ip", "addr", "add", gate, "dev", f"to-{e}"] + (["nodad"] if self.family == 6 else []))
                self.at(e, ["ip", "addr", "add", f"{self.address[e]}/{size}", "dev", "eth0"] + (["nodad"] if self.family == 6 else []))
                self.at(e, ["ip", "route", "add", "default", "via", gate.split("/")[0]])
            self.at("m", "sysctl -qw net.ipv4.ip_forward=1 net.ipv6.conf.all.forwarding=1")
        else:
            for e, n in (("a", 1), ("b", 2), ("x", 3)):
                self.at(e, f"ip addr add 10.9.0.{n}/24 dev eth0")
                self.at(e, f"ip addr add fd00:9::{n}/64 dev eth0 nodad")
            self.bridge()
        return self

    def bridge(self):
        self.at("m", "ip link add br0 type bridge stp_state 0 forward_delay 0 mcast_snooping 0")
        self.at("m", "sysctl -qw net.ipv6.conf.br0.disable_ipv6=1")
        for e in "abx": self.at("m", f"ip link set to-{e} master br0")
        self.at("m", "ip link set br0 up")

    def wire(self, words):
        """The bridge's place is taken by tools/wire with these words: --delay 50 --loss 10 --seed 1 .."""
        if not self.wire_process: self.at("m", "ip link del br0", check=False)
        else: self.end(self.wire_process)
        for e in "ab": self.at(e, "ethtool -K eth0 tx off tso off gso off", check=False)
        self.wire_process = self.start("wire", [f"{HERE}/tools/wire"] + words.split() + ["to-a", "to-b", "to-x"], "m", ready="wire: ready")

    # -- processes --
    def start(self, name, words, end=None, ready=None, seconds=10, env=None):
        path = f"{self.out}/{name}.{len(self.processes)}.log"
        f = open(path, "w")
        p = subprocess.Popen((["ip", "netns", "exec", self.spaces[end]] if end else []) + words, stdin=subprocess.DEVNULL, stdout=f, stderr=f, start_new_session=True, env=env)
        p.log, p.name = path, name
        self.processes.append(p)
        until = time.time() + seconds
        while ready and ready not in open(path).read():
            if p.poll() is not None or time.time() > until: raise Failed(f"{name} isn't ready: {open(path).read()[-400:]}")
            time.sleep(0.02)
        return p

    def end(self, p, sig=signal.SIGTERM, seconds=10):
        if p.poll() is None:
            os.kill(p.pid, sig)
            try: p.wait(seconds)
            except subprocess.TimeoutExpired:
                os.kill(p.pid, signal.SIGKILL)
                p.wait(5)
        return open(p.log).read()

    # -- keys and the shim --
    def key_file(self, path, rows, ends="ab"):
        text = ""
        for e in ends:
            peer = self.address["b" if e == "a" else "a"]
            text += f'[[node]]\nname = "{e}"\naddress = "{spelt(self.address[e])}"\n' + "".join(r.text(e, peer) for r in rows if e in r.ends)
        with open(path + ".new", "w") as f: f.write(text)
        os.rename(path + ".new", path)

    def keys(self, *rows):
        """The rows of both ends from now on; shims that run read them again. The judge's file has every row there ever was."""
        self.rows = list(rows)
        seen = {(r.name, r.ids) for r in rows}
        self.all_rows = [r for r in self.all_rows if (r.name, r.ids) not in seen] + list(rows)
        for e in "ab": self.key_file(f"{self.out}/keys-{e}", rows, e)
        self.key_file(f"{self.out}/keys", self.all_rows)
        for e in list(self.shims): self.hup(e)

    def printed(self, end, *more):
        """The lines that `rules` prints for an end, without comments; of iptables, with the tool's variant over nft."""
        text = self.sh([self.program, "rules", "--peer", self.address["b" if end == "a" else "a"], *more])
        return [re.sub(r"^(ip6?tables) ", r"\1-nft ", it) for it in text.splitlines() if not it.startswith("#")]

    def set_printed(self, end, holding=""):
        """Sets those lines for iptables that have this text."""
        for line in self.printed(end, "--iptables"):
            if holding in line: self.at(end, ["sh", "-c", line])

    def rules(self, end, raw=True, icmp=True, out="POSTROUTING"):
        """Any TCP of the other end goes to the queues; ICMP errors that quote it are dropped as `rules` prints it."""
        other = "b" if end == "a" else "a"
        t = "iptables-nft" if self.family == 4 else "ip6tables-nft"
        into = ["-t", "raw", "-A", "PREROUTING"] if raw else ["-t", "mangle", "-A", "INPUT"]
        queue = ["-j", "NFQUEUE", "--queue-num"]
        self.at(end, [t, "-w", "-t", "mangle", "-A", out, "-p", "tcp", "-d", self.address[other], *queue, "1"])
        self.at(end, [t, "-w", *into, "-p", "tcp", "-s", self.address[other], *queue, "2"])
        if icmp: self.set_printed(end, "-p icmp")
        self.ruled.add(end)

    def guarded(self, end):
        """How many datagrams the guard of the printed rules dropped: TCP, ICMP."""
        t = "iptables-nft" if self.family == 4 else "ip6tables-nft"
        rows = [it.split() for it in self.at(end, [t, "-t", "security", "-nvxL", "INPUT"]).splitlines() if " DROP " in it]
        is_icmp = lambda row: any("icmp" in word for word in row[2:])
        return sum(int(r[0]) for r in rows if not is_icmp(r)), sum(int(r[0]) for r in rows if is_icmp(r))

    def shim(self, end, *more, rules=True):
        if rules and end not in self.ruled: self.rules(end)
        more, env = list(more), None
        if "--clock-offset" in more:                     # its clock is that many seconds ahead: tools/ahead.c
            at = more.index("--clock-offset")
            env = dict(os.environ, LD_PRELOAD=f"{HERE}/tools/ahead.so", AHEAD=more[at + 1])
            del more[at:at + 2]
        words = [self.program, "run", "--keys", f"{self.out}/keys-{end}", "--queue-out", "1", "--queue-in", "2",
                 "--state", f"{self.out}/state-{end}", "--status", f"{self.out}/status-{end}", "--metrics", f"{self.out}/metrics-{end}"]
        self.shims[end] = self.start(f"shim-{end}", words + self.extra + more, end, ready="ready", env=env)
        return self.shims[end]

    def both(self, *more):
        for e in "ab": self.shim(e, *more)

    def hup(self, end):
        before = open(self.shims[end].log).read().count("keys read")
        os.kill(self.shims[end].pid, signal.SIGHUP)
        until = time.time() + 5
        while open(self.shims[end].log).read().count("keys read") == before:
            if time.time() > until: raise Failed("the keys aren't read again")
            time.sleep(0.02)

    def counters(self, end):
        p = self.shims[end]
        before = open(p.log).read().count("\ncounters ")
        os.kill(p.pid, signal.SIGUSR1)
        until = time.time() + 5
        while True:
            found = re.findall(r"^counters (.*)\n", open(p.log).read(), re.M)
            if len(found) > before: return json.loads(found[-1])
            if time.time() > until: raise Failed("no counters")
            time.sleep(0.02)

    def stop(self, end, sig=signal.SIGTERM):
        p = self.shims.pop(end)
        return self.end(p, sig)

    # -- captures --
    def capture(self, device="to-a", snap=0):
        self.pcap = f"{self.out}/wire.pcap"
        self.capture_process = self.start("tcpdump", ["tcpdump", "-i", device, "-U", "--immediate-mode", "-B", "65536", "-s", str(snap), "-w", self.pcap, "tcp or (ip6 and ip6[6] == 6)"], "m", ready="listening")

    def stop_capture(self):
        time.sleep(0.3)
        log = self.end(self.capture_process, signal.SIGINT)
        self.capture_process = None
        m = re.search(r"(\d+) packets dropped by kernel", log)
        return int(m.group(1)) if m else 0

    def judge(self, whole=True, refused=()):
        """Every captured segment must pass under the key file; `refused` are reasons that may occur (forgeries of the scenario)."""
        lost = self.stop_capture()
        with open(self.pcap, "rb") as f: r = subprocess.run([f"{self.judge_dir}/aotcp", "check", "--pcap", f"{self.out}/keys"], stdin=f, capture_output=True, text=True, timeout=600)
        counts = {}
        for line in r.stdout.splitlines():
            w = line.split()
            what = "pass" if w[1] == "pass" else " ".join(w[1:3])
            if w[-1] != "good": what += " checksum"
            counts[what] = counts.get(what, 0) + 1
        with open(f"{self.out}/check.txt", "w") as f: f.write(r.stdout + r.stderr)
        if os.path.exists(f"{self.judge_dir}/aoscope"):
            with open(self.pcap, "rb") as f: s = subprocess.run([f"{self.judge_dir}/aoscope", "sessions", f"{self.out}/keys"], stdin=f, capture_output=True, text=True, timeout=600)
            with open(f"{self.out}/sessions.txt", "w") as f: f.write(s.stdout + s.stderr)
        other = {k: v for k, v in counts.items() if k != "pass"}
        self.say(f"capture: {counts}, lost by tcpdump {lost}, status {r.returncode} {r.stderr.strip()}")
        self.expect(all(k in refused for k in other) and r.returncode in (0, 1) and counts.get("pass", 0) > 0 and not r.stderr, f"the judge passes every segment {('but ' + str(other)) if other else ''}")
        self.figures["segments"] = self.figures.get("segments", 0) + counts.get("pass", 0)
        return counts

    def packets(self):
        """The segments of the capture so far, as dicts."""
        b = open(self.pcap, "rb").read()
        at, out = 24, []
        while at + 16 <= len(b):
            sec, usec, kept, _ = struct.unpack_from("<IIII", b, at)
            if at + 16 + kept > len(b): break
            p = parse(b[at + 30: at + 16 + kept])
            if p: out.append(dict(p, time=sec + usec / 1e6))
            at += 16 + kept
        return out

    # -- sockets of a namespace --
    @contextlib.contextmanager
    def inside(self, end):
        here, there = os.open("/proc/thread-self/ns/net", os.O_RDONLY), os.open(f"/run/netns/{self.spaces[end]}", os.O_RDONLY)
        try:
            if LIBC.setns(there, 0x40000000): raise Failed("setns")
            yield
        finally:
            LIBC.setns(here, 0x40000000)
            os.close(here)
            os.close(there)

    def socket(self, end, kind=socket.SOCK_STREAM, family=None, proto=0):
        with self.inside(end): s = socket.socket(family or (socket.AF_INET if self.family == 4 else socket.AF_INET6), kind, proto)
        self.sockets.append(s)
        return s

    def listen(self, end, port=179, backlog=16):
        s = self.socket(end)
        s.setsockopt(socket.SOL_SOCKET, socket.SO_REUSEADDR, 1)
        s.bind((self.address[end], port))
        s.listen(backlog)
        return s

    def dial(self, end, port=179, own=0, isn=None, seconds=10, wait=True, to=None):
        s = self.socket(end)
        s.setsockopt(socket.SOL_SOCKET, socket.SO_REUSEADDR, 1)
        s.bind((self.address[end], own))
        if isn is not None: set_isn(s, isn)
        s.settimeout(seconds)
        peer = to or self.address["b" if end == "a" else "a"]
        if wait: s.connect((peer, port))
        else:
            s.setblocking(False)
            s.connect_ex((peer, port))
        return s

    def accept(self, listener, seconds=10):
        listener.settimeout(seconds)
        s, _ = listener.accept()
        self.sockets.append(s)
        s.settimeout(seconds)
        return s

    def pair(self, own=0, port=179, isn=None, frm="a", seconds=10, listener=None):
        l = listener or self.listen("b" if frm == "a" else "a", port)
        c = self.dial(frm, port, own, isn, seconds)
        d = self.accept(l, seconds)
        if not listener: l.close()
        return c, d

    def move(self, frm, to, count, seconds=25, seed=b"x"):
        """count bytes from one socket to the other, compared; the seconds it took"""
        block = hashlib.sha256(seed).digest() * 2048
        want, got, fault = hashlib.sha256(), hashlib.sha256(), []
        frm.settimeout(seconds)
        to.settimeout(seconds)
        def send():
            left = count
            try:
                while left:
                    piece = block[: min(left, len(block))]
                    frm.sendall(piece)
                    want.update(piece)
                    left -= len(piece)
            except Exception as e: fault.append(f"send: {e!r}")
        begun = time.time()
        t = threading.Thread(target=send, daemon=True)
        t.start()
        n = 0
        try:
            while n < count:
                b = to.recv(1 << 18)
                if not b: break
                got.update(b)
                n += len(b)
        except Exception as e: fault.append(f"receive: {e!r}")
        t.join(seconds)
        if fault or n != count or want.digest() != got.digest(): raise Failed(f"{n} of {count} bytes came; {fault}")
        return time.time() - begun

    def inject(self, frm, packet):
        """A datagram from a namespace, with whatever source it says."""
        p = parse(packet)
        v4 = packet[0] >> 4 == 4
        if v4:
            s = self.socket(frm, socket.SOCK_RAW, socket.AF_INET, socket.IPPROTO_RAW)
            s.sendto(packet, (p["dst"], 0))
        else:
            s = self.socket(frm, socket.SOCK_RAW, socket.AF_INET6, socket.IPPROTO_RAW)
            s.setsockopt(socket.IPPROTO_IPV6, 36, 1)
            s.sendto(packet, (p["dst"], 0, 0, 0))
        s.close()

    def clear(self):
        before = {n: signal.signal(n, signal.SIG_IGN) for n in (signal.SIGTERM, signal.SIGINT)}   # to its end, once begun
        try: self.clear_all()
        finally:
            for n, h in before.items(): signal.signal(n, h)

    def clear_all(self):
        for s in self.sockets:
            try: s.close()
            except OSError: pass
        for p in reversed(self.processes):
            try: self.end(p, seconds=3)
            except Exception: pass
        for n in self.spaces.values():
            try:
                for pid in subprocess.run(["ip", "netns", "pids", n], capture_output=True, text=True, timeout=10).stdout.split(): os.kill(int(pid), signal.SIGKILL)
            except Exception: pass
            subprocess.run(["ip", "netns", "del", n], capture_output=True, timeout=30)
        with open(f"{self.out}/notes.txt", "w") as f: f.write("\n".join(self.notes) + "\n")


def set_isn(s, isn):
    s.setsockopt(socket.IPPROTO_TCP, TCP_REPAIR, 1)
    s.setsockopt(socket.IPPROTO_TCP, TCP_REPAIR_QUEUE, 2)
    s.setsockopt(socket.IPPROTO_TCP, TCP_QUEUE_SEQ, struct.pack("I", isn))
    s.setsockopt(socket.IPPROTO_TCP, TCP_REPAIR, struct.pack("i", -1))


def tcp_state(s):
    return s.getsockopt(socket.IPPROTO_TCP, TCP_INFO, 1)[0]


def info(s):
    b = s.getsockopt(socket.IPPROTO_TCP, TCP_INFO, 232)
    f = struct.unpack_from("<8B24I", b)
    return {"state": f[0], "options": f[5], "snd_mss": f[8 + 2], "rcv_mss": f[8 + 3], "retrans": f[8 + 7], "total_retrans": f[8 + 23], "pmtu": f[8 + 13], "advmss": f[8 + 19]}


def parse(b):
    if len(b) < 40: return None
    if b[0] >> 4 == 4:
        h, src, dst, n = (b[0] & 15) * 4, socket.inet_ntoa(b[12:16]), socket.inet_ntoa(b[16:20]), struct.unpack_from(">H", b, 2)[0]
        if b[9] != 6: return {"dst": dst, "src": src}
    else:
        h, src, dst, n = 40, socket.inet_ntop(socket.AF_INET6, b[8:24]), socket.inet_ntop(socket.AF_INET6, b[24:40]), 40 + struct.unpack_from(">H", b, 4)[0]
        if b[6] != 6: return {"dst": dst, "src": src}
    t = b[h:n]
    sport, dport, seq, ack, off, flags, window = struct.unpack_from(">HHIIBBH", t)
    off = (off >> 4) * 4
    options, at, area = [], 0, t[20:off]
    while at < len(area):
        k = area[at]
        if k == 0: break
        if k == 1: options.append((1, b"")); at += 1; continue
        options.append((k, bytes(area[at + 2: at + area[at + 1]])))
        at += area[at + 1]
    ao = next((o for k, o in options if k == 29), None)
    return {"src": src, "dst": dst, "sport": sport, "dport": dport, "seq": seq, "ack": ack, "flags": flags, "window": window, "options": options, "kinds": [k for k, _ in options],
            "ao": ao, "key": ao[0] if ao else None, "asks": ao[1] if ao else None, "len": len(t) - off, "size": n, "raw": bytes(b[:n])}


def checksum(b):
    if len(b) % 2: b += b"\0"
    s = sum(struct.unpack(f">{len(b) // 2}H", b))
    while s >> 16: s = (s & 0xffff) + (s >> 16)
    return s ^ 0xffff


def make(src, dst, sport, dport, seq, ack, flags, payload=b"", options=b"", window=1000):
    """A datagram with TCP; options padded by the caller."""
    t = struct.pack(">HHIIBBHHH", sport, dport, seq & 0xffffffff, ack & 0xffffffff, (20 + len(options)) // 4 << 4, flags, window, 0, 0) + options + payload
    if ":" in src:
        a, d = socket.inet_pton(socket.AF_INET6, src), socket.inet_pton(socket.AF_INET6, dst)
        c = checksum(a + d + struct.pack(">I3xB", len(t), 6) + t)
        t = t[:16] + struct.pack(">H", c) + t[18:]
        return struct.pack(">IHBB", 6 << 28, len(t), 6, 64) + a + d + t
    a, d = socket.inet_aton(src), socket.inet_aton(dst)
    c = checksum(a + d + struct.pack(">BBH", 0, 6, len(t)) + t)
    t = t[:16] + struct.pack(">H", c) + t[18:]
    ip = struct.pack(">BBHHHBBH", 0x45, 0, 20 + len(t), 0, 0x4000, 64, 6, 0) + a + d
    return ip[:10] + struct.pack(">H", checksum(ip)) + ip[12:] + t


FIN, SYN, RST, PSH, ACK = 1, 2, 4, 8, 16
