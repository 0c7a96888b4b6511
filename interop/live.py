#!/usr/bin/env python3
"""`aoscope sessions --every` behind a live tcpdump: when its tables come, and what an operator sees at Ctrl-C.

    interop/live.py AOSCOPE

makes a network namespace of its own with a veth pair, sends the segments of a capture of two Linux kernels into one end, in groups with two
seconds between them, and lets tcpdump listen at the other. Checked is

  tables   each table stands on the screen before more packets are sent, and counts what was sent in front of the packet that made it due;
  end      where tcpdump alone is ended by SIGINT, the last table comes, of all segments, and the status is 0;
  ignored  where SIGINT goes to both, as at Ctrl-C, and aoscope ignores it, `(trap '' INT; exec aoscope ..)`, the same;
  both     where SIGINT goes to both as they are, no last table comes: the tables in front of it stay.

Needed: root, the packages iproute2 and tcpdump, and a kernel with veth; where one is missing it says so, and the status is 0. Else status 0:
all is as above; 1: not.
"""
import os
import pathlib
import select
import shutil
import signal
import socket
import struct
import subprocess
import sys
import time

EXAMPLE = pathlib.Path(__file__).resolve().parent.parent / "examples" / "kernel-v4-ts-sha1-opt"
GROUPS = (20, 8, 8)
NEAR, FAR = "near", "far"
PATIENCE = 6


def lacking():
    """Why it can't run here, if it can't."""
    if os.geteuid() != 0:
        return "it needs root"
    missing = [it for it in ("ip", "tcpdump", "unshare") if shutil.which(it) is None]
    return f"it needs {' and '.join(missing)}" if missing else None


def datagrams():
    """The datagrams of the example's capture, a classic file."""
    file = (EXAMPLE / "input").read_bytes()
    order = "<" if file[:4] == b"\xd4\xc3\xb2\xa1" else ">"
    front, at = 14 if struct.unpack(order + "I", file[20:24])[0] == 1 else 0, 24
    while at < len(file):
        kept = struct.unpack(order + "I", file[at + 8 : at + 12])[0]
        yield file[at + 16 + front : at + 16 + kept]
        at += 16 + kept


class Watch:
    """A pipe of tcpdump and aoscope in a process group of their own, and what aoscope wrote until now."""

    def __init__(self, aoscope, reader):
        capture = f"tcpdump -i {FAR} -s 0 -U -w - 'tcp port 179'"
        words = f"{aoscope} sessions {EXAMPLE / 'keys'} --every 2s"
        script = f"{capture} | {reader.format(words)}"
        self.ran = subprocess.Popen(
            ["bash", "-o", "pipefail", "-c", script],
            stdout=subprocess.PIPE,
            stderr=subprocess.PIPE,
            start_new_session=True,
        )
        self.text = ""
        self.listening()

    def listening(self):
        """Waits until tcpdump listens."""
        heard, until = b"", time.monotonic() + PATIENCE
        while b"listening on" not in heard and time.monotonic() < until:
            if select.select([self.ran.stderr], [], [], 0.2)[0]:
                heard += os.read(self.ran.stderr.fileno(), 4096)
        time.sleep(0.5)

    def read(self, done, seconds=PATIENCE):
        """Reads until `done` holds of the text, or the time is over, or nothing more can come."""
        until = time.monotonic() + seconds
        while not done(self.text) and time.monotonic() < until:
            if select.select([self.ran.stdout], [], [], 0.1)[0]:
                got = os.read(self.ran.stdout.fileno(), 65536)
                if not got:
                    break
                self.text += got.decode()
        return done(self.text)

    def interrupt(self, only=None):
        """SIGINT to the processes of the group: to all, or to those of one name."""
        for process in pathlib.Path("/proc").glob("[0-9]*"):
            try:
                parts = (process / "stat").read_text().rpartition(")")[2].split()
                name = (process / "comm").read_text().strip()
            except OSError:
                continue
            if int(parts[2]) == self.ran.pid and int(process.name) != self.ran.pid and only in (None, name):
                os.kill(int(process.name), signal.SIGINT)

    def ended(self):
        """The status, once all is read."""
        self.read(lambda text: False)
        status = self.ran.wait(PATIENCE)
        self.ran.stderr.close()
        self.ran.stdout.close()
        return status


def send(link, packets):
    for it in packets:
        link.send(b"\x02\x00\x00\x00\x00\x02\x02\x00\x00\x00\x00\x01\x08\x00" + it)


def tables_of(text):
    """How many segments each table counts, and whether `at` stands behind it."""
    counts, is_ended = [], []
    for line in text.splitlines():
        if line.startswith("capture segments "):
            counts.append(int(line.split()[2]))
            is_ended.append(False)
        elif line.startswith("at "):
            is_ended[-1] = True
    return list(zip(counts, is_ended))


def run(aoscope, reader, interrupts):
    """Sends the groups, ends the pipe, and tells what was on the screen behind each group, at the end, and the status."""
    watch, packets, sent, seen = Watch(aoscope, reader), list(datagrams()), 0, []
    with socket.socket(socket.AF_PACKET, socket.SOCK_RAW) as link:
        link.bind((NEAR, 0))
        for n, many in enumerate(GROUPS):
            send(link, packets[sent : sent + many])
            sent += many
            watch.read(lambda text, n=n: sum(at for _, at in tables_of(text)) == n, PATIENCE if n else 0)
            seen.append(tables_of(watch.text))
            time.sleep(2.2)
    watch.interrupt(interrupts)
    status = watch.ended()
    return seen, tables_of(watch.text), status


def judged(name, found, wanted):
    print(f"{name}: {'as it should be' if found == wanted else f'{found}, and {wanted} is wanted'}")
    return found == wanted


def inside(aoscope):
    """The checks, in a namespace that goes with this process."""
    made = subprocess.run(["ip", "link", "add", NEAR, "type", "veth", "peer", "name", FAR], capture_output=True, check=False)
    if made.returncode != 0:
        print(f"skipped: no veth pair can be made here ({made.stderr.decode().strip()})")
        return 0
    for end in (NEAR, FAR):
        pathlib.Path(f"/proc/sys/net/ipv6/conf/{end}/disable_ipv6").write_text("1")
        subprocess.run(["ip", "link", "set", end, "up"], check=True)
    first, second, all_sent = GROUPS[0], GROUPS[0] + GROUPS[1], sum(GROUPS)
    due = [(first, True), (second, True)]
    seen, end, status = run(aoscope, "exec {}", "tcpdump")
    good = [judged("tables", seen, [due[:0], due[:1], due[:2]])]
    good.append(judged("end", (end, status), ([*due, (all_sent, False)], 0)))
    _, end, status = run(aoscope, "(trap '' INT; exec {})", None)
    good.append(judged("ignored", (end, status), ([*due, (all_sent, False)], 0)))
    _, end, status = run(aoscope, "exec {}", None)
    good.append(judged("both", end, due))
    return int(not all(good))


def main():
    words = sys.argv[1:]
    if len(words) not in (1, 2) or words[1:] not in ([], ["--inside"]):
        print(__doc__, file=sys.stderr)
        return 2
    why = lacking()
    if why:
        print(f"skipped: {why}")
        return 0
    if len(words) == 2:
        return inside(words[0])
    aoscope = str(pathlib.Path(words[0]).resolve())
    return subprocess.run(["unshare", "--net", sys.executable, __file__, aoscope, "--inside"], check=False).returncode


if __name__ == "__main__":
    sys.exit(main())
