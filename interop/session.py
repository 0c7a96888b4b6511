"""One scenario: a fresh network in the guest, ao-nc at one end of each TUN device, the kernel's sockets at the other."""
import random
import struct
import time

import packets
from connection import Connection
from key_table import key_file


class Session:
    def __init__(self, guest, profile, name):
        self.guest, self.profile, self.name = guest, profile, name
        self.random, self.lines, self.is_right = random.Random(name), [], True
        self.capture, self.segments, self.packets, self.ids, self.connections = [], [], 0, {}, []
        self.now = 0

    def set_up(self, devices, mtu, values):
        """A network with so many devices; the guest's clock then is `now`."""
        self.guest.ask(f"net {self.profile.family} {mtu} {devices} {' '.join(values)}")
        for kept in (self.guest.packets, self.guest.events):
            while not kept.empty():
                kept.get()
        self.now = self.clock()

    def clock(self):
        return int(self.guest.ask("clock"))

    def connection(self, keys, device=0, **how):
        self.connections.append(Connection(self, keys, device, **how))
        return self.connections[-1]

    def expect(self, is_so, text):
        self.is_right = self.is_right and bool(is_so)
        self.lines.append(("ok   " if is_so else "FAIL ") + text)
        return is_so

    def note(self, text):
        self.lines.append("     " + text)

    def pump(self, is_done, seconds):
        """What comes is heard, until this is so or the seconds are over; whether it is so."""
        end = time.monotonic() + seconds
        while not is_done():
            if time.monotonic() > end:
                return False
            self.guest.woken.wait(0.05)
            self.guest.woken.clear()
            self.hear()
        return True

    def wait(self, seconds):
        self.pump(lambda: False, seconds)

    def wait_until(self, second):
        """Until the guest's clock stands at this second of 1970."""
        self.wait(max(0, second - self.clock()) + 0.2)

    def kernel_states(self):
        """The states of the kernel's sockets that aren't listening, as its table has them: 1 ESTABLISHED, 4 FIN-WAIT-1, 6 TIME-WAIT, .."""
        table = self.guest.ask(f"cat /proc/thread-self/net/{'tcp6' if self.profile.family == 6 else 'tcp'}")
        rows = [line.split() for line in table.splitlines()[1:] if line.strip()]
        return sorted(int(row[3], 16) for row in rows if row[3] != "0A")

    def kernel_port_of(self, state):
        """The port of the kernel's socket in this state."""
        table = self.guest.ask(f"cat /proc/thread-self/net/{'tcp6' if self.profile.family == 6 else 'tcp'}")
        rows = [line.split() for line in table.splitlines()[1:] if line.strip()]
        return next((int(row[1].split(":")[1], 16) for row in rows if int(row[3], 16) == state), None)

    def counters(self):
        words = self.guest.ask("counters").split()
        return dict(zip(words[::2], map(int, words[1::2])))

    def sent_by(self, who, test=lambda segment: True):
        """The segments so far of `nc` or the kernel for which this holds."""
        self.hear()
        return [segment for segment in self.segments if segment.who == who and test(segment)]

    def put(self, where, packet):
        """A packet goes out on a device, so to ao-nc, or comes in to the `kernel`."""
        self.guest.ask(f"put {where} {packet.hex()}")

    def hear(self):
        while not self.guest.packets.empty():
            self.record(*self.guest.packets.get())
        while not self.guest.events.empty():
            self.tell(*self.guest.events.get())

    def record(self, seconds, micros, packet):
        self.packets += 1
        if len(self.capture) < 20000:
            self.capture.append(struct.pack("<IIII", seconds, micros, len(packet), len(packet)) + packet)
        segment = packets.read(packet)
        if segment is None:
            return
        if len(self.segments) < 20000:
            self.segments.append(segment)
        if segment.ids:
            self.ids[segment.device, segment.who] = segment.ids

    def tell(self, word, first, *rest):
        if word == "data":
            for it in self.connections:
                if first == it.nc:
                    it.taken += rest[0]
                elif first == it.kernel:
                    it.kernel_taken += rest[0]
            return
        if word == "gone":
            raise RuntimeError("the guest is gone")
        number, _, text = first.partition(" ")
        for it in reversed(self.connections) if number.isdigit() else ():
            if word == "accepted" and int(number) == it.listener:
                if not it.opened:
                    it.kernel, it.opened = int(text), True
                return
            self.tell_one(it, word, int(number), text)

    @staticmethod
    def tell_one(it, word, number, text):
        if word == "connected" and number == it.kernel:
            it.opened = True
        elif word == "exit" and number == it.nc:
            it.status = int(text)
        elif word == "said" and number == it.nc:
            it.said.append(text)
        elif word in ("end", "broken", "failed") and number == it.kernel:
            it.kernel_end = word if word == "end" else text

    def finish(self, folder):
        self.wait(0.2)
        with open(f"{folder}/{self.name}.pcap", "wb") as file:
            file.write(struct.pack("<IHHiIII", 0xa1b2c3d4, 2, 4, 0, 0, 262144, 101) + b"".join(self.capture))
        with open(f"{folder}/{self.name}.toml", "w") as file:
            file.write("".join(key_file(self.profile, it.keys, it.number) for it in self.connections[:1]))
        with open(f"{folder}/{self.name}.said", "w") as file:
            file.write("".join(text for it in self.connections for text in it.said))
