"""The guest's end of the virtio-serial port, as guest.c has it: commands go out, events, bytes and packets come in."""
import queue
import socket
import struct
import threading
import time


class Guest:
    def __init__(self, path):
        self.port, self.number = self.connect(path), path[path.rindex("port"):]  # of its own in the guest: it names key files
        self.answers, self.events, self.packets = queue.Queue(), queue.Queue(), queue.Queue()
        self.woken = threading.Event()
        threading.Thread(target=self.read, daemon=True).start()

    @staticmethod
    def connect(path):
        for _ in range(150):
            try:
                port = socket.socket(socket.AF_UNIX)
                port.connect(path)
                return port
            except OSError:
                time.sleep(0.2)
        raise RuntimeError("the emulator's port isn't there")

    def read(self):
        kept = b""
        while True:
            try:
                more = self.port.recv(1 << 16)
            except OSError:
                more = b""
            if not more:
                self.events.put(("gone", ""))
                self.woken.set()
                return
            kept += more
            while len(kept) >= 4 and len(kept) >= 4 + (length := struct.unpack("<I", kept[:4])[0]):
                self.hear(kept[4:5], kept[5:4 + length])
                kept = kept[4 + length:]
            self.woken.set()

    def hear(self, kind, content):
        if kind == b"P":
            self.packets.put((*struct.unpack("<II", content[:8]), content[8:]))
        elif kind == b"A":
            self.answers.put(content.decode())
        elif kind == b"E":
            word, _, rest = content.decode(errors="replace").partition(" ")
            self.events.put((word, rest))
        elif kind == b"D":
            self.events.put(("data", content[0], content[1:]))

    def send(self, kind, content):
        self.port.sendall(struct.pack("<I", 1 + len(content)) + kind + content)

    def ask(self, text):
        """A command; its answer behind ok."""
        self.send(b"C", text.encode())
        answer = self.answers.get(timeout=200)
        if not answer.startswith("ok"):
            raise RuntimeError(f"{text[:80]}: {answer}")
        return answer[3:]

    def write(self, slot, content):
        for at in range(0, len(content), 30000):
            self.send(b"W", bytes([slot]) + content[at:at + 30000])
