"""A connection: ao-nc at one end, a socket of the kernel at the other, what each was given and what came out."""
import re

from key_table import key_file

NC_PORT, KERNEL_PORT = 50000, 179
HANGUP, KILL, TERMINATE = 1, 9, 15


class Connection:
    """On a device of the session. Its slots in the guest follow from how many connections there were before."""
    def __init__(self, session, keys, device=0, nc_port=NC_PORT, kernel_port=KERNEL_PORT, like=None):
        self.session, self.number, self.keys = session, device, keys
        count = len(session.connections)
        self.nc, self.kernel = 40 + count, 2 * count % 40
        self.listener = like.listener if like else None
        self.nc_port, self.kernel_port = nc_port, kernel_port
        self.given, self.taken = bytearray(), bytearray()
        self.kernel_given, self.kernel_taken = bytearray(), bytearray()
        self.status = self.kernel_end = self.opened = None
        self.said = []

    def ask(self, text):
        return self.session.guest.ask(text)

    def name_file(self):
        return f"/keys-{self.session.guest.number}-{self.number}"

    def write_keys(self, keys=None):
        text = key_file(self.session.profile, self.keys if keys is None else keys, self.number)
        self.ask(f"file {self.name_file()} {text.encode().hex()}")

    def start_nc(self, *words):
        address, peer, _, _ = self.session.profile.addresses(self.number)
        self.write_keys()
        local, remote = f"{address}:{self.nc_port}", f"{peer}:{self.kernel_port}"
        if self.session.profile.family == 6:
            local, remote = f"[{address}]:{self.nc_port}", f"[{peer}]:{self.kernel_port}"
        self.ask(f"nc {self.nc} --tun t{self.number} --keys {self.name_file()} {' '.join(map(str, words))} {local} {remote}")

    def listen_nc(self, *words):
        """ao-nc listens, and has its device."""
        self.start_nc("--listen", *words)
        self.session.pump(self.phases, 30)

    def kernel_key(self, key, current=0, rnext=0, slot=None):
        about, master = key.words(self.session.profile)
        peer = self.session.profile.addresses(self.number)[0]
        self.ask(f"key {self.kernel if slot is None else slot} {peer} {about} {current} {rnext} {master}")

    def kernel_socket(self, keys=None, chooses=True):
        """A socket with the keys, each pair of ids once; one that connects sends with the first."""
        self.ask(f"socket {self.kernel}")
        known = set()
        for key in self.keys if keys is None else keys:
            about, _ = key.words(self.session.profile)
            if not key.missing and about not in known:
                self.kernel_key(key, int(chooses and not known), int(chooses and not known))
                known.add(about)

    def bind(self):
        address = self.session.profile.addresses(self.number)[1]
        self.ask(f"bind {self.kernel} {address} {self.kernel_port}")

    def kernel_serves(self, keys=None):
        self.kernel_socket(keys)
        self.bind()
        self.ask(f"listen {self.kernel}")
        self.listener = self.kernel

    def kernel_connects(self, keys=None, isn=None):
        self.kernel_socket(keys)
        self.bind()
        if isn is not None:
            self.ask(f"isn {self.kernel} {isn}")
        self.dial()

    def dial(self):
        self.ask(f"connect {self.kernel} {self.session.profile.addresses(self.number)[0]} {self.nc_port}")

    def start(self, role, *words, keys=None, kernel_isn=None):
        """Opened from the side that `role` says, `nc` or `kernel`."""
        if role == "nc":
            self.kernel_serves(keys)
            self.start_nc(*words)
        else:
            self.listen_nc(*words)
            self.kernel_connects(keys, kernel_isn)

    def begin(self, role, *words, keys=None, kernel_isn=None, seconds=40):
        """Opened from that side; whether it is up."""
        self.start(role, *words, keys=keys, kernel_isn=kernel_isn)
        return self.is_up(f"opened by {role}", seconds)

    def is_up(self, text, seconds=40):
        return self.session.expect(self.session.pump(lambda: self.opened, seconds), text)

    def give(self, count):
        """Bytes for ao-nc to send."""
        piece = self.session.random.randbytes(count)
        self.given += piece
        self.session.guest.write(self.nc, piece)

    def kernel_gives(self, count):
        piece = self.session.random.randbytes(count)
        self.kernel_given += piece
        self.session.guest.write(self.kernel, piece)

    def is_through(self):
        return len(self.taken) >= len(self.kernel_given) and len(self.kernel_taken) >= len(self.given)

    def exchange(self, count, back, seconds=90):
        """Bytes both ways at once, and all of them come."""
        self.give(count)
        self.kernel_gives(back)
        self.session.pump(self.is_through, seconds)
        return self.compare(f"{count} bytes to the kernel, {back} back")

    def compare(self, text):
        there = self.session.expect(self.kernel_taken == self.given, f"{text}: the kernel has read what ao-nc was given ({len(self.kernel_taken)} of {len(self.given)})")
        back = self.session.expect(self.taken == self.kernel_given, f"{text}: ao-nc wrote what the kernel was given ({len(self.taken)} of {len(self.kernel_given)})")
        return there and back

    def shut_nc(self):
        self.ask(f"shut {self.nc}")

    def shut_kernel(self):
        self.ask(f"shut {self.kernel}")

    def kernel_reads_end(self, seconds=60):
        return self.session.expect(self.session.pump(lambda: self.kernel_end == "end", seconds), f"the kernel reads the end ({self.kernel_end})")

    def nc_ends(self, wanted, seconds=60):
        """ao-nc ends with this status."""
        self.session.pump(lambda: self.status is not None, seconds)
        return self.session.expect(self.status == wanted, f"ao-nc ends with status {wanted} ({self.status})")

    def kernel_is_broken(self, seconds=60):
        """The kernel's reader is told of a reset."""
        self.session.pump(lambda: self.kernel_end, seconds)
        return self.session.expect(self.kernel_end in ("Connection reset by peer", "Connection refused"), f"the kernel's socket is reset ({self.kernel_end})")

    def close(self, first):
        """Both sides close, `nc` or `kernel` first, and both see the end."""
        if first == "nc":
            self.shut_nc()
            self.kernel_reads_end()
            self.shut_kernel()
        else:
            self.shut_kernel()
            self.session.wait(0.5)
            self.shut_nc()
            self.kernel_reads_end()
        return self.nc_ends(0)

    def signal(self, number):
        self.ask(f"signal {self.nc} {number}")

    def info(self):
        words = self.ask(f"info {self.kernel}").split()
        return dict(zip(words[::2], words[1::2]))

    def set(self, level, option, value):
        """An option of the kernel's socket, a number or bytes."""
        self.ask(f"set {self.kernel} {level} {option} {(value if isinstance(value, bytes) else value.to_bytes(4, 'little')).hex()}")

    def choose(self, current, rnext):
        """The kernel's key to send with, and the one to ask for; -1 leaves it."""
        self.ask(f"choose {self.kernel} {current} {rnext}")

    def refusals(self):
        """What ao-nc said so far of segments that TCP-AO refused."""
        return re.findall(r"refused:? *(.*)", "".join(self.said))

    def phases(self):
        return re.findall(r"ao-nc: ([A-Z0-9-]+) una", "".join(self.said))

    def last_ids(self):
        """The KeyID and RNextKeyID last sent by ao-nc, and by the kernel."""
        return self.session.ids.get((self.number, "nc")), self.session.ids.get((self.number, "kernel"))
