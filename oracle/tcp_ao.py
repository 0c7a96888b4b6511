"""TCP-AO on the wire, from RFC 5925 (sections 2.2, 5.1, 5.2), RFC 5926 and RFC 4615; HMAC-SHA-256-128 is the project's own. Addresses are
`ipaddress` objects, a socket is an address and a port. AES-128-CMAC is there where Python's `cryptography` is."""
import dataclasses
import hmac
import struct

try:
    from cryptography.hazmat.primitives.ciphers.algorithms import AES
    from cryptography.hazmat.primitives.cmac import CMAC
except ImportError:
    CMAC = None

FIN, SYN, RST, PSH, ACK = 1, 2, 4, 8, 16
LAP = 2**32
# By its name in a key file: the KDF's name, the traffic key's bits, the MAC's bytes, and the hash of HMAC, if it is one.
ALGORITHMS = {"HMAC-SHA-1-96": ("HMAC-SHA-1", 160, 12, "sha1"), "HMAC-SHA-256-128": ("HMAC-SHA-256", 256, 16, "sha256")}
if CMAC:
    ALGORITHMS["AES-128-CMAC-96"] = ("AES-128-CMAC", 128, 12, None)


def aes_cmac(key, message):
    code = CMAC(AES(key))
    code.update(message)
    return code.finalize()


def traffic_key(algorithm, master, context):
    _, bits, _, name = ALGORITHMS[algorithm]
    message = b"\x01TCP-AO" + context + struct.pack(">H", bits)
    if name:
        return hmac.digest(master, message, name)
    return aes_cmac(master if len(master) == 16 else aes_cmac(bytes(16), master), message)


def mac(algorithm, key, message):
    _, _, length, name = ALGORITHMS[algorithm]
    return (hmac.digest(key, message, name) if name else aes_cmac(key, message))[:length]


def sum16(data):
    total = sum(struct.unpack(f">{(len(data) + 1) // 2}H", data + bytes(len(data) % 2)))
    while total > 0xFFFF:
        total = (total & 0xFFFF) + (total >> 16)
    return total


def pseudo_header(source, destination, length):
    if source.version == 4:
        return source.packed + destination.packed + struct.pack(">BBH", 0, 6, length)
    return source.packed + destination.packed + struct.pack(">I3xB", length, 6)


def ip_header(source, destination, length, protocol=6):
    if source.version == 6:
        return struct.pack(">IHBB", 6 << 28, length, protocol, 64) + source.packed + destination.packed
    front, behind = struct.pack(">BBHHHBB", 0x45, 0, 20 + length, 0, 0, 64, protocol), source.packed + destination.packed
    return front + struct.pack(">H", 0xFFFF ^ sum16(front + behind)) + behind


@dataclasses.dataclass(frozen=True)
class Segment:
    """A segment of TCP; `options` are its bytes, in which TCP-AO stands at `ao` with so many bytes of MAC, if it is there, alone, and without
    TCP MD5."""

    source: tuple
    destination: tuple
    sequence: int
    acknowledgement: int
    flags: int
    options: bytes
    payload: bytes
    ao: int | None = None
    window: int = 500

    @property
    def ids(self):
        """Its KeyID and RNextKeyID."""
        return None if self.ao is None else (self.options[self.ao + 2], self.options[self.ao + 3])

    @property
    def length(self):
        """How many sequence numbers it takes."""
        return len(self.payload) + bool(self.flags & SYN) + bool(self.flags & FIN)

    @property
    def mac(self):
        return self.options[self.ao + 4 : self.ao + self.options[self.ao + 1]]

    def with_mac(self, code):
        start = self.ao + 4
        return dataclasses.replace(self, options=self.options[:start] + code + self.options[start + len(code) :])

    def header(self, checksum):
        ports, offset = (self.source[1], self.destination[1]), (20 + len(self.options)) // 4 << 4
        return struct.pack(">HHIIBBHHH", *ports, self.sequence, self.acknowledgement, offset, self.flags, self.window, checksum, 0)

    def pseudo(self):
        return pseudo_header(self.source[0], self.destination[0], 20 + len(self.options) + len(self.payload))

    def datagram(self):
        checksum = 0xFFFF ^ sum16(self.pseudo() + self.header(0) + self.options + self.payload)
        whole = self.header(checksum) + self.options + self.payload
        return ip_header(self.source[0], self.destination[0], len(whole)) + whole

    def right_mac(self, row, isns, extension):
        """Its MAC under a row, with the initial sequence numbers of its source and destination."""
        zeroed = self.with_mac(bytes(len(self.mac)))
        option = zeroed.options[self.ao : self.ao + zeroed.options[self.ao + 1]]
        context = self.source[0].packed + self.destination[0].packed + struct.pack(">HHII", self.source[1], self.destination[1], *isns)
        covered = zeroed.options if row.covers_options else option
        message = struct.pack(">I", extension) + self.pseudo() + self.header(0) + covered + self.payload
        return mac(row.algorithm, traffic_key(row.algorithm, row.master, context), message)


def segment(source, destination, sequence, acknowledgement, flags, ids, mac_length, payload=b"", front=b"\x01\x01"):
    """A segment whose MAC is zeros yet; without ids it has no TCP-AO option."""
    options = front + (bytes([29, 4 + mac_length, *ids]) + bytes(mac_length) if ids else b"")
    options += bytes([0] * (-len(options) % 4))
    ao = len(front) if ids else None
    return Segment(source, destination, sequence % LAP, acknowledgement % LAP, flags, options, payload, ao)


def signed(it, row, isns, extension=0):
    return it.with_mac(it.right_mac(row, isns, extension))
