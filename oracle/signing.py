"""Segments, and how their MAC is made, step by step, from RFC 5925 (sections 5.1 and 5.2) and RFC 5926 (section 3); HMAC-SHA-256-128 is
this project's own. Each step is a field of `Signing`, so that a sender can be mistaken in one of them.
"""
import dataclasses
import hmac
import struct

import aes_cmac
from vectors_sha256 import context_bytes, ip_header, pseudo_header, sum16, tcp_header

FIN, SYN, RST, PSH, ACK = 1, 2, 4, 8, 16
RING = 2**32


@dataclasses.dataclass(frozen=True)
class Algorithm:
    """An algorithm by its two names in a key file, with the lengths of its traffic key and of its MAC in bytes."""

    kdf: str
    name: str
    key_length: int
    mac_length: int


ALGORITHMS = {
    "sha1": Algorithm("HMAC-SHA-1", "HMAC-SHA-1-96", 20, 12),
    "cmac": Algorithm("AES-128-CMAC", "AES-128-CMAC-96", 16, 12),
    "sha256": Algorithm("HMAC-SHA-256", "HMAC-SHA-256-128", 32, 16),
}


@dataclasses.dataclass(frozen=True)
class Socket:
    address: bytes
    port: int


@dataclasses.dataclass(frozen=True)
class Segment:
    """A segment before it is signed. Its number counts laps; `front` and `behind` are the options on either side of TCP-AO."""

    source: Socket
    destination: Socket
    number: int
    acknowledges: int
    flags: int
    ids: tuple[int, int]
    front: bytes = b""
    behind: bytes = b""
    payload: bytes = b""
    window: int = 512

    @property
    def ports(self):
        return self.source.port, self.destination.port

    def ao(self, mac):
        """The TCP-AO option with this MAC."""
        return bytes([29, 4 + len(mac), *self.ids]) + mac

    def options(self, mac):
        """All its options, with this MAC."""
        return self.front + self.ao(mac) + self.behind

    def with_stamp(self, word):
        """The same with these last two bytes of its timestamps, which stand in `front` or `behind`."""
        name = "behind" if self.behind else "front"
        return dataclasses.replace(self, **{name: getattr(self, name)[:-2] + struct.pack(">H", word)})

    def header(self, options, checksum):
        """The TCP header in front of these options, which tell the data offset."""
        return tcp_header(self.ports, self.number % RING, self.acknowledges % RING, self.flags, self.window, options, checksum)

    def pseudo(self, options):
        return pseudo_header(self.source.address, self.destination.address, 20 + len(options) + len(self.payload))

    def checksum(self, options):
        return 0xFFFF ^ sum16(self.pseudo(options) + self.header(options, 0) + options + self.payload)

    def datagram(self, ao, checksum=None):
        """Its bytes with this TCP-AO option, or what stands in its place; the checksum is right unless it is given."""
        options = self.front + ao + self.behind
        checksum = self.checksum(options) if checksum is None else checksum
        length = 20 + len(options) + len(self.payload)
        return ip_header(self.source.address, self.destination.address, length) + self.header(options, checksum) + options + self.payload


@dataclasses.dataclass(frozen=True)
class Signing:
    """How a MAC is made. `isns` are the source's and the destination's; `bits` is the output length as the key derivation is told it, and `sends`
    how many bytes of the MAC are sent, where they aren't as many as the algorithm says."""

    algorithm: str
    master: bytes
    covers_options: bool
    source: Socket
    destination: Socket
    isns: tuple[int, int]
    bits: int
    extension: int
    has_pseudo: bool = True
    checksum: int = 0
    in_its_place: bytes | None = None
    takes_last: bool = False
    sends: int | None = None

    @property
    def mac_length(self):
        return ALGORITHMS[self.algorithm].mac_length if self.sends is None else self.sends

    def traffic_key(self):
        ports = (self.source.port, self.destination.port)
        context = context_bytes(self.source.address, self.destination.address, ports, self.isns)
        message = b"\x01TCP-AO" + context + struct.pack(">H", self.bits)
        return derived(self.algorithm, self.master, message)

    def message(self, segment):
        """What the MAC is computed over; zeros stand in its place unless something else is given."""
        zeros = bytes(self.mac_length)
        ao = segment.ao(zeros if self.in_its_place is None else self.in_its_place)
        every = segment.front + ao + segment.behind
        pseudo = segment.pseudo(every) if self.has_pseudo else b""
        covered = every if self.covers_options else ao
        return struct.pack(">I", self.extension % RING) + pseudo + segment.header(every, self.checksum) + covered + segment.payload

    def mac(self, segment):
        whole = code(self.algorithm, self.traffic_key(), self.message(segment))
        return whole[-self.mac_length :] if self.takes_last else whole[: self.mac_length]

    def but(self, **changes):
        """The same, but for these fields."""
        return dataclasses.replace(self, **changes)


def derived(algorithm, master, message):
    """The pseudo-random function of the key derivation (RFC 5926, section 3.1)."""
    return aes_cmac.prf(master, message) if algorithm == "cmac" else hmac.digest(master, message, algorithm)


def code(algorithm, key, message):
    """The whole MAC (RFC 5926, section 3.2)."""
    return aes_cmac.cmac(key, message) if algorithm == "cmac" else hmac.digest(key, message, algorithm)


def right_signing(row, segment, isns):
    """How a segment is to be signed under a row, whose algorithm, master key and option flag count (RFC 5925, section 5.1)."""
    bits = 8 * ALGORITHMS[row.algorithm].key_length
    return Signing(
        row.algorithm, row.master, row.covers_options, segment.source, segment.destination, isns, bits, segment.number // RING
    )


def signed(segment, signing):
    """A segment's bytes with the MAC that is made so."""
    return segment.datagram(segment.ao(signing.mac(segment)))
