"""Sessions between a client and a server whose segments are right, for captures in which one segment then isn't."""
import dataclasses
import struct

from key_rows import Node, Row, key_file
from signing import ACK, ALGORITHMS, PSH, SYN, Segment, Signing, Socket, right_signing, signed
from single_changes import Question

CLIENT, SERVER = "r1", "r2"
ADDRESSES = {
    (4, CLIENT): bytes([10, 0, 0, 1]),
    (4, SERVER): bytes([10, 0, 0, 2]),
    (6, CLIENT): bytes.fromhex("20010db8000000000000000000000001"),
    (6, SERVER): bytes.fromhex("20010db8000000000000000000000002"),
}
PORTS = {CLIENT: 50_000, SERVER: 179}
MASTERS = {
    "sha1": bytes.fromhex("a1b2c3d4e5f60718293a4b5c6d7e8f9001122334"),
    "cmac": bytes.fromhex("2b7e151628aed2a6abf7158809cf4f3c"),
    "sha256": bytes.fromhex("603deb1015ca71be2b73aef0857d77811f352c073b6108d72d9810a30914dff4"),
}
OLD_MASTERS = {name: bytes(byte ^ 0x5A for byte in master) for name, master in MASTERS.items()}
# The KeyIDs that the server receives and sends.
IDS = {"sha1": (10, 20), "cmac": (11, 21), "sha256": (12, 22), "old": (5, 15)}
SEEN = 1_700_000_000
LONG_AGO = (1_500_000_000, 1_600_000_000)
REQUEST = b"thirty bytes, asked for by r1\n"
REPLY = b"what r2 answers, of another length"


@dataclasses.dataclass(frozen=True)
class Scene:
    """What a session has of its own. `ao_first`: TCP-AO stands in front of the other options. `master` is None: one of MASTERS."""

    family: int
    algorithm: str
    covers_options: bool = True
    ao_first: bool = False
    master: bytes | None = None
    isns: tuple[int, int] = (1_653_072_773, 2_214_592_511)

    @property
    def server(self):
        """The server with a row of each algorithm, and an old one of the scene's."""
        peers = (ADDRESSES[self.family, CLIENT],)
        rows = [self.row(name, peers) for name in ALGORITHMS]
        old = Row("old", self.algorithm, OLD_MASTERS[self.algorithm], self.covers_options, *IDS["old"], peers)
        rows.append(old.but(sending=LONG_AGO, accepting=LONG_AGO))
        return Node(SERVER, ADDRESSES[self.family, SERVER], tuple(rows))

    @property
    def client(self):
        """The client with the same rows, the last one first."""
        server = self.server
        rows = tuple(row.mirrored(server.address) for row in reversed(server.rows))
        return Node(CLIENT, ADDRESSES[self.family, CLIENT], rows)

    @property
    def nodes(self):
        return {CLIENT: self.client, SERVER: self.server}

    def row(self, name, peers):
        own = name == self.algorithm
        master = self.master if own and self.master is not None else MASTERS[name]
        return Row(f"of {name}", name, master, self.covers_options == own, *IDS[name], peers)

    def socket(self, end):
        return Socket(ADDRESSES[self.family, end], PORTS[end])

    def segment(self, end, number, acknowledges, flags, payload=b"", name=None):
        """A segment that this end sends, under the row of an algorithm or the old one."""
        ids = IDS[name or self.algorithm]
        stamps = struct.pack(">II", 70_000 + number % 1000, 0 if flags == SYN else 60_000)
        others = b"\x02\x04\x05\xb4\x04\x02" if flags & SYN else b"\x01\x01"
        others += b"\x08\x0a" + stamps
        return Segment(
            self.socket(end),
            self.socket(SERVER if end == CLIENT else CLIENT),
            number,
            acknowledges,
            flags,
            ids if end == CLIENT else ids[::-1],
            b"" if self.ao_first else others,
            others if self.ao_first else b"",
            payload,
        )

    def opening(self, isns=None, name=None):
        """SYN, SYN with ACK, and ACK."""
        own, other = isns or self.isns
        return [
            self.segment(CLIENT, own, 0, SYN, name=name),
            self.segment(SERVER, other, own + 1, SYN | ACK, name=name),
            self.segment(CLIENT, own + 1, other + 1, ACK, name=name),
        ]

    def request(self, payload=REQUEST, start=1, name=None):
        """Bytes from the client, the first of which stands so far behind its initial sequence number."""
        return self.segment(CLIENT, self.isns[0] + start, self.isns[1] + 1, PSH | ACK, payload, name)

    def reply(self):
        return self.segment(SERVER, self.isns[1] + 1, self.isns[0] + 1 + len(REQUEST), PSH | ACK, REPLY)

    def up_to(self, place):
        """The segments of a session up to that at a place of PLACES."""
        return [*self.opening(), self.request(), self.reply()][: PLACES.index(place) + 1]

    def sent_by(self, segment):
        return CLIENT if segment.source == self.socket(CLIENT) else SERVER

    def ends_of(self, segment):
        """The nodes that a segment comes from and goes to."""
        client, server = self.client, self.server
        return (client, server) if self.sent_by(segment) == CLIENT else (server, client)

    def isns_of(self, segment, isns=None):
        """The initial sequence numbers of a segment's source and destination; a SYN knows its own."""
        if segment.flags & (SYN | ACK) == SYN:
            return segment.number, 0
        own, other = isns or self.isns
        return (own, other) if self.sent_by(segment) == CLIENT else (other, own)

    def signing(self, segment, nodes=None, isns=None) -> Signing:
        """How a segment is to be signed: as the row says that receives it."""
        receiver = SERVER if self.sent_by(segment) == CLIENT else CLIENT
        _, row = (nodes or self.nodes)[receiver].receiving(segment.ids[0])
        return right_signing(row, segment, self.isns_of(segment, isns))

    def signed(self, segments, nodes=None, isns=None):
        """The segments as bytes, each with its right MAC."""
        return [signed(segment, self.signing(segment, nodes, isns)) for segment in segments]


PLACES = ("syn", "syn-ack", "ack", "request", "reply")


@dataclasses.dataclass(frozen=True)
class Capture:
    """Packets of which one isn't right, with the nodes that judge them. `said` are the words of `check` of that packet. Where it is a mistake of
    signing `line` is the line of `why` that names it, and `question` knows all lines that are true; else `tells` is how a line of `why` begins, and
    what it has further on. `example` is a folder's name."""

    name: str
    nodes: tuple[Node, ...]
    packets: list[bytes]
    number: int
    said: str
    line: str | None = None
    question: Question | None = None
    tells: tuple[str, str] | None = None
    is_framed: bool = False
    example: str | None = None

    @property
    def keys(self):
        return key_file(self.nodes)

    @property
    def pcap(self):
        """A classic file in microseconds; a packet has a frame of Ethernet around it, or none."""
        link = 1 if self.is_framed else 101
        file = struct.pack("<IHHIIII", 0xA1B2C3D4, 2, 4, 0, 0, 262_144, link)
        for n, packet in enumerate(self.packets):
            kind = b"\x08\x00" if packet[0] >> 4 == 4 else b"\x86\xdd"
            packet = bytes.fromhex("020000000002020000000001") + kind + packet if self.is_framed else packet
            file += struct.pack("<IIII", SEEN + n, 250_000, len(packet), len(packet)) + packet
        return file
