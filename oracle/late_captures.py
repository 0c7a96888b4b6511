"""Captures whose beginning wasn't seen, and sessions laps later than their given numbers, with the outcome of each segment as docs/FORMATS.md has it."""
import dataclasses
import ipaddress

from key_rows import Node, Row, key_file
from sessions import ADDRESSES, CLIENT, IDS, MASTERS, OLD_MASTERS, PORTS, SEEN, SERVER, Capture, Scene
from signing import ACK, PSH, RING, SYN, Segment, signed

OTHER_ISN = 3_000_000_000


@dataclasses.dataclass(frozen=True)
class TwoRows(Scene):
    """A scene whose nodes have two rows, the old one in force as the new one is."""

    @property
    def server(self):
        peers = (ADDRESSES[self.family, CLIENT],)
        old = Row("old", self.algorithm, OLD_MASTERS[self.algorithm], self.covers_options, *IDS["old"], peers)
        return Node(SERVER, ADDRESSES[self.family, SERVER], (old, self.row(self.algorithm, peers)))

    @property
    def client(self):
        rows = tuple(row.mirrored(self.server.address) for row in self.server.rows)
        return Node(CLIENT, ADDRESSES[self.family, CLIENT], rows)

    def data(self, end, start, payload, name=None, answers=1, isns=None):
        """Bytes from an end, the first of which stands so far behind its initial sequence number; `answers`: how far what it acknowledges stands
        behind the other's."""
        own, other = (isns or self.isns)[:: 1 if end == CLIENT else -1]
        return self.segment(end, own + start, other + answers, PSH | ACK, payload, name)


@dataclasses.dataclass(frozen=True)
class Seen:
    """A packet, and what comes of it."""

    segment: Segment
    packet: bytes
    outcome: str


@dataclasses.dataclass(frozen=True)
class Late:
    """A capture. `given`: its session's initial sequence numbers are given; `laps`: over how many laps the extension is searched, if it is said."""

    name: str
    scene: TwoRows
    seen: list[Seen]
    given: bool = False
    laps: int | None = None
    is_json: bool = False

    @property
    def nodes(self):
        return self.scene.client, self.scene.server

    @property
    def keys(self):
        return key_file(self.nodes)

    @property
    def pcap(self):
        return Capture(self.name, self.nodes, [it.packet for it in self.seen], 0, "").pcap

    @property
    def isns(self):
        """The lines of --isn."""
        ends = zip((CLIENT, SERVER), self.scene.isns)
        words = [f"{ipaddress.ip_address(ADDRESSES[self.scene.family, end])} {PORTS[end]} {isn}" for end, isn in ends]
        return " ".join(words) + "\n" if self.given else ""

    @property
    def words(self):
        laps = [] if self.laps is None else ["--laps", str(self.laps)]
        return ["sessions", "KEYS", *(["--isn", "ISNS"] if self.given else []), *laps, *(["--json"] if self.is_json else [])]

    @property
    def uses(self):
        """The segments of each direction with each KeyID of which the same comes, in the order of the first of each."""
        uses = {}
        for n, it in enumerate(self.seen):
            kind = it.segment.source, it.segment.destination, it.segment.ids[0], it.outcome
            use = uses.setdefault(kind, Use(*kind, SEEN + n))
            use.segments, use.last, use.asks = use.segments + 1, SEEN + n, it.segment.ids[1]
            use.opens |= it.segment.flags & (SYN | ACK) == SYN | ACK
        return list(uses.values())


@dataclasses.dataclass
class Use:
    source: object
    destination: object
    key_id: int
    outcome: str
    first: int
    last: int = 0
    segments: int = 0
    asks: int = 0
    opens: bool = False


def right(scene, segment, outcome, isns=None):
    """A segment with its right MAC."""
    return Seen(segment, scene.signed([segment], isns=isns)[0], outcome)


def wrong(scene, segment, outcome):
    """A segment whose last byte was altered."""
    packet = right(scene, segment, outcome).packet
    return Seen(segment, packet[:-1] + bytes([packet[-1] ^ 1]), outcome)


def under_another_key(scene, segment, outcome):
    """A segment that is signed with a key that no row has."""
    another = bytes(byte ^ 0xFF for byte in MASTERS[scene.algorithm])
    return Seen(segment, signed(segment, scene.signing(segment).but(master=another)), outcome)



def client_alone(scene):
    """The client's side: its SYN, its ACK, bytes under the old key and then the new one, of which one packet is altered."""
    syn, _, ack = scene.opening(name="old")
    first, more = scene.data(CLIENT, 1, b"from r1 under the old key\n", "old"), scene.data(CLIENT, 27, b"and more\n", "old")
    altered, new = scene.data(CLIENT, 36, b"under the new key\n"), scene.data(CLIENT, 36, b"Under the new key\n")
    return [
        right(scene, syn, "verified"),
        right(scene, ack, "unconfirmed"),
        right(scene, first, "unconfirmed"),
        right(scene, more, "unconfirmed"),
        wrong(scene, altered, "unconfirmed-bad-mac"),
        right(scene, new, "unconfirmed"),
    ]


def server_alone(scene):
    """The server's side: its SYN with ACK tells both initial sequence numbers."""
    data = [scene.data(SERVER, 1, b"from r2\n", answers=26), scene.data(SERVER, 9, b"and more\n", answers=26)]
    return [right(scene, it, "verified") for it in [scene.opening()[1], *data]]


def refused_syn_ack(scene):
    """Both sides, where the SYN with ACK is signed with another key."""
    syn, syn_ack, ack = scene.opening()
    rest = [ack, scene.data(CLIENT, 1, b"from r1\n"), scene.data(SERVER, 1, b"from r2\n", answers=9)]
    return [
        right(scene, syn, "verified"),
        under_another_key(scene, syn_ack, "bad-mac"),
        *(right(scene, it, "unconfirmed") for it in rest),
    ]


def first_ack_missing(scene):
    """The client's side, where the first ACK behind the SYN acknowledges more than the other's SYN: the number that it tells is wrong."""
    late = [scene.data(CLIENT, 1, b"late\n", answers=101), scene.data(CLIENT, 6, b"later\n", answers=201)]
    return [right(scene, scene.opening()[0], "verified"), *(right(scene, it, "unconfirmed-bad-mac") for it in late)]


def opened_twice(scene):
    """The client's side of two connections between the same sockets, one after the other."""
    isns = OTHER_ISN, scene.isns[1] + 70_000
    syn, _, ack = scene.opening()
    again, _, ack_again = scene.opening(isns)
    return [
        right(scene, syn, "verified"),
        right(scene, ack, "unconfirmed"),
        right(scene, again, "verified", isns),
        right(scene, ack_again, "unconfirmed", isns),
        right(scene, scene.data(CLIENT, 1, b"anew\n", isns=isns), "unconfirmed", isns),
    ]


def middle(scene):
    """Both sides without any handshake."""
    return [right(scene, it, "no-context") for it in (scene.data(CLIENT, 1, b"from r1\n"), scene.data(SERVER, 1, b"from r2\n", answers=9))]


def laps_on(scene, client, server):
    """The middle of a session, the client's numbers two laps on and the server's one, with what comes of each side."""
    of_client = [scene.data(CLIENT, 2 * RING + start, b"from r1\n", answers=RING + 5000) for start in (7000, 7008, 7016)]
    of_server = [scene.data(SERVER, RING + start, b"from r2\n", answers=2 * RING + 7024) for start in (5000, 5008)]
    return [*(right(scene, it, client) for it in of_client), *(right(scene, it, server) for it in of_server)]


def half_a_lap_on(scene, outcome):
    """The client's side of a session in its first lap, so far on that the number expected lies nearer to a number below 0."""
    return [right(scene, scene.data(CLIENT, RING // 2 + start, b"from r1\n"), outcome) for start in (500, 508)]


def over_the_lap(scene, outcomes):
    """The middle of a session, its numbers more than a lap and a half on, which go over the ring's end meanwhile."""
    behind = RING - scene.isns[0] % RING
    starts = behind - 12, behind - 4, behind + 4
    return [right(scene, scene.data(CLIENT, RING + start, b"from r1\n"), outcome) for start, outcome in zip(starts, outcomes)]


def captures_of(family, algorithm):
    """All captures of a family of addresses and an algorithm."""
    scene = TwoRows(family, algorithm)
    return [
        Late("unconfirmed-one-side", scene, client_alone(scene)),
        Late("unconfirmed-one-side-json", scene, client_alone(scene), is_json=True),
        Late("one-side-server", scene, server_alone(scene)),
        Late("refused-syn-ack", scene, refused_syn_ack(scene)),
        Late("unconfirmed-first-ack-missing", scene, first_ack_missing(scene)),
        Late("unconfirmed-opened-twice", scene, opened_twice(scene)),
        Late("no-beginning", scene, middle(scene)),
        Late("laps", scene, laps_on(scene, "verified", "verified"), given=True, laps=2),
        Late("laps-many", scene, laps_on(scene, "verified", "verified"), given=True, laps=255),
        Late("laps-too-few", scene, laps_on(scene, "bad-mac", "verified"), given=True, laps=1),
        Late("laps-none", scene, laps_on(scene, "bad-mac", "bad-mac"), given=True),
        Late("laps-half-on", scene, half_a_lap_on(scene, "verified"), given=True, laps=1),
        Late("range", scene, half_a_lap_on(scene, "range"), given=True),
        Late("over-the-lap", scene, over_the_lap(scene, ["verified"] * 3), given=True, laps=2),
        Late("over-the-lap-too-few", scene, over_the_lap(scene, ["range", "range", "bad-mac"]), given=True, laps=1),
    ]


# the captures that stand in examples/, with the family and the algorithm of each
EXAMPLES = {
    "unconfirmed-one-side": (4, "sha1"),
    "unconfirmed-one-side-json": (4, "sha1"),
    "one-side-server": (6, "sha256"),
    "refused-syn-ack": (4, "cmac"),
    "unconfirmed-first-ack-missing": (6, "cmac"),
    "laps": (4, "sha1"),
    "laps-too-few": (4, "sha1"),
    "laps-none": (4, "sha1"),
    "laps-half-on": (6, "sha1"),
}


def for_examples():
    return [next(it for it in captures_of(*kind) if it.name == name) for name, kind in EXAMPLES.items()]
