"""Random captures of nodes that speak TCP-AO, from a seed: key files with rollovers, connections of which some don't change their key, end or begin
again, and what may come between: replays, forgeries, a side or a beginning that wasn't seen, packets cut or lost, a clock that is set back, others'
traffic."""
import dataclasses
import ipaddress
import random
import struct
import time

from tcp_ao import ACK, ALGORITHMS, FIN, LAP, PSH, RST, SYN, ip_header, segment, signed

NOW, FIRST, LAST = 1_800_000_000, 0, 253_402_300_799


@dataclasses.dataclass(frozen=True)
class Row:
    recv: int
    send: int
    peers: tuple
    algorithm: str
    master: bytes
    covers_options: bool
    sending: tuple
    accepting: tuple
    ports: tuple = (None, None)


@dataclasses.dataclass
class Node:
    name: str
    address: object
    rows: list = dataclasses.field(default_factory=list)


def shown(address):
    return str(address) if address.version == 4 else address.packed.hex()


def instant(seconds):
    return time.strftime("%Y%m%d%H%M%SZ", time.gmtime(seconds))


def key_file(nodes):
    lines = []
    for node in nodes:
        lines += ["[[node]]", f'name = "{node.name}"', f'address = "{shown(node.address)}"']
        for n, row in enumerate(node.rows, 1):
            peers = ", ".join(f'"{it if it == "any" else shown(it)}"' for it in row.peers)
            lines += ["[[node.key]]", f'AdminKeyName = "{n}"', f'LocalKeyName = "{row.recv}"', f'PeerKeyName = "{row.send}"', f"Peers = [{peers}]"]
            lines += ['Protocol = "TCP-AO"', f'ProtocolSpecificInfo = "{"options" if row.covers_options else "no-options"}"']
            lines += [f'KDF = "{ALGORITHMS[row.algorithm][0]}"', f'AlgID = "{row.algorithm}"', f'Key = "{row.master.hex()}"', 'Direction = "both"']
            for name, (start, end) in (("Send", row.sending), ("Accept", row.accepting)):
                lines += [f'{name}LifetimeStart = "{instant(start)}"'] * (start > FIRST) + [f'{name}LifetimeEnd = "{instant(end)}"'] * (end < LAST)
            lines += [f'{name} = "{port}"' for name, port in zip(("LocalPort", "PeerPort"), row.ports) if port is not None]
    return "\n".join(lines) + "\n"


class Network:
    """A hub with one to three peers, with an old row and a new one for each, or for all of them; the old may end, and the new too early."""

    def __init__(self, draw):
        self.draw, self.second = draw, NOW
        front = "10.0.0." if draw.random() < 0.7 else "2001:db8::"
        address = lambda n: ipaddress.ip_address(f"{front}{n}")
        self.hub = Node("hub", address(1))
        self.peers = [Node(f"r{n}", address(n)) for n in range(2, draw.randint(2, 4) + 1)]
        groups = [self.peers] if draw.random() < 0.5 else [[it] for it in self.peers]
        for g, group in enumerate(groups):
            for age in (0, 1):
                self.add_rows(group, 10 * g + 3 * age, age)

    def lifetime(self, age):
        draw, end = self.draw, LAST
        if age == 0 and draw.random() < 0.4:
            end = NOW + draw.choice((200, 900, 100_000))
        if age == 1 and draw.random() < 0.15:
            end = NOW + draw.choice((2000, 200_000))
        return (FIRST if age == 0 else NOW - draw.choice((NOW, 100))), end

    def add_rows(self, group, number, age):
        draw = self.draw
        algorithm, sending = draw.choice(sorted(ALGORITHMS)), self.lifetime(age)
        ids = (number + 1, number + 2) if draw.random() < 0.6 else (number + 1, number + 1)
        ports = (179, None) if draw.random() < 0.15 else (None, None)
        accepting = (max(0, sending[0] - 600), min(LAST, sending[1] + 600))
        peers = ("any",) if len(group) == len(self.peers) and draw.random() < 0.15 else tuple(it.address for it in group)
        row = Row(*ids, peers, algorithm, draw.randbytes(draw.choice((16, 20, 7))), draw.random() < 0.7, sending, accepting, ports)
        self.hub.rows.append(row)
        for peer in group:
            master = row.master if draw.random() < 0.97 else draw.randbytes(16)
            own = ("any",) if draw.random() < 0.1 else (self.hub.address,)
            peer.rows.append(dataclasses.replace(row, recv=ids[1], send=ids[0], peers=own, master=master, ports=ports[::-1]))

    @property
    def listed(self):
        """The nodes of the key file: mostly all."""
        return [self.hub] + [it for it in self.peers if self.draw.random() < 0.85]


class End:
    def __init__(self, network, node, socket, remote, rows):
        self.network, self.node, self.socket, self.remote, self.rows = network, node, socket, remote, rows
        draw = network.draw
        self.isn = draw.choice((draw.randrange(LAP), LAP - draw.randint(2, 60)))
        self.next, self.uses, self.asks = self.isn, 0, 0
        self.far = None
        self.sent = []
        self.is_slow = draw.random() < 0.1

    def row(self):
        """The row that it uses, or the other one where that may send no more; none, where neither may. A slow clock ends none."""
        may = lambda it: it.sending[0] <= self.network.second and (self.is_slow or self.network.second <= it.sending[1])
        able = [it for it in (self.rows[self.uses], *self.rows) if may(it)]
        return able[0] if able else None

    def make(self, flags, payload=b"", sequence=None):
        """A segment from this end, signed with the row that it uses; none, where none may send."""
        row, at = self.row(), self.next if sequence is None else sequence
        if row is None:
            return None
        ids = (row.send, self.rows[self.asks].recv)
        it = segment(self.socket, self.remote, at, self.far.next if flags & ACK else 0, flags, ids, ALGORITHMS[row.algorithm][2], payload)
        if sequence is None:
            self.next += it.length
        return signed(it, row, (self.isn, self.far.isn if flags & ACK else 0), at // LAP)


def opened(draw, network, peer, ports, key):
    """The two ends of a connection, the opening one first."""
    mine = [it for it in network.hub.rows if it.peers == ("any",) or peer.address in it.peers]
    sides = [(network.hub, mine, 179), (peer, peer.rows, ports)]
    hub, other = [(node, (node.address, port), rows) for node, rows, port in sides]
    ends = [End(network, node, socket, remote, rows) for (node, socket, rows), (_, remote, _) in ((other, hub), (hub, other))]
    ends[0].far, ends[1].far = ends[1], ends[0]
    for it in ends:
        it.uses = it.asks = key
    return ends


def handshake(ends):
    yield ends[0].make(SYN)
    yield ends[1].make(SYN | ACK)
    yield ends[0].make(ACK)


def talk(draw, ends, most):
    """Data of both ends, ACKs alone, and data sent again."""
    for _ in range(draw.randint(1, most)):
        end = draw.choice(ends)
        kind = draw.random()
        if kind < 0.15:
            yield end.make(ACK)
        elif kind < 0.25 and end.sent:
            yield end.make(PSH | ACK, end.sent[-1][1], end.sent[-1][0])
        else:
            end.sent.append((end.next, draw.randbytes(draw.randint(1, 20))))
            yield end.make(PSH | ACK, end.sent[-1][1])


def rollover(draw, ends):
    """One end asks for the new row, the other sends with it, and then the first does; sometimes one of them stays behind."""
    first, other = draw.sample(ends, 2)
    first.asks = 1
    yield from talk(draw, [first], 2)
    other.uses, other.asks = 1, int(draw.random() < 0.95)
    yield from talk(draw, [other] if draw.random() < 0.7 else ends, 2)
    first.uses = int(draw.random() < 0.92)
    yield from talk(draw, ends, 8)


def ending(draw, ends):
    end = draw.choice(ends)
    if draw.random() < 0.4:
        yield end.make(RST | ACK)
        return
    yield end.make(FIN | ACK)
    if draw.random() < 0.7:
        yield end.far.make(FIN | ACK)
        yield end.make(ACK)


def connection(draw, network, peer, ports):
    """All segments of the connections between two sockets."""
    key = int(draw.random() < 0.08)
    for _ in range(1 if draw.random() < 0.85 else 2):
        ends = opened(draw, network, peer, ports, key)
        yield from handshake(ends)
        yield from talk(draw, ends, 6)
        if key == 0 and draw.random() < 0.85:
            yield from rollover(draw, ends)
        if draw.random() < 0.08:
            back = draw.choice(ends)
            back.uses = back.asks = 0
            yield from talk(draw, ends, 3)
        if draw.random() < 0.12:
            yield from ending(draw, ends)
        key = draw.randint(0, 1)


# ---- what may come between


def forged(draw, packets):
    second, it = draw.choice([it for it in packets if it[1].ao is not None])
    flags = draw.choice((ACK, PSH | ACK, RST, RST | ACK, SYN, SYN | ACK, FIN | ACK))
    it = dataclasses.replace(it, flags=flags, sequence=(it.sequence + draw.randint(0, 3000)) % LAP, payload=draw.randbytes(draw.randint(0, 9)))
    return second, it.with_mac(draw.randbytes(len(it.mac)))


def between(draw, packets):
    """The packets with one kind of what may come between; most captures have none or one."""
    kind, n = draw.choice(("replay", "replay-many", "forge", "plain", "lost", "late", "side", "swap", "none")), len(packets)
    if kind in ("replay", "replay-many"):
        for _ in range(1 if kind == "replay" else 15):
            at = draw.randint(1, len(packets))
            packets.insert(draw.randint(at, len(packets)), packets[draw.randrange(at)])
    elif kind == "forge":
        for _ in range(draw.randint(1, 5)):
            packets.insert(draw.randint(1, len(packets)), forged(draw, packets))
    elif kind == "plain":
        second, it = draw.choice(packets)
        packets.insert(draw.randint(0, n), (second, segment(it.source, it.destination, it.sequence, 0, RST, None, 0, b"", b"")))
    elif kind == "lost":
        packets = [it for it in packets if draw.random() > 0.06] or packets
    elif kind == "late":
        packets = packets[draw.randint(1, max(1, n // 2)) :] or packets
    elif kind == "side":
        source = draw.choice(packets)[1].source
        packets = [it for it in packets if it[1].source != source] or packets
    elif kind == "swap":
        for _ in range(4):
            at = draw.randrange(max(1, n - 1))
            packets[at : at + 2] = packets[at : at + 2][::-1]
    return packets


def other_traffic(draw, link):
    if link == 1 and draw.random() < 0.5:
        return None, b"\x08\x06" + draw.randbytes(28)
    source, destination = (ipaddress.ip_address(f"10.9.{draw.randrange(9)}.{n}") for n in (1, 2))
    if draw.random() < 0.5:
        return ip_header(source, destination, 8, 17) + struct.pack(">HHHH", 53, 5353, 8, 0), None
    return segment((source, 4000), (destination, 80), 1, 1, ACK, None, 0, b"GET", b"").datagram(), None


def merged(draw, network, streams):
    """The segments of several connections with their seconds, each in its order."""
    while streams:
        stream = draw.choice(streams)
        network.second += draw.choice((0, 1, 1, 5, 60))
        it = next(stream, stream)
        if it is stream:
            streams.remove(stream)
        elif it is not None:
            yield network.second, it


def kept_of(draw, whole, payload, cut):
    """What the snapshot keeps of a packet: now and then all but a part of its payload, or anything less."""
    if cut == "payload" and payload and draw.random() < 0.4:
        return whole[: len(whole) - draw.randint(1, payload)]
    return whole[: draw.randint(0, len(whole) - 1)] if cut == "anywhere" and draw.random() < 0.05 else whole


def capture(seed):
    """A key file and a capture as a classic pcap file."""
    draw = random.Random(seed)
    network = Network(draw)
    ends = [(peer, 40_000 + n) for n, peer in enumerate(network.peers) if draw.random() < 0.93 or n == 0]
    ends += [(peer, port + 100) for peer, port in ends if draw.random() < 0.2]
    packets = list(merged(draw, network, [connection(draw, network, *it) for it in ends]))
    for _ in range(draw.choice((0, 0, 0, 1, 1, 2))):
        packets = between(draw, packets)
    link, latest, late, back = draw.choice((1, 101)), NOW, 0, draw.randrange(len(packets)) if draw.random() < 0.15 else None
    file = struct.pack("<IHHIIII", 0xA1B2C3D4, 2, 4, 0, 0, 262_144, link)
    cut, others = draw.choice(("payload", "payload", "anywhere") + (None,) * 17), draw.random() < 0.2
    for n, (second, it) in enumerate(packets):
        late = draw.randint(30, 900) if n == back else late
        latest = max(latest, second)
        shown_now = [(it.datagram(), None)] + [other_traffic(draw, link)] * (others and draw.random() < 0.1)
        for datagram, frame in shown_now:
            kind = b"\x86\xdd" if datagram and datagram[0] >> 4 == 6 else b"\x08\x00"
            whole = datagram if link == 101 else bytes(12) + (frame or kind + datagram)
            kept = kept_of(draw, whole, len(it.payload) if datagram == it.datagram() else 0, cut)
            file += struct.pack("<IIII", latest - late, draw.randrange(10**6), len(kept), len(whole)) + kept
    return key_file(network.listed), file
