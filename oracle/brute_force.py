"""Whether a row of a key file may go, by brute force over the packets of a capture: each MAC is tried under all that is known, and each packet is
looked at again for each question. What RFC 5925 and docs/FORMATS.md say is stated here anew."""
import calendar
import dataclasses
import functools
import ipaddress
import struct
import time
import tomllib

from random_captures import FIRST, LAST, Node, Row
from tcp_ao import ACK, ALGORITHMS, FIN, LAP, RST, SYN, Segment


def seconds(text, absent):
    return calendar.timegm(time.strptime(text, "%Y%m%d%H%M%SZ")) if text else absent


def address(text):
    return ipaddress.ip_address(bytes.fromhex(text) if len(text) == 32 else text)


def nodes_of(keys):
    """The nodes of a key file, as far as the maker writes any."""
    nodes = []
    for node in tomllib.loads(keys)["node"]:
        nodes.append(Node(node["name"], address(node["address"])))
        for it in node.get("key", ()):
            peers = tuple("any" if peer == "any" else address(peer) for peer in it["Peers"])
            lives = [(seconds(it.get(f"{name}LifetimeStart"), FIRST), seconds(it.get(f"{name}LifetimeEnd"), LAST)) for name in ("Send", "Accept")]
            ports = tuple(int(it[name]) if name in it else None for name in ("LocalPort", "PeerPort"))
            ids, covers = (int(it["LocalKeyName"]), int(it["PeerKeyName"])), it["ProtocolSpecificInfo"] == "options"
            nodes[-1].rows.append(Row(*ids, peers, it["AlgID"], bytes.fromhex(it["Key"]), covers, *lives, ports))
    return nodes


@dataclasses.dataclass
class Packet:
    """A packet with a segment. `isns` are those of its sender and receiver where it is verified, `row` the receiver's row, from 0, and `after` the
    number behind its last byte; `is_open` where what would judge it isn't known; `is_cut` where its headers alone are there."""

    number: int
    time: int
    it: Segment
    isns: tuple | None = None
    row: int | None = None
    after: int = 0
    is_fresh: bool = False
    is_copy: bool = False
    is_open: bool = False
    is_cut: bool = False

    @property
    def way(self):
        return self.it.source, self.it.destination


def options_of(area):
    """Where TCP-AO stands, if it is there once and without TCP MD5."""
    found, at, has_md5 = [], 0, False
    while at < len(area) and area[at] != 0:
        length = 1 if area[at] == 1 else area[at + 1]
        found += [at] * (area[at] == 29)
        has_md5 |= area[at] == 19
        at += length
    return found[0] if len(found) == 1 and not has_md5 else None


def segment_of(data):
    """The segment that a whole datagram has, if it is TCP."""
    long = data[0] >> 4 == 6
    front, addresses = (40, data[8:40]) if long else (20, data[12:20])
    if data[6 if long else 9] != 6:
        return None
    half, tcp = len(addresses) // 2, data[front:]
    source, destination = ipaddress.ip_address(addresses[:half]), ipaddress.ip_address(addresses[half:])
    source_port, port, sequence, acknowledgement, offset, flags, window = struct.unpack(">HHIIBBH", tcp[:16])
    area = tcp[20 : (offset >> 4) * 4]
    payload = tcp[(offset >> 4) * 4 :]
    return Segment((source, source_port), (destination, port), sequence, acknowledgement, flags, area, payload, options_of(area), window)


def headers_of(data, missing):
    """The segment of a datagram of which so many bytes are missing at its end, where they are all of its payload."""
    if len(data) < (40 if data[:1] and data[0] >> 4 == 6 else 20) + 20:
        return None
    found = segment_of(data + bytes(missing))
    return found if found and len(found.payload) >= missing else None


def packets_of(file):
    """The packets that are segments, and whether one was cut in its headers."""
    link, at, number, packets, is_cut = struct.unpack("<I", file[20:24])[0], 24, 0, [], False
    while at < len(file):
        second, _, kept, whole = struct.unpack("<IIII", file[at : at + 16])
        frame, number, at = file[at + 16 : at + 16 + kept], number + 1, at + 16 + kept
        if link == 1 and len(frame) >= 14 and frame[12:14] not in (b"\x08\x00", b"\x86\xdd"):
            is_cut |= kept < whole
            continue
        data = frame[14:] if link == 1 else frame
        found = headers_of(data, whole - kept) if kept < whole else segment_of(data)
        is_cut |= kept < whole and found is None
        packets += [Packet(number, second, found, is_cut=kept < whole)] if found else []
    return packets, is_cut


def matches(row, own, other):
    """The row is for these two sockets, the first of which is its node's."""
    peers = "any" in row.peers or other[0] in row.peers
    return peers and all(wanted in (None, port) for wanted, port in zip(row.ports, (own[1], other[1])))


def contains(lifetime, second):
    return lifetime[0] <= second <= lifetime[1]


class Judge:
    """A capture and a key file, with each MAC tried."""

    def __init__(self, keys, file):
        self.nodes = nodes_of(keys)
        self.packets, self.is_cut = packets_of(file)
        self.known = []
        for packet in self.packets:
            self.judge(packet)
        for packet in self.packets:
            packet.is_fresh, packet.is_copy = self.is_fresh(packet), self.is_copy(packet)

    def node(self, at):
        return next((it for it in self.nodes if it.address == at), None)

    def judge(self, packet):
        it = packet.it
        node = self.node(it.destination[0])
        if it.ids is None:
            return
        if node is None or packet.is_cut:
            packet.is_open = True
            return
        tries = self.tries(it)
        for isns in tries:
            for n, row in enumerate(node.rows):
                number = self.right_number(packet, row, isns)
                if number is not None:
                    packet.isns, packet.row, packet.after = isns, n, number + it.length
                    if it.flags & SYN and it.flags & ACK:
                        self.known.append((packet.number, packet.way, isns))
                    return
        packet.is_open = not tries

    def tries(self, it):
        """The initial sequence numbers that a segment may have: its own, and those of each handshake in front of it."""
        if it.flags & SYN:
            return [(it.sequence, (it.acknowledgement - 1) % LAP if it.flags & ACK else 0)]
        way = (it.source, it.destination)
        return [isns if seen == way else isns[::-1] for _, seen, isns in reversed(self.known) if way in (seen, seen[::-1])]

    def right_number(self, packet, row, isns):
        """Its number with the extension, where the row takes it and the MAC is right."""
        it = packet.it
        takes = it.ids[0] == row.recv and matches(row, it.destination, it.source) and contains(row.accepting, packet.time)
        if not takes or len(it.mac) != ALGORITHMS[row.algorithm][2]:
            return None
        extensions = (0,) if it.flags & SYN else (0, 1)
        return next((n * LAP + it.sequence for n in extensions if it.mac == it.right_mac(row, isns, n)), None)

    def is_fresh(self, packet):
        """It is verified, and takes sequence numbers past all that was verified before it in its direction of its connection."""
        if packet.isns is None or packet.it.flags & SYN or not packet.it.length:
            return False
        before = [it.after for it in self.packets if it.number < packet.number and it.way == packet.way and it.isns == packet.isns]
        return bool(before) and max(before) < packet.after

    def is_copy(self, packet):
        """A copy of an earlier segment, behind the handshake of another connection between its sockets: no end made it then."""
        shaken = [isns if way == packet.way else isns[::-1] for n, way, isns in self.known if n < packet.number and packet.way in (way, way[::-1])]
        return bool(shaken) and shaken[-1] != packet.isns and any(it.it == packet.it for it in self.packets if it.number < packet.number)

    # ---- connections

    def connection(self, way, isns):
        """What is verified of a connection, as one side sees its numbers: from that side, and from the other."""
        onward = [it for it in self.packets if it.way == way and it.isns == isns]
        return onward, [it for it in self.packets if it.way == way[::-1] and it.isns == isns[::-1]]

    def has_ended(self, way, isns):
        """After a RST at the number expected; or after a FIN of either side with nothing new behind both."""
        sides = self.connection(way, isns)
        for side in sides:
            for it in side:
                before = [other.after for other in side if other.number < it.number]
                if it.it.flags & RST and before and it.after - it.it.length == max(before):
                    return True
        fins = [[it.number for it in side if it.it.flags & FIN and it.is_fresh] for side in sides]
        return all(fins) and not any(it.is_fresh and it.number > max(map(max, fins)) for side in sides for it in side)

    def all_isns(self, packet):
        """Those of a packet's connection; a SYN tells its own alone."""
        known = [(it.isns if it.way == packet.way else it.isns[::-1]) for it in self.packets if it.isns and packet.way in (it.way, it.way[::-1])]
        is_alone = packet.it.flags & (SYN | ACK) == SYN
        return next((it for it in known if is_alone and it[0] == packet.isns[0] and it != packet.isns), packet.isns)

    def is_replaced(self, way, isns):
        """A later connection between the same sockets has new bytes of both sides."""
        begin = lambda it: min((at.number for side in self.connection(way, it) for at in side if at.it.flags & SYN and at.it.flags & ACK), default=0)
        fresh = [{it.isns for it in self.packets if it.way == seen and it.is_fresh} for seen in (way, way[::-1])]
        return any(it[::-1] in fresh[1] and begin(it) > begin(isns) for it in fresh[0])

    @functools.cached_property
    def live(self):
        """The packets of connections that go on, or of which nobody knows."""
        return [it for it in self.packets if it.is_open or it.isns and not self.has_ended(it.way, self.all_isns(it))]

    @functools.cached_property
    def lasting(self):
        """Those of them that are fresh, of connections that no later one replaced."""
        return [it for it in self.live if it.is_fresh and not self.is_replaced(it.way, it.isns)]

    # ---- a row

    def own_first(self, node, row, packet):
        """The sockets of a packet that the row is for, the node's first."""
        ways = (packet.way, packet.way[::-1])
        return next(((own, other) for own, other in ways if own[0] == node.address and matches(row, own, other)), None)

    def is_another(self, node, row, packet, number, id_of, life_of):
        """The row's lifetime was over, and another row of its node for these sockets has this id and may be meant."""
        own, other = packet.way if packet.it.source[0] == node.address else packet.way[::-1]
        others = [it for it in node.rows if it is not row and matches(it, own, other) and id_of(it) == number]
        return packet.time > life_of(row)[1] and any(packet.time <= life_of(it)[1] for it in others)

    def wants(self, node, n, packet):
        """It carries the row's KeyID or asks for the row: a received one that is verified is of the row that took it."""
        row, (key, asks) = node.rows[n], packet.it.ids
        sends, takes = (lambda it: it.send, lambda it: it.sending), (lambda it: it.recv, lambda it: it.accepting)
        carrying, asking = (sends, takes) if packet.it.source[0] == node.address else (takes, sends)
        means = lambda number, kind: kind[0](row) == number and not self.is_another(node, row, packet, number, *kind)
        is_taken = packet.it.source[0] != node.address and packet.row is not None
        return (packet.row == n if is_taken else means(key, carrying)) or means(asks, asking)

    def does_without(self, node, n, way, is_wide):
        """Behind the last packet of this way that wants the row a fresh one came that doesn't, and hasn't its KeyID."""
        sent, row = [it for it in self.packets if it.way == way and (it.is_open or it.isns)], node.rows[n]
        last = max((it.number for it in sent if (is_wide or not it.is_copy) and self.wants(node, n, it)), default=0)
        key = row.send if way[0][0] == node.address else row.recv
        return any(it.number > last and it.is_fresh and it.it.ids[0] != key for it in sent)

    def uncovered(self, rows, going, own, other, after):
        """A second from this one on at which one of the rows that go may send, and none that stays."""
        sends = [it for it in rows if matches(it, own, other)]
        seconds_to_try = {after, *(second for it in sends for second in (it.sending[0], it.sending[1] + 1) if after <= second <= LAST)}
        for second in sorted(seconds_to_try):
            at = [it for it in sends if contains(it.sending, second)]
            if any(going(it) for it in at) and all(going(it) for it in at):
                return second
        return None

    def amiss(self, node_number, n, is_wide=False):
        """Why it isn't safe to remove row n, from 0, of a node; none: it is. Seen widely, copies use it, too."""
        node = self.nodes[node_number]
        row, live = node.rows[n], self.live
        at_row = {pair for it in live if (pair := self.own_first(node, row, it))}
        found = ["a packet was cut in its headers"] * self.is_cut
        met = {pair[1][0] for it in self.lasting if (pair := self.own_first(node, row, it))}
        listed = [it for it in row.peers if it != "any"]
        found += [f"{it} wasn't seen" for it in listed if it not in met] + ["nobody was seen"] * (not met)
        latest = max((it.time for it in self.packets), default=0)
        for own, other in at_row:
            kept = [way for way in ((own, other), (other, own)) if not self.does_without(node, n, way, is_wide)]
            found += [f"{way[0][0]} > {way[1][0]} doesn't do without" for way in kept]
            second = self.uncovered(node.rows, lambda it: it is row, own, other, latest)
            found += [f"no row to send with at {second}"] * (second is not None)
            peer = self.node(other[0])
            partner = lambda it: (it.send, it.algorithm, it.master, it.covers_options) == (row.recv, row.algorithm, row.master, row.covers_options)
            second = peer and self.uncovered(peer.rows, partner, other, own, latest)
            found += [f"{other[0]} has no row to send with at {second}"] * (second is not None)
        return found
