"""Segments whose TCP checksum comes out as 0. The kernel takes a 0 for a segment of its own way and refuses each; the value ffff
says the same in one's complement, and our stack writes that. Numbers and bytes are searched for by hashlib, until such a segment comes."""
import hashlib
import hmac
import struct

import packets
from connection import TERMINATE
from scenarios.registry import both_roles, one_connection, scenario
from scenarios.tcp import place_of_ao


def mac_of(algorithm):
    """The pseudo-random function of the profile's algorithm over a key and a message; None where this Python hasn't it."""
    if algorithm != "cmac":
        return lambda key, message: hmac.new(key, message, getattr(hashlib, algorithm)).digest()
    try:
        from cryptography.hazmat.primitives.ciphers.algorithms import AES
        from cryptography.hazmat.primitives.cmac import CMAC
    except ImportError:
        return None

    def cmac(key, message):
        context = CMAC(AES(key))
        context.update(message)
        return context.finalize()
    return cmac


class Searched:
    """A segment of ao-nc that was seen, of which another is made with other bytes and the right MAC under extension 0."""
    def __init__(self, session, segment, isns):
        self.profile, self.segment, self.isns = session.profile, segment, isns
        self.mac = mac_of(session.profile.algorithm)
        self.ao, packet = place_of_ao(segment), segment.packet
        self.addresses = packet[12:20] if session.profile.family == 4 else packet[8:40]
        self.header = bytearray(packet[segment.at:len(packet) - segment.length])
        self.length = len(self.header[self.ao:]) and self.header[self.ao + 1] - 4
        self.pseudo = packets.pseudo_header(packet, len(self.header) + segment.length)
        self.header[16:18] = bytes(2)
        self.header[self.ao + 4:self.ao + 4 + self.length] = bytes(self.length)

    def traffic_key(self, master, isns):
        output = {"sha1": 160, "cmac": 128, "sha256": 256}[self.profile.algorithm]
        ports = struct.pack(">HH", *self.segment.ports)
        return self.mac(master, b"\1TCP-AO" + self.addresses + ports + struct.pack(">IIH", *isns, output))

    def covered(self):
        if self.profile.options:
            return bytes(self.header)
        return bytes(self.header[:20] + self.header[self.ao:self.ao + 4 + self.length])

    def sum(self, key, payload=b""):
        """The sum of all 16-bit words, with the checksum as 0: for 65535 the checksum comes out as 0."""
        mac = self.mac(key, bytes(4) + self.pseudo + self.covered() + payload)[:self.length]
        whole = bytes(self.header[:self.ao + 4]) + mac + bytes(self.header[self.ao + 4 + self.length:])
        return packets.sum_of(self.pseudo + whole + payload)


def checksum_of(segment):
    return segment.packet[segment.at + 16:segment.at + 18]


@scenario(amiss=("refused no-ao",))
def checksum_zero_of_a_syn(session):
    """An ISN is searched for with which the SYN's checksum comes out as 0."""
    at = one_connection(session)
    if mac_of(session.profile.algorithm) is None:
        session.note("not run: this Python has no AES-CMAC")
        return
    at.start_nc("--isn", 1)
    session.pump(lambda: session.sent_by("nc"), 10)
    at.signal(TERMINATE)
    at.nc_ends(1)
    search, isn = Searched(session, session.sent_by("nc")[0], (1, 0)), 1
    while True:
        search.header[4:8] = struct.pack(">I", isn)
        if search.sum(search.traffic_key(bytes.fromhex(at.keys[0].hex), (isn, 0))) == 65535:
            break
        isn += 1
    second = session.connection(at.keys)
    if second.begin("nc", "--isn", isn):
        syn = session.sent_by("nc", lambda it: it.flags & packets.SYN and it.number == isn)[0]
        session.expect(checksum_of(syn) == b"\xff\xff", f"ISN {isn}: the checksum of the SYN is {checksum_of(syn).hex()}")
        second.exchange(1000, 1000)
        second.close("nc")


@both_roles()
def checksum_zero_of_data(session, role):
    """Four bytes are searched for with which the checksum of their segment comes out as 0."""
    at = one_connection(session)
    if mac_of(session.profile.algorithm) is None or not at.begin(role, "--isn", 1000000):
        session.note("not run")
        return
    at.exchange(100, 100)
    at.exchange(4, 0)
    syns = {segment.who: segment.number for who in ("nc", "kernel") for segment in session.sent_by(who, lambda it: it.flags & packets.SYN)}
    last = session.sent_by("nc", lambda it: it.length == 4)[-1]
    search = Searched(session, last, (syns["nc"], syns["kernel"]))
    search.header[4:8] = struct.pack(">I", last.number + 4)
    key, value = search.traffic_key(bytes.fromhex(at.keys[0].hex), search.isns), 0
    while search.sum(key, struct.pack(">I", value)) != 65535:
        value += 1
    piece = struct.pack(">I", value)
    at.given += piece
    session.guest.write(at.nc, piece)
    session.pump(at.is_through, 20)
    at.compare("a segment whose checksum comes out as 0")
    sent = [segment for segment in session.sent_by("nc", lambda it: it.length == 4) if segment.number == last.number + 4]
    session.expect(sent and checksum_of(sent[0]) == b"\xff\xff", f"the checksum of the segment is {checksum_of(sent[0]).hex() if sent else 'missing'}")
    at.exchange(1000, 1000)
    at.close("nc")
