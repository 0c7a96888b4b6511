"""What is read of an IP packet with TCP, and copies of it that are altered."""
import struct
from collections import namedtuple

FIN, SYN, RST, PSH, ACK, URG, ECE, CWR = 1, 2, 4, 8, 16, 32, 64, 128

# who sent it, `nc` or `kernel`, on which device; ids are the KeyID and RNextKeyID of its TCP-AO option, or None
Segment = namedtuple("Segment", "who device ports flags number acknowledges window length ids options at packet")


def header_length(packet):
    return (packet[0] & 15) * 4 if packet[0] >> 4 == 4 else 40


def options_of(header):
    """Kind and body of each option behind the fixed header."""
    at, found = 20, []
    while at < len(header) and header[at] != 0:
        length = 1 if header[at] == 1 else max(header[at + 1], 2)
        found.append((header[at], bytes(header[at + 2:at + length])))
        at += length
    return found


def read(packet):
    """The segment, or None where the packet is of no TCP."""
    is_four, at = packet[0] >> 4 == 4, header_length(packet)
    if len(packet) < at + 20 or (packet[9] if is_four else packet[6]) != 6:
        return None
    source, device = (packet[15], packet[14]) if is_four else (packet[23], packet[13])
    end = struct.unpack(">H", packet[2:4])[0] if is_four else 40 + struct.unpack(">H", packet[4:6])[0]
    ports = struct.unpack(">HH", packet[at:at + 4])
    number, acknowledges = struct.unpack(">II", packet[at + 4:at + 12])
    offset, window = (packet[at + 12] >> 4) * 4, struct.unpack(">H", packet[at + 14:at + 16])[0]
    options = options_of(packet[at:at + offset])
    ids = next(((body[0], body[1]) for kind, body in options if kind == 29), None)
    return Segment("nc" if source == 1 else "kernel", device, ports, packet[at + 13], number, acknowledges, window, end - at - offset, ids, options, at, packet)


def sum_of(words):
    words += bytes(len(words) % 2)
    total = sum(struct.unpack(f">{len(words) // 2}H", words))
    while total >> 16:
        total = (total & 65535) + (total >> 16)
    return total


def pseudo_header(packet, length):
    if packet[0] >> 4 == 4:
        return packet[12:20] + struct.pack(">HH", 6, length)
    return packet[8:40] + struct.pack(">II", length, 6)


def altered(packet, place, mask):
    """A copy of which one byte of TCP is changed, from the end where the place is negative, with a right checksum."""
    at, copy = header_length(packet), bytearray(packet)
    copy[at + place if place >= 0 else place] ^= mask
    copy[at + 16:at + 18] = bytes(2)
    segment = bytes(copy[at:])
    copy[at + 16:at + 18] = struct.pack(">H", 65535 - sum_of(pseudo_header(packet, len(segment)) + segment))
    return bytes(copy)
