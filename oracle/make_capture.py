#!/usr/bin/env python3
"""Makes stored segments for `check` with Python's hmac and the package cryptography alone, from RFC 5925 (sections 5.1 and 5.2) and
RFC 5926 (section 3.1).

    oracle/make_capture.py sha1|cmac CONNECTIONS SEGMENTS SIZE KEYFILE > LINES

Each connection begins with the server's SYN with ACK; then SEGMENTS segments of SIZE payload bytes go from client to server, over the
connections in turns. All have KeyID 1, the options covered, and are right. KEYFILE gets a key file of both ends with that one key.
"""
import hashlib
import hmac
import struct
import sys

from cryptography.hazmat.primitives.ciphers.algorithms import AES
from cryptography.hazmat.primitives.cmac import CMAC

CLIENT, SERVER = bytes([10, 0, 0, 1]), bytes([10, 0, 0, 2])
SYN, ACK = 2, 16
MASTERS = {"sha1": bytes([0x0B]) * 20, "cmac": bytes([0x0B]) * 16}
BITS = {"sha1": 160, "cmac": 128}
NAMES = {"sha1": ("HMAC-SHA-1", "HMAC-SHA-1-96"), "cmac": ("AES-128-CMAC", "AES-128-CMAC-96")}
# How many connections have one port of the server.
A_PORT = 50_000


def code(kind, key, message):
    """HMAC-SHA-1 or AES-CMAC; a key of the latter has 16 bytes."""
    if kind == "sha1":
        return hmac.new(key, message, hashlib.sha1).digest()
    cmac = CMAC(AES(key))
    cmac.update(message)
    return cmac.finalize()


def sum16(data):
    data += bytes(len(data) % 2)
    total = sum(struct.unpack(f">{len(data) // 2}H", data))
    while total >> 16:
        total = (total & 0xFFFF) + (total >> 16)
    return total


def traffic_key(kind, ends, ports, isns):
    return code(kind, MASTERS[kind], b"\x01TCP-AO" + ends[0] + ends[1] + struct.pack(">HHIIH", *ports, *isns, BITS[kind]))


def segment(kind, ends, ports, key, number, acknowledgement, flags, payload=b""):
    length = 36 + len(payload)
    pseudo = ends[0] + ends[1] + struct.pack(">BBH", 0, 6, length)
    head = struct.pack(">HHIIBBHHH", *ports, number, acknowledgement, 0x90, flags, 65535, 0, 0)
    option = bytes([29, 16, 1, 1])
    tcp = head + option + code(kind, key, bytes(4) + pseudo + head + option + bytes(12) + payload)[:12] + payload
    tcp = tcp[:16] + struct.pack(">H", 0xFFFF ^ sum16(pseudo + tcp)) + tcp[18:]
    ip = struct.pack(">BBHHHBBH", 0x45, 0, 20 + length, 0, 0x4000, 64, 6, 0) + ends[0] + ends[1]
    return ip[:10] + struct.pack(">H", 0xFFFF ^ sum16(ip)) + ip[12:] + tcp


def segments(kind, connections, count, size):
    """The segments, in their order."""
    there, back = (CLIENT, SERVER), (SERVER, CLIENT)
    keys = []
    for n in range(connections):
        ports = (n % A_PORT + 1, n // A_PORT + 100)
        own, other = n + 1, n + 1_000_000
        key = traffic_key(kind, back, ports[::-1], (other, own))
        yield segment(kind, back, ports[::-1], key, other, own + 1, SYN + ACK)
        if count:
            keys.append((ports, own, other, traffic_key(kind, there, ports, (own, other))))
    payload = bytes(size)
    for n in range(count):
        ports, own, other, key = keys[n % connections]
        yield segment(kind, there, ports, key, own + 1 + n // connections * size, other + 1, ACK, payload)


def key_file(kind):
    """The key file of both ends."""
    kdf, algorithm = NAMES[kind]
    return "".join(
        f"""[[node]]
name = "{name}"
address = "{address}"
[[node.key]]
AdminKeyName = "one"
LocalKeyName = "1"
PeerKeyName = "1"
Peers = ["any"]
Protocol = "TCP-AO"
ProtocolSpecificInfo = "options"
KDF = "{kdf}"
AlgID = "{algorithm}"
Key = "{MASTERS[kind].hex()}"
Direction = "both"
"""
        for name, address in (("client", "10.0.0.1"), ("server", "10.0.0.2"))
    )


def main():
    kind, connections, count, size = sys.argv[1], *map(int, sys.argv[2:5])
    with open(sys.argv[5], "w", encoding="ascii") as file:
        file.write(key_file(kind))
    for made in segments(kind, connections, count, size):
        print(0, made.hex())


if __name__ == "__main__":
    main()
