#!/usr/bin/env python3
"""Prints lines for `aotcp vectors` of HMAC-SHA-256-128, made by Python's hmac and hashlib alone.

The expected values in the tests of ao_kdf and ao_mac are those of this program: it builds the
inputs of the key derivation and of the MAC anew, from the rules of RFC 5925 (sections 5.1 and 5.2)
and RFC 5926 (section 3.1) and this project's own third algorithm (a traffic key of 256 bits, a MAC
of 128 bits).

    oracle/vectors_sha256.py
"""
import hashlib
import hmac

MAC_LENGTH = 16


def sha256(key, message):
    return hmac.new(key, message, hashlib.sha256).digest()


def context_bytes(source, destination, ports, isns):
    numbers = b"".join(port.to_bytes(2, "big") for port in ports)
    return source + destination + numbers + b"".join(isn.to_bytes(4, "big") for isn in isns)


def traffic_key(master, context):
    return sha256(master, b"\x01TCP-AO" + context + b"\x01\x00")


def sum16(data):
    data += b"\0" * (len(data) % 2)
    total = sum(int.from_bytes(data[at:at + 2], "big") for at in range(0, len(data), 2))
    while total >> 16:
        total = (total & 0xFFFF) + (total >> 16)
    return total


def pseudo_header(source, destination, length):
    if len(source) == 4:
        return source + destination + b"\0\x06" + length.to_bytes(2, "big")
    return source + destination + length.to_bytes(4, "big") + b"\0\0\0\x06"


def ip_header(source, destination, length):
    if len(source) == 16:
        return b"\x60\0\0\0" + length.to_bytes(2, "big") + b"\x06\x40" + source + destination
    front = b"\x45\0" + (20 + length).to_bytes(2, "big") + b"\0\0\x40\0\x40\x06"
    checksum = 0xFFFF ^ sum16(front + source + destination)
    return front + checksum.to_bytes(2, "big") + source + destination


def tcp_header(ports, sequence, acknowledgement, flags, window, options, checksum):
    fields = b"".join(port.to_bytes(2, "big") for port in ports)
    fields += sequence.to_bytes(4, "big") + acknowledgement.to_bytes(4, "big")
    fields += bytes([(20 + len(options)) // 4 << 4, flags]) + window.to_bytes(2, "big")
    return fields + checksum.to_bytes(2, "big") + b"\0\0"


def segment(master, source, destination, ports, isns, extension, fields, front, ids, payload, whole):
    """A datagram whose last option is TCP-AO, with its MAC and its checksum."""
    option = bytes([29, 4 + MAC_LENGTH, *ids])
    blank = front + option + bytes(MAC_LENGTH)
    length = 20 + len(blank) + len(payload)
    pseudo = pseudo_header(source, destination, length)
    covered = blank if whole else option + bytes(MAC_LENGTH)
    message = extension.to_bytes(4, "big") + pseudo
    message += tcp_header(ports, *fields, blank, 0) + covered + payload
    key = traffic_key(master, context_bytes(source, destination, ports, isns))
    options = front + option + sha256(key, message)[:MAC_LENGTH]
    empty = tcp_header(ports, *fields, options, 0)
    checksum = 0xFFFF ^ sum16(pseudo + empty + options + payload)
    header = tcp_header(ports, *fields, options, checksum)
    return ip_header(source, destination, length) + header + options + payload


def main():
    one, two = bytes([10, 0, 0, 1]), bytes([10, 0, 0, 2])
    three = bytes.fromhex("20010db8000000000000000000000001")
    four = bytes.fromhex("20010db8000000000000000000000002")
    for master, context in [
        (b"a master key", context_bytes(one, two, (1000, 2000), (0x01020304, 0))),
        (bytes([7]) * 80, context_bytes(three, four, (50001, 2000), (0x04030201, 0x80000000))),
    ]:
        key = traffic_key(master, context)
        print("kdf HMAC-SHA-256-128", master.hex(), context.hex(), key.hex())
    master = b"testvector"
    mss = bytes.fromhex("020405b4")
    first = segment(master, one, two, (1000, 2000), (100, 0), 0, (100, 0, 2, 65535), mss, (1, 2), b"", True)
    print("segment HMAC-SHA-256-128", master.hex(), 100, 0, 0, "options", first.hex())
    later = segment(master, three, four, (50000, 179), (100, 200), 1, (101, 201, 24, 512), mss, (7, 8), b"hello", False)
    print("segment HMAC-SHA-256-128", master.hex(), 100, 200, 1, "no-options", later.hex())


if __name__ == "__main__":
    main()
