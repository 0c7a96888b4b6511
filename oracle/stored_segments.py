#!/usr/bin/env python3
"""Prints the stored segments of the tests of capture_check, made by Python's hmac and hashlib alone.

A client with initial sequence number 100 opens a connection to a server with 200, and sends ten
bytes at numbers that lie 2^30 apart, so that the extension reaches 2; then one segment that lies 2^31
past the number expected, and the beginning of another one. Behind an empty line, two connections of the
same sockets, one after the other, beside one of another port. The derivation and the MAC input are built
anew from RFC 5925 (sections 5.1 and 5.2) and RFC 5926 (section 3.1).

    oracle/stored_segments.py
"""
import hashlib
import hmac

from vectors_sha256 import context_bytes, ip_header, pseudo_header, sum16, tcp_header

MASTER = b"testvector"
ONE, TWO = bytes([10, 0, 0, 1]), bytes([10, 0, 0, 2])
PORTS = (1000, 2000)
SYN, ACK = 2, 16


def segment(ends, ports, isns, number, acknowledgement, flags, payload=b""):
    """A segment whose only option is TCP-AO with both ids 0; each option is covered."""
    option = bytes([29, 16, 0, 0])
    fields = (number % 2**32, acknowledgement, flags, 512)
    pseudo = pseudo_header(*ends, 36 + len(payload))
    blank = option + bytes(12)
    label = b"\x01TCP-AO" + context_bytes(*ends, ports, isns) + (160).to_bytes(2, "big")
    key = hmac.new(MASTER, label, hashlib.sha1).digest()
    message = (number >> 32).to_bytes(4, "big") + pseudo + tcp_header(ports, *fields, blank, 0) + blank + payload
    options = option + hmac.new(key, message, hashlib.sha1).digest()[:12]
    checksum = 0xFFFF ^ sum16(pseudo + tcp_header(ports, *fields, options, 0) + options + payload)
    header = tcp_header(ports, *fields, options, checksum)
    return ip_header(*ends, 20 + len(options) + len(payload)) + header + options + payload


def anew():
    """A second connection of the same sockets, with ISNs of its own, while one of another port goes on."""
    there, back = (ONE, TWO), (TWO, ONE)
    turned, other, other_turned = (PORTS[1], PORTS[0]), (1001, PORTS[1]), (PORTS[1], 1001)
    syn_ack = SYN + ACK
    yield segment(back, turned, (200, 100), 200, 101, syn_ack)
    yield segment(back, other_turned, (7, 9), 7, 10, syn_ack)
    yield segment(there, PORTS, (100, 200), 101, 201, ACK, b"x")
    yield segment(back, turned, (300, 1000), 300, 1001, syn_ack)
    yield segment(there, PORTS, (100, 200), 102, 201, ACK, b"x")
    yield segment(there, PORTS, (1000, 300), 1001, 301, ACK, b"x")
    yield segment(back, turned, (300, 1000), 300, 1001, syn_ack)
    yield segment(there, PORTS, (1000, 300), 1002, 301, ACK, b"x")
    yield segment(there, other, (9, 7), 10, 8, ACK, b"x")


def main():
    there, back = (ONE, TWO), (TWO, ONE)
    turned = (PORTS[1], PORTS[0])
    print(segment(there, PORTS, (100, 0), 100, 0, SYN).hex())
    print(segment(back, turned, (200, 100), 200, 101, SYN + ACK).hex())
    for k in range(10):
        print(segment(there, PORTS, (100, 200), 101 + k * 2**30, 201, ACK, b"x").hex())
    print(segment(there, PORTS, (100, 200), 9663676518 + 2**31, 201, ACK, b"x").hex())
    print(segment(there, PORTS, (100, 200), 101, 201, ACK, b"x").hex()[:60])
    print()
    for made in anew():
        print(made.hex())


if __name__ == "__main__":
    main()
