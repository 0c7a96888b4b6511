#!/usr/bin/env python3
"""Writes lines of stored segments as a pcap file: link type 101, little-endian. A line that begins with a number sign becomes a packet
without a byte.

    oracle/to_pcap.py < LINES > PCAP
"""
import struct
import sys

HEAD = struct.pack("<IHHIIII", 0xA1B2C3D4, 2, 4, 0, 0, 262144, 101)


def packet(line):
    """The record of a line."""
    time, datagram = (0, b"") if line.startswith("#") else (int(line.split()[0]), bytes.fromhex(line.split()[1]))
    return struct.pack("<IIII", time, 0, len(datagram), len(datagram)) + datagram


def main():
    sys.stdout.buffer.write(HEAD)
    for line in sys.stdin:
        sys.stdout.buffer.write(packet(line))


if __name__ == "__main__":
    main()
