#!/usr/bin/env python3
"""Hashes the datagram at the end of each line of standard input once, and writes nothing: what `vectors` is timed beside.

    bench/hash_lines.py sha1|sha256 < LINES
"""
import binascii
import hashlib
import sys


def main():
    make = getattr(hashlib, sys.argv[1])
    for line in sys.stdin.buffer:
        make(binascii.unhexlify(line.rstrip().rsplit(b" ", 1)[1])).digest()


if __name__ == "__main__":
    main()
