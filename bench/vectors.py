#!/usr/bin/env python3
"""Times 10,000 test vectors for each algorithm, each the MAC of a datagram of 1,400 bytes, beside a Python program that reads the same
lines and hashes their datagrams once (SHA-1, or SHA-256 for the third algorithm).

    bench/vectors.py PROGRAM [small]

The MACs are made up: every line must differ, and the status be 1. Status 0: it is so. With `small` 300 vectors.
"""
import random
import sys

import measure
from make_capture import sum16

# Each with the length of its option, and the hash of the program beside it.
ALGORITHMS = [("HMAC-SHA-1-96", 16, "sha1"), ("AES-128-CMAC-96", 16, "sha1"), ("HMAC-SHA-256-128", 20, "sha256")]


def front_of(option):
    """The IPv4 header, ports, sequence, acknowledgement, offset and flags, window, checksum, urgent pointer, and TCP-AO up to its MAC."""
    front = bytes.fromhex("4500057800004000400600000a0000010a000002")
    front = front[:10] + (0xFFFF ^ sum16(front)).to_bytes(2, "big") + front[12:]
    front += bytes.fromhex("03e807d000000065000000c9") + bytes([(20 + option) * 4, 24]) + bytes.fromhex("ffff00000000")
    return front + bytes([29, option, 0, 0])


def bench(program, folder, small):
    count = 300 if small else 10_000
    for name, option, hash_name in ALGORITHMS:
        front, chance = front_of(option), random.Random(1)
        with open(folder / "lines", "w", encoding="ascii") as lines:
            for _ in range(count):
                datagram = front + chance.randbytes(1400 - len(front))
                print("segment", name, "0b" * 20, 100, 200, 0, "options", datagram.hex(), file=lines)
        runs = {
            "vectors": ([program, "vectors"], folder / "lines", folder / "out"),
            "one hash in Python": ([sys.executable, str(measure.BENCH / "hash_lines.py"), hash_name], folder / "lines", folder / "none"),
        }
        best = measure.best_in_turns(runs, 3)
        last = (folder / "out").read_text(encoding="ascii").splitlines()[-1]
        right = last == f"vectors {count} differing {count}" and best["vectors"].status == 1
        yield measure.Row(f"{count:,} of {name}", ", ".join(f"{used.seconds:.3f} s {what}" for what, used in best.items()), right)


if __name__ == "__main__":
    measure.main(bench)
