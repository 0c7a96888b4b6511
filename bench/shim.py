#!/usr/bin/env python3
"""Measures what a shim costs: 60,000 segments of 1,400 bytes are sealed by one and checked by another, beside check_best of oracle/ over
twice as many, and among 4,096 pairs of sockets beside one alone, in turns.

    bench/shim.py PROGRAM [small]

PROGRAM isn't used; crates/aotcp_c/out/libaotcp_c.a is, which `rt lib` in crates/aotcp_c builds. Status 0: at most 1.3 times check_best's
time, and at most 1.2 times among 4,096. It needs cc, OpenSSL's headers and the package cryptography.
"""
import pathlib
import subprocess

import measure
import make_capture
import to_pcap

TOP = pathlib.Path(__file__).resolve().parent.parent
LIBRARY = TOP / "crates" / "aotcp_c" / "out" / "libaotcp_c.a"
PAIRS = (1, 4096)
COUNT, SIZE, TURNS = 60_000, 1400, 5
MOST_OF_BEST, MOST_AMONG = 1.3, 1.2
ALGORITHMS = {"sha1": "HMAC-SHA-1-96", "cmac": "AES-128-CMAC-96"}


def make(folder):
    """Builds shim.c over the C library."""
    program = folder / "shim"
    sources = [TOP / "bench" / "shim.c", TOP / "examples" / "c" / "heap.c", LIBRARY]
    subprocess.run(["cc", "-O2", "-std=c11", f"-I{TOP}/include", *sources, "-o", program], check=True)
    return program


def seconds(program, pairs, count, kind):
    """What the segments took of a processor."""
    ran = subprocess.run([program, str(pairs), str(count), kind], check=True, capture_output=True, text=True)
    return float(ran.stdout)


def best_of(folder, kind, count):
    """What check_best takes, over twice as many segments as are sealed: each of these has two MACs."""
    with open(folder / "packets", "wb") as packets:
        packets.write(to_pcap.HEAD)
        for made in make_capture.segments(kind, 100, 2 * count, SIZE):
            packets.write(to_pcap.packet(f"0 {made.hex()}\n"))
    command = [str(folder / "check_best"), kind, "1", make_capture.MASTERS[kind].hex()]
    return lambda: measure.best_in_turns({"best": (command, folder / "packets", folder / "best.out")}, 1)["best"].seconds


def bench(_program, folder, small):
    if not LIBRARY.exists():
        yield measure.Row("the C library", f"{LIBRARY} isn't built", False)
        return
    subprocess.run([measure.BENCH.parent / "oracle" / "make_peers", folder], check=True)
    program, count, turns = make(folder), COUNT // (30 if small else 1), 2 if small else TURNS
    for kind, algorithm in ALGORITHMS.items():
        beside = best_of(folder, kind, count)
        taken = [[*(seconds(program, pairs, count, kind) for pairs in PAIRS), beside()] for _ in range(turns)]
        alone, among, best = (min(each) for each in zip(*taken))
        figures = f"{alone:.3f} s, {best:.3f} s check_best: {alone / best:.2f}; {among:.3f} s among {PAIRS[1]:,} pairs: {among / alone:.2f}"
        right = small or (alone <= MOST_OF_BEST * best and among <= MOST_AMONG * alone)
        yield measure.Row(f"{count:,} segments of {SIZE:,} sealed and checked, {algorithm}", figures, right)


if __name__ == "__main__":
    measure.main(bench)
