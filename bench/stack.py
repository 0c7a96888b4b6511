#!/usr/bin/env python3
"""Measures what other connections cost a busy one: a node that runs by itself with 1,024 connections, of which one carries data, or all
do in turns, beside a node with that one alone, in turns. Of all it compares what a datagram takes.

    bench/stack.py PROGRAM [small]

PROGRAM isn't used; crates/aotcp_c/out/libaotcp_c.a is, which `rt lib` in crates/aotcp_c builds.
"""
import pathlib
import subprocess

import measure

TOP = pathlib.Path(__file__).resolve().parent.parent
LIBRARY = TOP / "crates" / "aotcp_c" / "out" / "libaotcp_c.a"
# How many connections there are, how many of them are busy, and how much longer than alone a datagram may take there.
CASES = {"alone": (1, 1, 1), "among 1,023 idle": (1024, 1, 1.2), "among 1,023 busy": (1024, 1024, 1.3)}


def make(folder):
    """Builds stack.c over the C library."""
    program = folder / "stack"
    sources = [TOP / "bench" / "stack.c", TOP / "examples" / "c" / "heap.c", LIBRARY]
    subprocess.run(["cc", "-O2", "-std=c11", f"-I{TOP}/include", *sources, "-o", program], check=True)
    return program


def microseconds(program, connections, busy, megabytes):
    """What a datagram took of a processor."""
    ran = subprocess.run([program, str(connections), str(busy), str(megabytes)], check=True, capture_output=True, text=True)
    seconds, datagrams = ran.stdout.split()
    return 1e6 * float(seconds) / int(datagrams)


def bench(_program, folder, small):
    if not LIBRARY.exists():
        yield measure.Row("the C library", f"{LIBRARY} isn't built", False)
        return
    program = make(folder)
    turns, megabytes = (2, 2) if small else (7, 40)
    taken = [[microseconds(program, count, busy, megabytes) for count, busy, _ in CASES.values()] for _ in range(turns)]
    alone, *among = (min(each) for each in zip(*taken))
    for (name, (_, _, most)), least in zip(list(CASES.items())[1:], among):
        figures = f"{alone:.1f} us a datagram alone, {least:.1f} us {name}, ratio {least / alone:.2f}"
        yield measure.Row(f"{megabytes} MB, {name}", figures, small or least <= most * alone)


if __name__ == "__main__":
    measure.main(bench)
