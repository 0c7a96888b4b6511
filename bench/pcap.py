#!/usr/bin/env python3
"""Compares `check --pcap` with `check` over the same segments, between which stand lines and packets without a datagram, and times both.

    bench/pcap.py PROGRAM [small]

Status 0: both wrote the same. With `small` 2,000 segments in place of 60,000. It needs the package cryptography.
"""
import measure
import make_capture
import to_pcap


def bench(program, folder, small):
    count = 2_000 if small else 60_000
    (folder / "keys").write_text(make_capture.key_file("sha1"), encoding="ascii")
    with open(folder / "lines", "w", encoding="ascii") as lines, open(folder / "packets", "wb") as packets:
        packets.write(to_pcap.HEAD)
        for n, made in enumerate(make_capture.segments("sha1", 100, count, 1400)):
            for line in ["# nothing\n"] * (n % 100 == 7) + [f"0 {made.hex()}\n"]:
                lines.write(line)
                packets.write(to_pcap.packet(line))
    keys = str(folder / "keys")
    runs = {
        "check": ([program, "check", keys], folder / "lines", folder / "of-lines"),
        "check --pcap": ([program, "check", "--pcap", keys], folder / "packets", folder / "of-packets"),
    }
    best = measure.best_in_turns(runs, 5)
    figures = ", ".join(f"{used.seconds:.3f} s {name}" for name, used in best.items())
    yield measure.Row(f"the same {count:,} segments in both forms", figures, measure.is_same(folder / "of-lines", folder / "of-packets"))


if __name__ == "__main__":
    measure.main(bench)
