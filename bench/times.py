#!/usr/bin/env python3
"""Times `check` and `check --pcap` beside the two C programs of oracle/, over 60,000 segments of 1,400 bytes and 300,000 of 19.

    bench/times.py PROGRAM [small]

For each algorithm and size: the best of six runs in turns, in seconds of a processor, and the ratios to check_openssl and check_best.
Status 0: all four wrote the same; of 1,400 bytes `check` took at most 1.25 times check_openssl's time; and `check --pcap` took at most so many
times check_best's: 1.1 and 1.3 under HMAC-SHA-1-96, 1.5 and 1.2 under AES-128-CMAC-96, of 1,400 and of 19 bytes. With `small` a thirtieth of the segments, and no bound. It needs cc, OpenSSL's headers and the package cryptography.
"""
import subprocess

import measure
import make_capture
import to_pcap

TURNS = 6
SIZES = [(1400, 60_000), (19, 300_000)]
ALGORITHMS = {"sha1": "HMAC-SHA-1-96", "cmac": "AES-128-CMAC-96"}
MOST_OF_LINES = {1400: 1.25}
MOST_OF_PACKETS = {"sha1": {1400: 1.1, 19: 1.3}, "cmac": {1400: 1.5, 19: 1.2}}


def write_inputs(folder, kind, count, size):
    """Writes the key file, the lines and the packets of as many segments."""
    (folder / "keys").write_text(make_capture.key_file(kind), encoding="ascii")
    with open(folder / "lines", "w", encoding="ascii") as lines, open(folder / "packets", "wb") as packets:
        packets.write(to_pcap.HEAD)
        for made in make_capture.segments(kind, 100, count, size):
            line = f"0 {made.hex()}\n"
            lines.write(line)
            packets.write(to_pcap.packet(line))


def commands(program, folder, kind):
    """The four commands, each with what it reads and where it writes."""
    key = [kind, "1", make_capture.MASTERS[kind].hex()]
    told = {
        "check": ([program, "check", str(folder / "keys")], "lines"),
        "check_openssl": ([str(folder / "check_openssl"), *key], "lines"),
        "check --pcap": ([program, "check", "--pcap", str(folder / "keys")], "packets"),
        "check_best": ([str(folder / "check_best"), *key], "packets"),
    }
    return {name: (command, folder / source, folder / f"{name}.out") for name, (command, source) in told.items()}


def bench(program, folder, small):
    subprocess.run([measure.BENCH.parent / "oracle" / "make_peers", folder], check=True)
    for kind, algorithm in ALGORITHMS.items():
        for size, count in SIZES:
            count //= 30 if small else 1
            write_inputs(folder, kind, count, size)
            runs = commands(program, folder, kind)
            best = measure.best_in_turns(runs, TURNS)
            same = all(measure.is_same(target, folder / "check.out") for _, _, target in runs.values())
            for name, most, peers in [
                ("check", MOST_OF_LINES, ["check_openssl"]),
                ("check --pcap", MOST_OF_PACKETS[kind], ["check_best", "check_openssl"]),
            ]:
                ratios = {peer: best[name].seconds / best[peer].seconds for peer in peers}
                told = "".join(f", {best[peer].seconds:.3f} s {peer}: {ratio:.2f}" for peer, ratio in ratios.items())
                right = same and (small or size not in most or ratios[peers[0]] <= most[size])
                yield measure.Row(f"{name}, {algorithm}, {count:,} of {size:,}", f"{best[name].seconds:.3f} s{told}", right)


if __name__ == "__main__":
    measure.main(bench)
