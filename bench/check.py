#!/usr/bin/env python3
"""Measures the memory of `check`: for 65,536 connections, with what is said of one more, and for 1,000 and 90,000 segments of one
connection.

    bench/check.py PROGRAM [small]

Status 0: the one more is `full` and all before pass, that takes under 200 MiB, and the memory for the two inputs of segments differs
by less than 1 MiB. With `small` 3,000 in place of 90,000. It needs the package cryptography.
"""
import measure
import make_capture

MOST_MEMORY = 200


def write_inputs(folder, connections, count):
    (folder / "keys").write_text(make_capture.key_file("sha1"), encoding="ascii")
    with open(folder / "lines", "w", encoding="ascii") as lines:
        lines.writelines(f"0 {made.hex()}\n" for made in make_capture.segments("sha1", connections, count, 1400))


def checked(program, folder, connections, count):
    """What the best of three runs used, and the lines that it wrote."""
    write_inputs(folder, connections, count)
    command = ([program, "check", str(folder / "keys")], folder / "lines", folder / "out")
    used = measure.best_in_turns({"": command}, 3)[""]
    return used, (folder / "out").read_text(encoding="ascii").splitlines()


def bench(program, folder, small):
    used, lines = checked(program, folder, 65_537, 0)
    passes = sum(" pass " in line for line in lines)
    right = passes == 65_536 and lines[-1] == "65537 full checksum good" and used.memory < MOST_MEMORY
    yield measure.Row("65,536 connections, and one more", f"{used.memory:.1f} MiB, {passes:,} passes, then: {lines[-1]}", right)
    few, _ = checked(program, folder, 1, 1_000)
    most = 3_000 if small else 90_000
    many, _ = checked(program, folder, 1, most)
    figures = f"{few.memory:.1f} MiB and {many.memory:.1f} MiB"
    yield measure.Row(f"1,000 and {most:,} segments", figures, abs(many.memory - few.memory) < 1)


if __name__ == "__main__":
    measure.main(bench)
