#!/usr/bin/env python3
"""Times a node's file of 20,000 lines over 1,024 connections, each of which sends nine segments of 500 bytes, and whose clock is set 542
times.

    bench/node.py PROGRAM [small]

Status 0: each event is done, or sends. With `small` one segment each, and 64 connections.
"""
import measure
import make_capture


def lines_of(count, turns, most):
    connections = [f"{port} 10.0.0.2 2000" for port in range(1, count + 1)]
    yield from ["aotcp-node 1", "node 10.0.0.1"]
    yield from (f"start {c} 100 200" for c in connections)
    for _ in range(turns):
        for c in connections:
            yield from [f"give {c} {'2a' * 500}", f"send {c}"]
    made = 2 + count + 2 * turns * count
    yield from (f"clock {second}" for second in range(most - made))


def bench(program, folder, small):
    count, turns, most = (64, 1, 400) if small else (1024, 9, 20_000)
    (folder / "keys").write_text(make_capture.key_file("sha1"), encoding="ascii")
    with open(folder / "input", "w", encoding="ascii") as file:
        file.writelines(line + "\n" for line in lines_of(count, turns, most))
    command = ([program, "node", str(folder / "keys")], folder / "input", folder / "out")
    used = measure.best_in_turns({"": command}, 3)[""]
    answers = (folder / "out").read_text(encoding="ascii").splitlines()
    right = len(answers) == most - 2 and all(answer.split()[1] in ("ok", "sent") for answer in answers)
    yield measure.Row(f"{most:,} lines, {count:,} connections", f"{used.seconds:.3f} s, {used.memory:.0f} MiB", right)


if __name__ == "__main__":
    measure.main(bench)
