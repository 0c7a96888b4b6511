#!/usr/bin/env python3
"""Times `lint` on 20,000 lines of one connection over a key file that makes its judgement long: 16 nodes of 64 rows, all with one id and
one key and 16 peers each, where the row that meets a row is the last of those that could.

    bench/lint.py PROGRAM [small]

Status 0: each line has the same answer. With `small` 500 lines.
"""
import measure


def time(day):
    return f"2000{1 + day // 28:02}{1 + day % 28:02}000000Z"


def row(node, n):
    """A row of an even node sends for a day; one of an odd node receives all the time, and the last alone names the other end."""
    sends = node % 2 == 0
    strangers = [f"10.{1 + node}.{n}.{k}" for k in range(16)]
    peers = strangers[:15] + [f"10.0.0.{node ^ 1}"] if sends or n == 63 else strangers
    lines = {
        "AdminKeyName": "k",
        "LocalKeyName": "1",
        "PeerKeyName": "1",
        "Peers": peers,
        "Protocol": "TCP-AO",
        "ProtocolSpecificInfo": "options",
        "KDF": "HMAC-SHA-1",
        "AlgID": "HMAC-SHA-1-96",
        "Key": "0b" * 255,
        "Direction": "out" if sends else "in",
    }
    if sends:
        lines["SendLifetimeStart"] = time(2 * n)
        lines["SendLifetimeEnd"] = time(2 * n + 1)
    yield "[[node.key]]\n"
    for name, value in lines.items():
        text = str(value).replace("'", '"') if isinstance(value, list) else f'"{value}"'
        yield f"{name} = {text}\n"


def key_file():
    for node in range(16):
        yield f'[[node]]\nname = "n{node}"\naddress = "10.0.0.{node}"\n'
        for n in range(64):
            yield from row(node, n)


def bench(program, folder, small):
    count = 500 if small else 20_000
    with open(folder / "keys", "w", encoding="ascii") as keys:
        keys.writelines(key_file())
    (folder / "connections").write_text("10.0.0.0 179 10.0.0.1 179\n" * count, encoding="ascii")
    words = ["lint", str(folder / "keys"), "60", "60", "20000101000000Z", "20000102000000Z"]
    used = measure.best_in_turns({"": ([program, *words], folder / "connections", folder / "out")}, 3)[""]
    lines = (folder / "out").read_text(encoding="ascii").splitlines()
    answers = {line.partition(" ")[2] for line in lines}
    right = len(lines) == count and len(answers) == 1 and used.status < 2
    yield measure.Row(f"{count:,} connections, {', '.join(answers)}", f"{used.seconds:.3f} s, {used.memory:.0f} MiB", right)


if __name__ == "__main__":
    measure.main(bench)
