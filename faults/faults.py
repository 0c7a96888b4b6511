#!/usr/bin/env python3
"""Makes each request for memory, each read and each write of a built program fail in turn, and checks how it ends: with status 7,
5 or 6 and its text, and with nothing or a front part of the output written.

    faults/faults.py PROGRAM [KIND..]

PROGRAM is the built aotcp. Three runs are made here: two routers over a year with a rollover, a key file with an overlap, and datagrams
that are shown. The first three cases of each kind of oracle/cases follow, or of these kinds; of the kind `none`, no more. faults.c is built
with cc and loaded in front of the C library. Status 0: each fault ended so.
"""
import os
import pathlib
import subprocess
import sys
import tempfile

HERE = pathlib.Path(__file__).resolve().parent
sys.path.insert(0, str(HERE.parent / "oracle"))

import case_file  # noqa: E402

CASES = HERE.parent / "oracle" / "cases"
# How many cases of a kind are taken.
OF_A_KIND = 3
TEXTS = {"MEMORY": (7, b"memory\n"), "READ": (5, b"read fault\n"), "WRITE": (6, b"write fault\n")}
# What writes as it reads may have written a front part whatever failed.
AS_IT_READS = {"check"}


def row(number, first, last, before, after):
    return f"""[[node.key]]
AdminKeyName = "key {number}"
LocalKeyName = "{number}"
PeerKeyName = "{number}"
Peers = ["any"]
Protocol = "TCP-AO"
ProtocolSpecificInfo = "options"
KDF = "AES-128-CMAC"
AlgID = "AES-128-CMAC-96"
Key = "{str(number) * 32}"
Direction = "both"
SendLifetimeStart = "{first}"
SendLifetimeEnd = "{last}"
AcceptLifetimeStart = "{before}"
AcceptLifetimeEnd = "{after}"
"""


def node(name, address, rows):
    return f'[[node]]\nname = "{name}"\naddress = "{address}"\n' + "".join(rows)


YEARS = [
    row(1, "20230101000000Z", "20240108000000Z", "20221231000000Z", "20240109000000Z"),
    row(2, "20240101000000Z", "20250108000000Z", "20231231000000Z", "20250109000000Z"),
    row(3, "20250101000000Z", "20260108000000Z", "20241231000000Z", "20260109000000Z"),
]
R1, R2 = "20010db8000000000000000000000001", "20010db8000000000000000000000002"
TWO_ROUTERS = f"""aotcp-link 1
a {R1} 50000
b {R2} 179
clock a 1704067199
clock b 1704067199
open a 4294966000
listen b 7000
send a
deliver b 1
send b
deliver a 2
clock a 1704067200
clock b 1704067200
send a
deliver b 3
fill a 4000 61
fill b 4000 62
send b
send b
send b
deliver a 4
deliver a 5
deliver a 6
send a
send a
send a
deliver b 7
deliver b 8
deliver b 9
take a 4000
take b 4000
close a
send a
deliver b 10
close b
send b
deliver a 11
send a
deliver b 12
take a 1
take b 1
"""
SHOWN = "4500002800004000400626ce0a0000010a00000203e807d000000065000000c95010ffff8eec0000\n"


def own_runs(folder):
    keys = folder / "two-routers.toml"
    keys.write_text(node("r1", R1, YEARS) + node("r2", R2, YEARS))
    overlap = folder / "overlap.toml"
    overlap.write_text(node("r1", R1, YEARS[:1] + YEARS[:1]))
    yield "two routers over a year", ["link", str(keys)], TWO_ROUTERS.encode()
    yield "key file with an overlap", ["keys", str(overlap), "20240101000000Z"], b""
    yield "datagrams shown", ["show"], SHOWN.encode()


def stored_runs(folder, kinds):
    for kind in kinds or sorted(path.stem for path in CASES.glob("*.txt")):
        for case in case_file.read(CASES / f"{kind}.txt")[:OF_A_KIND] if kind != "none" else []:
            yield f"{kind}/{case.name}", case_file.words_over(case, folder), case.parts.get("input", b"")


def run(program, library, words, text, **faults):
    """Runs the program over a file: what a pipe gives at once differs from run to run, and so the number of reads."""
    names = {"LD_PRELOAD": str(library)} | {name: str(value) for name, value in faults.items()}
    with tempfile.TemporaryFile() as source:
        source.write(text)
        source.seek(0)
        return subprocess.run([program, *words], stdin=source, capture_output=True, check=False, env=os.environ | names)


def ends_alike(one, other):
    return (one.returncode, one.stdout, one.stderr) == (other.returncode, other.stdout, other.stderr)


def tried(program, library, folder, name, words, text):
    """How many faults were made in a run, and which of them ended amiss."""
    counts = folder / "seen"
    whole = run(program, library, words, text, FAULTS_SEEN=counts)
    seen = dict(zip(TEXTS, map(int, counts.read_text().split())))
    amiss = []
    for kind, (status, said) in TEXTS.items():
        for number in range(1, seen[kind] + 1):
            got = run(program, library, words, text, **{f"FAIL_{kind}": number})
            part = kind == "WRITE" or bool(words) and words[0] in AS_IT_READS
            right = got.returncode == status and got.stderr == said
            right &= whole.stdout.startswith(got.stdout) if part else got.stdout == b""
            # A word that isn't hexadecimal is told as such also where there is no memory for its bytes.
            right |= kind == "MEMORY" and whole.returncode == 4 and ends_alike(got, whole)
            if not right:
                amiss.append(f"{name}: {kind.lower()} {number}: status {got.returncode}, {len(got.stdout)} bytes, {got.stderr!r}")
    print(f"{name}: {seen['MEMORY']} requests for memory, {seen['READ']} reads, {seen['WRITE']} writes, {len(amiss)} amiss")
    return sum(seen.values()), amiss


def main():
    program = str(pathlib.Path(sys.argv[1]).resolve())
    with tempfile.TemporaryDirectory() as place:
        folder = pathlib.Path(place)
        library = folder / "faults.so"
        subprocess.run(["cc", "-O2", "-shared", "-fPIC", "-o", library, HERE / "faults.c", "-ldl"], check=True)
        runs = [*own_runs(folder), *stored_runs(folder, sys.argv[2:])]
        total, amiss = 0, []
        for name, words, text in runs:
            made, wrong = tried(program, library, folder, name, words, text)
            total += made
            amiss += wrong
    print(f"{total} faults, {len(amiss)} amiss", *amiss[:20], sep="\n  ")
    sys.exit(bool(amiss))


if __name__ == "__main__":
    main()
