#!/usr/bin/env python3
"""Runs a built program on the stored cases, and compares status, output and error text byte for byte.

    oracle/cases.py PROGRAM [KIND..]

PROGRAM is the built aotcp. It takes all kinds of oracle/cases, or these. Status 0: none differs.
"""
import pathlib
import subprocess
import sys
import tempfile

import case_file

STORED = pathlib.Path(__file__).resolve().parent / "cases"


def differs(program, case, folder):
    """What differs from the case: none of status, output and error text, or some."""
    words = case_file.words_over(case, folder)
    got = subprocess.run([program, *words], input=case.parts.get("input", b""), capture_output=True, check=False)
    pairs = {
        "status": (got.returncode, case.status),
        "output": (got.stdout, case.parts["out"]),
        "error text": (got.stderr, case.parts["err"]),
    }
    return [name for name, (one, other) in pairs.items() if one != other]


def main():
    program = str(pathlib.Path(sys.argv[1]).resolve())
    kinds = sys.argv[2:] or sorted(path.stem for path in STORED.glob("*.txt"))
    total = amiss = 0
    for kind in kinds:
        cases = case_file.read(STORED / f"{kind}.txt")
        with tempfile.TemporaryDirectory() as folder:
            found = {case.name: differs(program, case, pathlib.Path(folder)) for case in cases}
        wrong = [f"{name} ({', '.join(what)})" for name, what in found.items() if what]
        print(f"{kind}: {len(cases)} cases, {len(wrong)} differ", *wrong, sep="\n    ", flush=True)
        total, amiss = total + len(cases), amiss + len(wrong)
    print(f"{total} cases, {amiss} differ")
    sys.exit(amiss > 0)


if __name__ == "__main__":
    main()
