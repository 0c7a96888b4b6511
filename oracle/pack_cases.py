#!/usr/bin/env python3
"""Makes the archive of a kind of cases from a folder of files.

    oracle/pack_cases.py FOLDER KIND..

FOLDER/KIND has NAME.words, a line of words, and beside it NAME.input, NAME.status, NAME.out, NAME.err and, where the words name KEYS,
NAME.keys. It writes oracle/cases/KIND.txt in the order of the numbers at the names' ends, and sees that what it reads back is the same.
"""
import pathlib
import sys

import case_file

HERE = pathlib.Path(__file__).resolve().parent


def cases_in(folder):
    for words in sorted(folder.glob("*.words"), key=lambda path: int(path.stem.rsplit("-", 1)[1])):
        base = str(words.with_suffix(""))
        present = {part: pathlib.Path(f"{base}.{part}") for part in case_file.PARTS}
        parts = {part: path.read_bytes() for part, path in present.items() if path.exists()}
        status = int(pathlib.Path(f"{base}.status").read_text(encoding="ascii"))
        yield case_file.Case(words.stem, words.read_text(encoding="utf-8").split(), status, parts, [])


def main():
    for kind in sys.argv[2:]:
        cases = list(cases_in(pathlib.Path(sys.argv[1]) / kind))
        path = HERE / "cases" / f"{kind}.txt"
        path.write_text(case_file.written(cases), encoding="utf-8")
        if case_file.read(path) != cases:
            sys.exit(f"{path}: what it says isn't what was packed")
        print(f"{kind}: {len(cases)} cases, {path.stat().st_size} bytes")


if __name__ == "__main__":
    main()
