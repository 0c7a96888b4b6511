#!/usr/bin/env python3
"""Whether the lines of `.rt` files have at most 120 columns, but for attributes, each of which `rt fmt` writes as one line.

    .ci/widths.py   prints the wide lines, and fails where there is one
"""
import pathlib
import sys

TOP = pathlib.Path(__file__).resolve().parent.parent
COLUMNS = 120


def wide_lines():
    """Each wide line of the crates' code, with its place."""
    for path in sorted((TOP / "crates").rglob("*.rt")):
        if "out" not in path.relative_to(TOP / "crates").parts:
            for number, line in enumerate(path.read_text(encoding="utf-8").splitlines(), 1):
                if len(line) > COLUMNS and not line.lstrip().startswith("#["):
                    yield f"{path.relative_to(TOP)}:{number}: {line}"


def main():
    wide = list(wide_lines())
    print(*wide, sep="\n", end="\n" if wide else "")
    print(f"lines of more than {COLUMNS} columns: {len(wide)}")
    return 1 if wide else 0


if __name__ == "__main__":
    sys.exit(main())
