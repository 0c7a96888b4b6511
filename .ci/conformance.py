#!/usr/bin/env python3
"""Whether all that docs/CONFORMANCE.md names exists: each definition in its file of `specs`, and each law, test, edit and example in the
last column of its tables. Names what is missing, and fails."""
import pathlib
import re
import sys

TOP = pathlib.Path(__file__).resolve().parent.parent
DEFINITION = re.compile(r"`(\w+)/(\w+): ([\w, ]+)`")
NAME = re.compile(r"`([a-z0-9]+(?:_[a-z0-9]+)+)`")


def missing_definitions(text):
    for crate, file, names in DEFINITION.findall(text):
        path = TOP / "crates" / crate / "specs" / f"{file}.antt"
        body = path.read_text(encoding="utf-8") if path.exists() else ""
        for name in names.split(", "):
            if not re.search(rf"^(?:(?:pub|abbrev|unfoldable|opaque|record|data) )+{name}\b", body, re.M):
                yield f"{crate}/{file}: {name}"


def known_names():
    """The functions of all crates, the crates, the edits, and the examples, without the words in front that say `run` and their command."""
    for path in TOP.glob("crates/*/src/**/*.rt"):
        yield from re.findall(r"\bfn (\w+)", path.read_text(encoding="utf-8"))
    yield from (path.name for path in TOP.glob("crates/*"))
    for pattern in ["crates/*/must-fail/*.edit", "more-edits/*/*.edit"]:
        yield from (path.stem for path in TOP.glob(pattern))
    for path in TOP.glob("examples/*"):
        words = path.name.split("-")
        yield from ("_".join(words[first:]) for first in range(4))


def missing_names(text):
    known = set(known_names())
    for line in text.splitlines():
        if line.startswith("| "):
            yield from (name for name in NAME.findall(line.split("|")[-2]) if name not in known)


def main():
    text = (TOP / "docs" / "CONFORMANCE.md").read_text(encoding="utf-8")
    missing = [*missing_definitions(text), *missing_names(text)]
    for name in missing:
        print(f"docs/CONFORMANCE.md names what isn't there: {name}")
    return 1 if missing else 0


if __name__ == "__main__":
    sys.exit(main())
