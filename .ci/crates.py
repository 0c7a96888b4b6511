#!/usr/bin/env python3
"""Whether crates.txt, the folders of `crates` and the tables of docs/ARCHITECTURE.md name the same crates, each once,
and whether those tables say what crates.txt and the crates' own heads say. Names what is missing, stands twice or
differs, and fails. Prints how many crates there are and the longest chain of crates that stand on one another, which
is what a change at the bottom has to go through.

    .ci/crates.py            checks
    .ci/crates.py --write    writes the tables of docs/ARCHITECTURE.md anew: a table for each heading of crates.txt, a
                             row for each crate, with the first sentence of its src/lib.rt (or src/main.rt) and those
                             crates on which it stands that none of the others brings with it
"""
import collections
import difflib
import pathlib
import re
import sys

TOP = pathlib.Path(__file__).resolve().parent.parent
ARCHITECTURE = TOP / "docs/ARCHITECTURE.md"
BEGIN, END = "<!-- crates: written by `.ci/crates.py --write` -->", "<!-- end of crates -->"


def listed():
    """The crates of crates.txt, in its order, those on which each stands, and the heading above each."""
    names, under, headings, heading = [], {}, {}, ""
    for line in (TOP / "crates.txt").read_text(encoding="utf-8").splitlines():
        if line.startswith("#"):
            heading = line.lstrip("# ")
        elif line:
            head, _, rest = line.partition(":")
            name = head.split()[0]  # after the name may stand `staticlib`
            names.append(name)
            under[name], headings[name] = rest.split(), heading
    return names, under, headings


def first_sentence(name):
    """The first sentence of a crate's head, or None where it has none."""
    files = [TOP / "crates" / name / "src" / file for file in ("lib.rt", "main.rt")]
    lines = next((file.read_text(encoding="utf-8").splitlines() for file in files if file.is_file()), [])
    words = []
    for line in lines:
        if not line.startswith("//! "):
            break
        words.append(line[4:].strip())
    found = re.match(r".*?[^.\d]\.(?= |$)", " ".join(words))
    return found and found.group()


def above_all(name, under):
    """The crates on which one stands that none of the others of them brings with it."""
    reached = {}

    def reach(it):
        if it not in reached:
            reached[it] = set(under.get(it, [])).union(*map(reach, under.get(it, [])))
        return reached[it]

    brought = set().union(*map(reach, under[name]))
    return [it for it in under[name] if it not in brought]


def tables(names, under, headings):
    """The lines of the tables: one for each heading, with a row for each crate."""
    heading = None
    for name in names:
        if headings[name] != heading:
            heading = headings[name]
            title = f"### {heading[:1].upper()}{heading[1:]}"
            yield from ["", title, "", "| crate | what it is | stands on |", "|---|---|---|"]
        said = (first_sentence(name) or "").replace("|", "\\|")
        yield f"| `{name}` | {said} | {', '.join(f'`{it}`' for it in above_all(name, under))} |"
    yield ""


def parts(text):
    """The text of ARCHITECTURE before its tables, the lines of the tables, and the text after them."""
    before, begin, rest = text.partition(f"{BEGIN}\n")
    inside, end, after = rest.partition(f"{END}\n")
    if not begin or not end or BEGIN in rest or END in after:
        sys.exit(f"docs/ARCHITECTURE.md: it must have the lines {BEGIN} and {END} once each, in this order")
    return before, inside.splitlines(), after


def disagreements(wanted, where, names):
    counts = collections.Counter(names)
    yield from (f"{where}: {name} is missing" for name in wanted if not counts[name])
    yield from (f"{where}: {name} is no crate" for name in counts if name not in wanted)
    yield from (f"{where}: {name} stands {count} times" for name, count in counts.items() if count > 1)


def differences(wanted, found):
    """Where the tables say something else than they should: `-` what stands there, `+` what should."""
    every = difflib.unified_diff(found, wanted, n=0, lineterm="")
    lines = [it for it in every if not it.startswith(("---", "+++", "@@"))]
    yield from (f"docs/ARCHITECTURE.md: {line}" for line in lines[:6])
    if lines:
        yield f"docs/ARCHITECTURE.md: {len(lines)} lines of its tables differ; `.ci/crates.py --write` writes them anew"


def longest_chain(under):
    chains = {}

    def chain(name):
        if name not in chains:
            chains[name] = max((chain(it) for it in under.get(name, [])), key=len, default=[]) + [name]
        return chains[name]

    return [it for it in max((chain(it) for it in under), key=len) if it in under]


def main():
    names, under, headings = listed()
    wanted = list(tables(names, under, headings))
    before, inside, after = parts(ARCHITECTURE.read_text(encoding="utf-8"))
    if sys.argv[1:] == ["--write"]:
        ARCHITECTURE.write_text("\n".join([f"{before}{BEGIN}", *wanted, f"{END}\n{after}"]), encoding="utf-8")
        inside = wanted
    elif sys.argv[1:]:
        sys.exit(__doc__)
    folders = [path.name for path in (TOP / "crates").iterdir() if (path / "src").is_dir()]
    rows = [it for line in inside for it in re.findall(r"^\| `(\w+)`", line)]
    silent = [name for name in names if not first_sentence(name)]
    faults = [*disagreements(names, "crates.txt", names), *disagreements(names, "crates", folders),
              *disagreements(names, "docs/ARCHITECTURE.md", rows), *differences(wanted, inside),
              *(f"crates/{name}: its src/lib.rt begins with no sentence that says what it is" for name in silent)]
    chain = longest_chain(under)
    print(f"crates: {len(names)}; the longest chain has {len(chain)}: {' '.join(chain)}")
    print(*faults, sep="\n", end="\n" if faults else "")
    return 1 if faults else 0


if __name__ == "__main__":
    sys.exit(main())
