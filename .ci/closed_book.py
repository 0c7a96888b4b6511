#!/usr/bin/env python3
"""Whether the book is closed, whole and short. `.ci/book.txt` has its parts: of each its tops, its files in the order to read them, the
most lines that they may have, and what the part takes from outside. This names what is wrong, and fails, where

- a definition that a part's tops reach, directly or through others, is in no file of that part or of an earlier one, nor listed there as
  taken from a later part or from outside the repository; or where something listed isn't taken;
- a file of definitions of a `book_*` crate is in no part, or in two, or a part has a file or a top that is none;
- a definition cites a file that stands after its own in the part's order of reading;
- a part has more lines than its bar, without comments, blank lines and imports, with the plain types that its tops are the first to reach;
- a line of a `book_*` crate's definitions has more than 100 columns, comments and imports too;
- what a clause of `ao_run::run` cites stands neither in the book nor in the list below of what may stand outside;
- docs/BOOK.md doesn't have the parts as `--write` writes them, or doesn't name a `page_*` crate.

    .ci/closed_book.py           checks, and prints the lines and definitions of each part
    .ci/closed_book.py --list    also the reading list, and the definitions and types that no top reaches
    .ci/closed_book.py --write   writes the parts in docs/BOOK.md anew
"""
import sys

sys.dont_write_bytecode = True  # no folder of them in .ci
import book
import book_parts

# What may stand outside the book, a file of a crate: what was read and written, the relations by which the top call speaks of it and
# of a check that writes as it reads, the statements of the laws of each run of a link and of a node, what a run tells of
# messages, and the line form of a pcap file.
OUTSIDE = {"ao_base/specs/Outside.antt", "ao_run/specs/Runs.antt", "ao_run/specs/Outcomes.antt", "ao_run/specs/Obeys.antt",
           "ao_run/specs/Delivers.antt", "ao_run/specs/Completes.antt",
           "law_headline/specs/GetsThrough.antt", "law_headline/specs/Lawful.antt", "law_link/specs/Entries.antt",
           "law_link/specs/Headline.antt", "law_link/specs/Laws.antt", "law_link/specs/Sessions.antt",
           "law_seen/specs/Seen.antt", "law_seen/specs/Summaries.antt", "law_seen/specs/Apart.antt", "law_seen/specs/Carried.antt",
           "law_progress/specs/Progress.antt", "law_node/specs/Alone.antt",
           "cmd_link/specs/Tellings.antt", "law_pcap/specs/LineForms.antt", "cmd_check/specs/CheckedLines.antt",
           "cmd_check/specs/CheckedPackets.antt", "cmd_check/src/halt.rt", "pcap_file/specs/Reads.antt"}
ENTRY, FUNCTION = "ao_run/src/top.rt", "run"
COLUMNS = 100


def files_of_books():
    return [str(it.relative_to(book.CRATES)) for it in sorted(book.CRATES.glob("book_*/specs/**/*.antt")) if it.name != "Lib.antt"]


def types_of_books():
    """Each plain type of the books, as its file and its name, but for the private ones and the empty functions of laws."""
    for path in sorted(book.CRATES.glob("book_*/src/**/*.rt")):
        file = str(path.relative_to(book.CRATES))
        yield from ((file, name) for name in book.types(file))


def misplaced(parts, found):
    """The files that aren't in exactly one part, and the tops that are no definitions."""
    held = [file for part in parts for file in part.all_files()]
    yield from (f"{file}: in no part of .ci/book.txt" for file in found if file not in held)
    yield from (f"{file}: named in .ci/book.txt, and no file of a book" for file in held if file not in found)
    yield from (f"{file}: {held.count(file)} times in .ci/book.txt" for file in sorted(set(held)) if held.count(file) > 1)
    for part in parts:
        for file, name in [*part.tops, *part.later]:
            if file not in found or name not in book.definitions(file):
                yield f"part {part.number}: {file} has no {name}"


def disorder(part):
    """The definitions that cite a later file of their part; what a second reading adds stands last."""
    order = {file: place for place, file in enumerate(part.all_files())}
    for file in order:
        for name, body in book.definitions(file).items():
            for path, wanted in book.cited(book.names_of(file), body):
                if order.get(book.module(path), -1) > order[file]:
                    yield f"part {part.number}: {file}: {name} cites {wanted} of {book.module(path)}, which stands after it in .ci/book.txt"


def walk(part):
    """What a part's tops reach, as file and name, and what of the kit, as module and name, each with the file that cites it first."""
    found, kit = {}, {}
    for file, name in part.tops:
        found.setdefault((file, name), "book.txt")
        more, taken = book.reached(book.names_of(file), book.definitions(file)[name], file, lambda *it: it in part.later)
        found |= {it: where for it, where in more.items() if it not in found}
        kit |= {it: where for it, where in taken.items() if it not in kit}
    return found, {it: where for it, where in kit.items() if not it[0].startswith("std.")}


def strays(part, homes, found, kit, earlier):
    """What a part's tops reach that it may not, and what it lists and doesn't take; a part may take what an earlier one lists."""
    for (file, name), where in sorted(found.items(), key=str):
        if file.endswith(".rt") and file.startswith("book_") or (file, name) in part.later:
            continue
        if homes.get(file, len(homes)) > part.place:
            yield f"part {part.number} reaches {file}: {name} (cited by {where}), which is in no file of it or of an earlier part"
    for path, name in sorted(kit, key=str):
        if not any(it.takes(path, name) for it in [*earlier, part]):
            yield f"part {part.number} takes {path}: {name} (cited by {kit[path, name]}) from outside, which .ci/book.txt doesn't list"
    yield from (f"part {part.number} lists {file}: {name}, and doesn't take it" for file, name in part.later if (file, name) not in found)
    yield from (f"part {part.number} lists {path}, and takes nothing of it" for path in part.untaken({path for path, _ in kit}))


def measure(part, types):
    """The lines and the definitions of a part, with those of its plain types."""
    counts = [book.lines_of(file) for file in part.all_files()]
    sizes = [book.types(file)[name].count("\n") + 1 for file, name in types]
    return sum(it[0] for it in counts), sum(it[1] for it in counts), sum(sizes), len(sizes)


def cited_by_run(homes):
    """What the clauses of the top call reach that stands neither in the book nor in the list of what may stand outside."""
    text = book.read(ENTRY)
    start = text.index(f"pub fn {FUNCTION}")
    found, _ = book.reached(book.imports(text), text[start:text.index("\n{", start)], ENTRY)
    for (file, name), where in sorted(found.items(), key=str):
        if not (file in homes or file in OUTSIDE or file == ENTRY or file.startswith("book_") and file.endswith(".rt")):
            yield f"outside the book: {file}: {name} (cited by {where})"


def wide_lines(found):
    for file in found:
        for line in book.read(file).splitlines():
            if len(line) > COLUMNS:
                yield f"more than {COLUMNS} columns: {file}: {line}"


def unreached(found, reached):
    """The definitions and the plain types of the books that no top reaches; a type's constructors stand for it."""
    bodies = {book.definitions(file).get(name) for file, name in reached if file.endswith(".antt")}
    for file in found:
        names = {}
        for name, body in book.definitions(file).items():
            names.setdefault(body, name)
        yield from (f"{file}: {name}" for body, name in names.items() if body not in bodies)
    yield from (f"{file}: type {name}" for file, name in types_of_books() if (file, name) not in reached)


def tell(part, size):
    lines, count, type_lines, types = size
    print(f"part {part.number}, {part.name}: {lines + type_lines} lines of at most {part.bar}: {count} definitions in {lines}, "
          f"{types} plain types in {type_lines}; {len(part.all_files())} files, {len(part.tops)} tops")


def look(parts, found):
    """The faults of the parts, what all of them reach, and each part's types."""
    homes = {file: part.place for part in parts for file in part.all_files()}
    faults, reached, types = list(cited_by_run(homes)), {}, []
    for part in parts:
        here, kit = walk(part)
        faults += [*strays(part, homes, here, kit, parts[:part.place]), *disorder(part)]
        known = set(types_of_books())
        types.append(sorted(it for it in here if it in known and it not in reached))
        reached |= here
        size = measure(part, types[-1])
        tell(part, size)
        if size[0] + size[2] > part.bar:
            faults.append(f"part {part.number}: {size[0] + size[2]} lines, and at most {part.bar} may stand there")
    return faults + list(wide_lines(found)), reached, types


def main(words):
    if [it for it in words if it not in ("--list", "--write")]:
        sys.exit(__doc__)
    parts, found = book_parts.parts(), files_of_books()
    faults = list(misplaced(parts, found))
    if not faults:
        more, reached, types = look(parts, found)
        faults = more + list(book_parts.disagreements(parts, types, "--write" in words))
        rest = list(unreached(found, reached))
        print(f"definitions and plain types that no top reaches: {len(rest)}")
        if "--list" in words:
            book_parts.tell_list(parts)
            print(*(f"no top reaches {it}" for it in rest), sep="\n")
    print(*faults, sep="\n", end="\n" if faults else "")
    return 1 if faults else 0


if __name__ == "__main__":
    sys.exit(main(sys.argv[1:]))
