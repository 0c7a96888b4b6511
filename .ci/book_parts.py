"""The parts of the book, as `.ci/book.txt` has them and as docs/BOOK.md shows them. `.ci/closed_book.py` stands on this.

A line of book.txt begins with a word: `part` its number and name, `says` what it answers, `bar` the most lines, `top` a file and
definitions, `later` a file and definitions of a later part, with `|` and what to read for them till then; `file` files, with `|` and a text
where the first sentence of the file won't do; `skip` files that a first reading leaves out; `outside` a module of the toolchain's crates, or what
its modules begin with, and names of it (`*` for any), with `|` and what they mean. A file is CRATE/NAME for crates/CRATE/specs/NAME.antt."""
import dataclasses
import difflib
import re
import sys

import book

BOOK = book.TOP / "docs/BOOK.md"
BEGIN, END = "<!-- parts: written by `.ci/closed_book.py --write` from .ci/book.txt -->", "<!-- end of parts -->"
MOST_LINES = 255


@dataclasses.dataclass
class Part:
    """A part: where it stands, and what its lines say."""
    place: int
    number: str
    name: str
    says: str = ""
    bar: int = 0
    tops: list = dataclasses.field(default_factory=list)
    later: dict = dataclasses.field(default_factory=dict)
    rows: list = dataclasses.field(default_factory=list)
    skipped: list = dataclasses.field(default_factory=list)
    outside: list = dataclasses.field(default_factory=list)

    def all_files(self):
        return [file for files, _ in self.rows for file in files] + self.skipped

    def takes(self, path, name):
        return any(is_within(path, module) and (name in names or "*" in names) for module, names, _ in self.outside)

    def untaken(self, paths):
        """The modules outside that are listed, and of which nothing is taken."""
        return [module for module, _, _ in self.outside if not any(is_within(path, module) for path in paths)]

    def add(self, word, text):
        """What one line says; whether its word is known."""
        left, _, said = (it.strip() for it in text.partition("|"))
        names = left.split()
        if word == "says":
            self.says = text
        elif word == "bar":
            self.bar = int(text)
        elif word == "top":
            self.tops += [(path_of(names[0]), it) for it in names[1:]]
        elif word == "later":
            self.later |= {(path_of(names[0]), it): said for it in names[1:]}
        elif word == "file":
            self.rows.append(([path_of(it) for it in names], said))
        elif word == "skip":
            self.skipped += [path_of(it) for it in names]
        elif word == "outside":
            self.outside.append((names[0], names[1:], said))
        else:
            return False
        return True


def is_within(path, module):
    return path == module or path.startswith(module + ".")


def path_of(short):
    return short.replace("/", "/specs/", 1) + ".antt"


def short_of(file):
    return re.sub(r"/(specs|src)/", "/", file).rsplit(".", 1)[0]


def parts():
    """The parts of book.txt, in its order."""
    found = []
    for number, line in enumerate((book.TOP / ".ci/book.txt").read_text(encoding="utf-8").splitlines(), 1):
        if not line or line.startswith("#"):
            continue
        word, _, text = line.partition(" ")
        if word == "part":
            roman, _, name = text.partition(": ")
            found.append(Part(len(found), roman, name))
        elif not found or not found[-1].add(word, text.strip()):
            sys.exit(f".ci/book.txt, line {number}: nothing begins with {word} there")
    return found


def row(files, said):
    """A row of a table: the files with their lines, and what they say."""
    before, shown = None, []
    for file in files:
        crate, name = short_of(file).split("/", 1)
        shown.append(f"`{name if crate == before else f'{crate}/{name}'}`")
        before = crate
    lines = ", ".join(str(book.lines_of(it)[0]) for it in files)
    return f"| {', '.join(shown)} | {lines} | {said or book.first_sentence(files[0])} |"


def with_lines(files):
    return ", ".join(f"`{short_of(it)}` {book.lines_of(it)[0]}" for it in files)


def types_row(types):
    """The row of the plain types: those of a file together."""
    files = {}
    for file, name in types:
        files.setdefault(short_of(file), []).append(name)
    lines = sum(book.types(file)[name].count("\n") + 1 for file, name in types)
    shown = "; ".join(f"`{file}`: {', '.join(f'`{it}`' for it in names)}" for file, names in files.items())
    return f"| plain types, in `src/` | {lines} | {shown} |"


def page_of(part, types):
    """The lines of BOOK.md that a part has."""
    yield from ["", f"## Part {part.number}: {part.name}", "", part.says, ""]
    homes = {}
    for file, name in part.tops:
        homes.setdefault(short_of(file), []).append(f"`{name}`")
    tops = "; ".join(f"{', '.join(names)} ({file})" for file, names in homes.items())
    yield f"Tops: {tops}."
    yield from ["", "| file | lines | what it says |", "|---|---|---|"]
    yield from (row(files, said) for files, said in part.rows)
    if types:
        yield types_row(types)
    if part.skipped:
        yield f"| at a second reading | {sum(book.lines_of(it)[0] for it in part.skipped)} | {with_lines(part.skipped)} |"
    if part.later or part.outside:
        yield from ["", "| taken from elsewhere | what it means |", "|---|---|"]
    places = {}
    for (file, name), said in part.later.items():
        places.setdefault((file, said), []).append(f"`{name}`")
    yield from (f"| {', '.join(names)} ({short_of(file)}, later) | {said} |" for (file, said), names in places.items())
    for module, names, said in part.outside:
        shown = "" if names == ["*"] else f": {', '.join(f'`{it}`' for it in names)}"
        yield f"| `{module}`{shown} | {said} |"


def disagreements(every, types, is_to_write):
    """Where docs/BOOK.md differs from what book.txt makes of it; it is written anew first if asked."""
    wanted = [line for part, here in zip(every, types) for line in page_of(part, here)] + [""]
    text = BOOK.read_text(encoding="utf-8")
    before, begin, rest = text.partition(f"{BEGIN}\n")
    found, end, after = rest.partition(f"{END}\n")
    if not begin or not end:
        sys.exit(f"docs/BOOK.md: it must have the lines {BEGIN} and {END} once each, in this order")
    if is_to_write:
        found = "".join(f"{it}\n" for it in wanted)
        text = f"{before}{BEGIN}\n{found}{END}\n{after}"
        BOOK.write_text(text, encoding="utf-8")
    changes = difflib.unified_diff(found.splitlines(), wanted, n=0, lineterm="")
    lines = [it for it in changes if not it.startswith(("---", "+++", "@@"))]
    yield from (f"docs/BOOK.md: {line}" for line in lines[:6])
    if lines:
        yield f"docs/BOOK.md: {len(lines)} lines of its parts differ; `.ci/closed_book.py --write` writes them anew"
    pages = sorted(it.name for it in book.CRATES.glob("page_*") if (it / "src").is_dir())
    yield from (f"docs/BOOK.md: {it} isn't named among the pages" for it in pages if f"`{it}`" not in after)
    if text.count("\n") > MOST_LINES:
        yield f"docs/BOOK.md: {text.count(chr(10))} lines, and at most {MOST_LINES} may stand there"


def tell_list(every):
    for part in every:
        for file in part.all_files():
            print(f"{part.number} {file} {book.lines_of(file)[0]}")
