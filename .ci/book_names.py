#!/usr/bin/env python3
"""The names, the sources and the arguments of the book: which names have more than one definition in it, which definitions' comments name
no source, and which functions have more than five arguments or neighbouring arguments of one plain type. The book
here is all crates of definitions, with the pages: each crate whose name begins with `book_` or `page_`.
A definition is what a file of specs/ defines by a name of its own: functions, types and the constructors of its types; the fields
of a record belong to it, and are none. An operator that `do` blocks are written over, `◌>>=◌`, has one for each type of what is read. A
source is an RFC or another standard with the section, or *own* in brackets. Plain types are numbers, truth values, and lists and
options of those; arguments that the signature names (`(low high : ℕ)`) count as told apart.
Plain types in src/ are names too: one that another type has, of src/ or of specs/, means two things. Those that did when this was first
looked at are in KNOWN_TYPES, which may only lose names: one that is there and has a single meaning now fails as well.
Prints the lists and how long they are; fails on nothing, but with --strict where one of them isn't empty. With --equal it also
prints the definitions that have equal bodies but for their own names, which is no fault."""
import pathlib
import re
import sys

CRATES = pathlib.Path(__file__).resolve().parent.parent / "crates"
DEFINITION = re.compile(r"(?:(?:pub|abbrev|unfoldable|opaque|record|data|ghost) )+(\S+)")
CONSTRUCTORS = re.compile(r"  (?:pub )?([A-Z]\w*(?: [A-Z]\w*)*) :")
STANDARD = r"(?:RFC|FIPS|NIST|IEEE|ISO|ITU-T|pcapng|draft-\S+)[\w ./-]*, (?:(?:sections?|appendix|figure|table|clause|algorithm) |\d)"
NAMED = r"libpcap|pcap-savefile|SplitMix64|IANA"
SOURCE = re.compile(rf"{STANDARD}|\((?:[^()]*\W)?(?:own|{NAMED})\b[^()]*\)")
FOR_DO = {"◌>>=◌"}
KNOWN_TYPES = {"Act", "Change", "Finding", "Front", "Head", "Kept", "KeyIds", "LinkType", "NoRow", "RecordFault", "Timed", "Told", "Turn"}
PLAIN = re.compile(r"(?:(?:List|Option) \(?)*(?:ℕ|Bool)\)*")
MOST_ARGUMENTS = 5


def files():
    for crate in sorted(CRATES.iterdir()):
        if crate.name.startswith(("book_", "page_")):
            yield from sorted(crate.glob("specs/*.antt"))


def plain_types():
    """Each plain type of the crates' sources, as its name and its place; those of laws.rt are none."""
    for path in sorted(it for crate in CRATES.iterdir() if crate.name.startswith(("book_", "page_")) for it in crate.glob("src/**/*.rt")):
        for name in re.findall(r"^pub (?:struct|enum|type) (\w+)", path.read_text(encoding="utf-8"), re.M):
            yield name, f"{path.relative_to(CRATES).parts[0]}/src/{path.stem}"


def definitions(path):
    """Each definition of a file, as its name, its comment and its text; a constructor has neither. A blank line ends one."""
    for part in re.split(r"\n\s*\n", path.read_text(encoding="utf-8")):
        lines = part.split("\n")
        comment = " ".join(line[2:].strip() for line in lines if line.startswith("--"))
        body = [line for line in lines if not re.match(r"--|(pub )?(use|mod) |infix|\s*$", line)]
        if not body:
            continue
        names = [DEFINITION.match(body[0])[1]] if DEFINITION.match(body[0]) else []
        if re.match(r"(pub )?data ", body[0]):
            for found in map(CONSTRUCTORS.match, body[1:]):
                names += found[1].split() if found else []
        yield from ((name, comment if first == 0 else None, "\n".join(body)) for first, name in enumerate(names))


def split_at(text, mark):
    """The parts of a text between marks that stand in no bracket."""
    parts, depth = [""], 0
    for word in re.split(r"([(){}\[\]]|" + mark + ")", text):
        depth += {"(": 1, "{": 1, "[": 1, ")": -1, "}": -1, "]": -1}.get(word, 0)
        if depth == 0 and re.fullmatch(mark, word):
            parts.append("")
        else:
            parts[-1] += word
    return [" ".join(it.split()) for it in parts]


def arguments(body):
    """The arguments of a function, without those in braces: of each its type, and its name where the signature has one."""
    head = re.match(r"(?:(?:pub|abbrev|unfoldable|opaque|ghost) )+\S+ :\s(.*?)(?=\n\S|\Z)", body, re.S)
    for part in split_at(re.sub(r"  -- .*", "", head[1]), " → | →\n")[:-1] if head else []:
        bound = [re.fullmatch(r"\(([\w' -]+) : (.*)\)", it) for it in split_at(part, r"(?<=\)) (?=\()")]
        if all(bound):
            yield from ((it[2], name) for it in bound for name in it[1].split())
        elif not part.startswith("{"):
            yield part, None


def unlike(found):
    """The runs of neighbouring arguments that have one plain type and no names."""
    runs, run = [], []
    for kind, name in [*found, (None, None)]:
        if run and (kind != run[0] or name):
            runs += [run] if len(run) > 1 and PLAIN.fullmatch(run[0]) else []
            run = []
        run = run + [kind] if kind and not name else []
    return runs


def tell_arguments(found):
    """Prints the functions whose arguments a reader can't keep apart; whether there is none."""
    many = sorted(((len(args), place, name) for place, name, args in found if len(args) > MOST_ARGUMENTS), reverse=True)
    alike = sorted(((max(map(len, unlike(args))), place, name, unlike(args)) for place, name, args in found if unlike(args)), key=lambda it: (-it[0], *it[1:3]))
    for count, place, name in many:
        print(f"{count} arguments: {place}: {name}")
    for _, place, name, runs in alike:
        print(f"arguments of one type: {place}: {name}: {'; '.join(', '.join(run) for run in runs)}")
    print(f"functions with more than {MOST_ARGUMENTS} arguments: {len(many)}; with neighbouring arguments of one plain type and no names: {len(alike)}")
    return not many and not alike


def tell_types(homes):
    """Prints the plain types whose names mean two things; whether they are those that are known."""
    places = {}
    for name, place in plain_types():
        places.setdefault(name, []).append(place)
    several = {name: found + homes.get(name, []) for name, found in places.items() if len(found + homes.get(name, [])) > 1}
    for name, found in sorted(several.items()):
        print(f"{'known' if name in KNOWN_TYPES else 'new'}: a type with two meanings: {name}: {', '.join(found)}")
    gone = sorted(KNOWN_TYPES - several.keys())
    print(*(f"KNOWN_TYPES has {name}, which has one meaning now: take it out" for name in gone), sep="\n", end="\n" if gone else "")
    print(f"plain types whose names mean two things: {len(several)}, of which {len(KNOWN_TYPES)} are known")
    return several.keys() == KNOWN_TYPES


def tell_equal(bodies):
    """Prints the definitions whose bodies are equal but for their own names."""
    equal = {body: places for body, places in bodies.items() if len(places) > 1}
    for places in sorted(equal.values()):
        print(f"equal bodies: {', '.join(places)}")
    print(f"bodies that several definitions have: {len(equal)}")


def main(words):
    homes, without, found, bodies = {}, [], [], {}
    for path in files():
        place = f"{path.parts[-3]}/{path.stem}"
        for name, comment, body in definitions(path):
            homes.setdefault(name, []).append(place)
            if comment is not None:
                found.append((place, name, list(arguments(body))))
                without += [] if SOURCE.search(comment) else [f"{place}: {name}"]
                bodies.setdefault(re.sub(rf"(?<![\w']){re.escape(name)}(?![\w'])", "_", body), []).append(f"{place}: {name}")
    several = {name: places for name, places in homes.items() if len(places) > 1 and name not in FOR_DO}
    for name, places in sorted(several.items()):
        print(f"defined {len(places)} times: {name}: {', '.join(places)}")
    for one in without:
        print(f"names no source: {one}")
    told_apart, are_known = tell_arguments(found), tell_types(homes)
    if "--equal" in words:
        tell_equal(bodies)
    print(f"names of the book with more than one definition: {len(several)}; definitions that name no source: {len(without)}")
    return 1 if "--strict" in words and (several or without or not told_apart or not are_known) else 0


sys.exit(main(sys.argv[1:]))
