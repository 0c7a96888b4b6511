"""The book as its files are written: the definitions of a file, what each cites, and what a definition reaches through others.
A file is CRATE/specs/NAME.antt or, where it declares a plain type, CRATE/src/NAME.rt. `.ci/closed_book.py` stands on this."""
import functools
import pathlib
import re

TOP = pathlib.Path(__file__).resolve().parent.parent
CRATES = TOP / "crates"
WORD = re.compile(r"[^\s(){}\[\],;:]+")
USE = re.compile(r"(?:pub\s+)?(?:ghost\s+)?use\s+Rattle\.([\w.]+?)(?:\.\{([^}]*)\}|\s+as\s+(\w+))?;?\s*(?=\n|\Z)")
HEAD = re.compile(r"(?:(?:pub|abbrev|unfoldable|opaque|record|data)\s+)*(\S+)")
CONSTRUCTORS = re.compile(r"\s+(?:pub\s+)?([A-Z]\w*(?: [A-Z]\w*)*)\s*:")
TYPE = re.compile(r"^pub (?:struct|enum) (\w+).*?(?:^\}|;$)", re.M | re.S)


@functools.cache
def read(file):
    return (CRATES / file).read_text(encoding="utf-8")


@functools.cache
def imports(text):
    """Names of a file: the path of the module and the name there, or a module itself under a name."""
    found = {}
    for path, names, alias in USE.findall(text):
        if not names:
            found[alias or path.rsplit(".", 1)[-1]] = (path, None)
        for name in re.split(r",\s*", names.strip()) if names else []:
            here, _, there = name.partition(" as ")
            found[(there or here).strip()] = (path, here.strip())
    return found


@functools.cache
def definitions(file):
    """The definitions of a file by name, without comments; the constructors of a type belong to it. A blank line ends one."""
    found = {}
    for part in re.split(r"\n\s*\n", read(file)):
        lines = [it for it in part.split("\n") if it.strip() and not re.match(r"\s*--|(pub )?(use|mod) |infix", it)]
        if not lines:
            continue
        body = "\n".join(re.sub(r"  -- .*$", "", it) for it in lines)
        found[HEAD.match(lines[0])[1]] = body
        if re.match(r"(pub )?data ", lines[0]):
            for line in lines[1:]:
                names = CONSTRUCTORS.match(line)
                found.update({it: body for it in names[1].split()} if names else {})
    if "◌>>=◌" in found:
        found["do"] = found["◌>>=◌"]
    return found


@functools.cache
def types(file):
    """The plain types that a file of src/ declares, each with its lines but for comments and blank ones."""
    found = {}
    for match in TYPE.finditer(read(file)):
        lines = [it for it in match[0].split("\n") if it.strip() and not it.strip().startswith(("//", "#["))]
        found[match[1]] = "\n".join(lines)
    return found


@functools.cache
def module(path):
    """The file of a module, or None of a crate of the kit."""
    crate, *rest = path.split(".")
    if not (CRATES / crate).is_dir() or not rest or rest[0] != "specs":
        return None
    if rest[1:2] == ["declared"]:
        for end in (f"{crate}/src/{'/'.join(rest[2:3])}.rt", f"{crate}/src/lib.rt"):
            if (CRATES / end).is_file():
                return end
    for end in range(len(rest), 1, -1):
        file = f"{crate}/specs/{'/'.join(rest[1:end])}.antt"
        if (CRATES / file).is_file():
            return file
    return None


@functools.cache
def names_of(file):
    """What the words of a file mean: its imports and its own definitions."""
    path = file.removesuffix(".antt").replace("/", ".")
    found = dict(imports(read(file)))
    if "◌>>=◌" in found:
        found["do"] = (found["◌>>=◌"][0], "◌>>=◌")
    return {**{it: (path, it) for it in definitions(file)}, **found}


def cited(names, body):
    """The modules and names that the words of a body cite."""
    for word in set(WORD.findall(body)):
        first, *rest = word.split(".")
        name, rest = (word, []) if word in names else (first, rest)
        if name in names:
            path, there = names[name]
            yield path, there or (rest[0] if rest else None)


def reached(names, body, origin, stop=lambda file, name: False):
    """Each definition that a body reaches, as file and name, with the file that cites it first; and what it reaches of the kit, as
    module and name. It goes no further at what `stop` tells."""
    found, kit, todo = {}, {}, [(origin, names, body)]
    while todo:
        where, names, body = todo.pop()
        for path, wanted in cited(names, body):
            target = module(path)
            if target and target.endswith(".rt"):
                wanted = next((it for it in [*path.split(".")[3:], wanted] if it in types(target)), wanted)
            if target is None:
                kit.setdefault((path, wanted), where)
            elif (target, wanted) not in found:
                found[target, wanted] = where
                if target.endswith(".antt") and wanted in definitions(target) and not stop(target, wanted):
                    todo.append((target, names_of(target), definitions(target)[wanted]))
    return found, kit


def lines_of(file):
    """How many lines a file's definitions have, and how many definitions: without comments, blank lines and imports."""
    bodies = set((types if file.endswith(".rt") else definitions)(file).values())
    return sum(it.count("\n") + 1 for it in bodies), len(bodies)


def first_sentence(file):
    """The first sentence of the comment at the head of a file, or None where it has none."""
    words = []
    for line in read(file).split("\n"):
        if not line.startswith("--"):
            break
        words.append(line[2:].strip())
    found = re.match(r".*?\.(?= [A-Z`]|$)", " ".join(words))
    return found and found[0]
