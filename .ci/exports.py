#!/usr/bin/env python3
"""Names that a library's lib.rt exports and that no other crate names: neither its code, nor a contract, a definition or a proof of it.

    .ci/exports.py [CRATE..]   of these crates, or of all

A name counts as named by another crate where code there has `CRATE::NAME` or imports it in `use CRATE::{..}`, or where a contract, a
definition or a proof there cites `Rattle.CRATE.specs.declared.` up to that name. Left out are laws, which are there to be read (they take
no argument), and what a document names as `CRATE::NAME`. A type that an export has in its signature is needed all the same, and so is one
of the crate itself that stands in a field of an exported type, in the name of a type, or as a bound: each of these has a line that says
where. Prints a line for each other name, and how many there are; fails if there are any."""
import os
import re
import sys

TOP = os.path.dirname(os.path.dirname(os.path.abspath(__file__)))


def text_of(path):
    with open(path, encoding="utf-8") as it:
        return it.read()


def files(crate):
    for folder, _, names in os.walk(f"{TOP}/crates/{crate}"):
        if "/out" in folder[len(TOP):]:
            continue
        for name in names:
            if name.endswith((".rt", ".antt")):
                yield f"{folder}/{name}"


def tree(text, prefix=""):
    """The paths of a use tree, each with the name that it has there."""
    depth, part, parts = 0, "", []
    for it in text + ",":
        depth += (it == "{") - (it == "}")
        if it == "," and depth == 0:
            parts.append(part.strip())
            part = ""
        else:
            part += it
    for it in filter(None, parts):
        if "{" in it:
            head, rest = it.split("{", 1)
            yield from tree(rest.rsplit("}", 1)[0], prefix + head)
        else:
            path, _, alias = (prefix + it).partition(" as ")
            yield path.strip(), (alias or path.rsplit("::", 1)[-1]).strip()


def exports(crate):
    """The exported names, each with the path behind it."""
    root = text_of(f"{TOP}/crates/{crate}/src/lib.rt")
    root = re.sub(r"//[^\n]*", "", root)
    found = {}
    for uses in re.findall(r"^pub use ([^;]+);", root, re.M):
        for path, name in tree(uses):
            found[name] = path
    return found


def used_names(text, crate):
    """The names of a crate that code names."""
    found = set()
    for uses in re.findall(r"\buse (%s::[^;]+);" % crate, text):
        for path, _ in tree(uses):
            found.update(path.split("::")[1:])
    for path in re.findall(r"\b%s((?:::\w+)+)" % crate, text):
        found.update(path.split("::")[1:])
    for path, names in re.findall(r"Rattle\.%s\.specs\.declared\.([\w.]+?)(?:\.\{([^}]*)\}|(?=[\s;]))" % crate, text):
        found.update(path.split("."))
        found.update(re.findall(r"\w+", names))
    return found


def places(name, code, elsewhere):
    """Where code of a crate needs a type: a signature, or, for one that isn't from elsewhere, a field, a name of a type or a bound."""
    if not name[0].isupper() or name.isupper():
        return ""
    within = sorted(set(re.findall(r"^\s*pub fn (\w+)[^{]*\b%s\b[^{]*\{" % name, code, re.M)))
    if within:
        return f"in the signature of {', '.join(within[:4])}"
    if elsewhere:
        return ""
    kinds = [("in a field", r"^    pub \w+: [^\n]*\b%s\b"), ("behind another name", r"^pub type [^;]*=[^;]*\b%s\b"), ("as a bound", r"^impl<[^{]*: %s\b")]
    return next((kind for kind, form in kinds if re.search(form % name, code, re.M)), "")


def main(crates):
    every = sorted(it for it in os.listdir(f"{TOP}/crates") if os.path.isfile(f"{TOP}/crates/{it}/src/lib.rt"))
    programs = sorted(it for it in os.listdir(f"{TOP}/crates") if os.path.isfile(f"{TOP}/crates/{it}/src/main.rt"))
    texts = {it: "\n".join(map(text_of, files(it))) for it in every + programs}
    documents = "\n".join(text_of(f"{TOP}/docs/{it}") for it in sorted(os.listdir(f"{TOP}/docs")) if it.endswith(".md"))
    needed, bare = 0, []
    for crate in crates or every:
        names = exports(crate)
        used = set()
        for other, text in texts.items():
            if other != crate and crate in text:
                used |= used_names(text, crate)
        code = "\n".join(text_of(it) for it in files(crate) if it.endswith(".rt"))
        used |= set(re.findall(r"^pub fn (\w+)\(\)$", code, re.M))
        for path in re.findall(r"\b%s::(\{[^}]*\}|[\w:]+)" % crate, documents):
            used.update(re.findall(r"\w+", path))
        for name, path in sorted(names.items()):
            if name in used:
                continue
            where = places(name, code, "::" in path and path.split("::")[0] in texts)
            if where:
                needed += 1
                print(f"{crate}::{name} is needed {where}")
            else:
                bare.append(f"{crate}::{name} from {path}")
    for line in bare:
        print(line)
    print(f"exports that no other crate names: {needed} needed, {len(bare)} not")
    return 1 if bare else 0


if __name__ == "__main__":
    sys.exit(main(sys.argv[1:]))
