"""Tries an edit on the functions alone that it changes: `rattle check --only`, which asks for their proofs and those of what they call. Where
that lets it through, as it must where a function has no clause, on all functions of the files that it changes, which call those.

What is refused so the whole check refuses too, since it asks for the same proofs and more. What isn't is for the whole check to judge."""
import pathlib
import re
import subprocess
import sys
import tempfile

sys.path.insert(0, str(pathlib.Path(__file__).resolve().parent.parent / ".ci"))
import compiler

MORE = compiler.TOP / "more-edits"
FUNCTION = re.compile(r"^( *)(?:pub(?:\([^)]*\))? )?(?:const )?(?:unsafe )?(?:extern \"C\" )?fn (\w+)", re.M)
TYPE_OF = re.compile(r"^impl(?:<[^>]*>)? (?:.* for )?(\w+)", re.M)
LAST_LINE = re.compile(r"only=(\d+) proved=(\d+)")
# A goal that isn't met; an error in a proof; and of these one at a name that the edit took away, which says little of the contract.
GOAL = re.compile(r"(?:note: )?\S+:\d+:\d+: it is not proved that|note: `[^`]*` of \S+ (?:must prove|may be false)")
PROOF = re.compile(r"(?:\./)?proofs/\S+:\d+:\d+: error: ")
NAME = re.compile(r"(?:\./)?proofs/.*(?:has no field|is not in scope|has no `|was not admitted)")
# What the prover says of a clause or a definition that it can't read.
UNREAD = re.compile(r"(?:\./)?(?:src|specs)/\S+:\d+:\d+: error: ")


def changes_of(edit):
    """The changes of an edit: the file below its crate, the line as it stands, and the one that takes its place."""
    found, file, old = [], "", ""
    for line in edit.read_text(encoding="utf-8").split("\n"):
        if line.startswith("file: "):
            file = line.removeprefix("file: ").strip()
        elif line.startswith("old: "):
            old = line.removeprefix("old: ")
        elif line.startswith("new:"):
            found.append((file, old, line.removeprefix("new:").removeprefix(" ")))
    return found


def module_of(file):
    """The path below the crate of the module that a file has, as the compiler names it; the crate's root has none."""
    return [it for it in file.removeprefix("src/").removesuffix(".rt").split("/") if it not in ("lib", "main", "mod")]


def function_at(file, text):
    """The path below the crate of the function that a file's text ends in, as the compiler names it, or None where it ends in none."""
    found = list(FUNCTION.finditer(text))
    if not found:
        return None
    indent, name = found[-1].groups()
    types = TYPE_OF.findall(text[: found[-1].start()]) if indent else []
    return "::".join([*module_of(file), *types[-1:], name])


def copy_with(crate, changes, room):
    """Makes the crate in a new folder with the changes, and returns the functions that these are in, but for changes in front of a file's first
    one, of its imports and constants; None where a change can't be made, or isn't one of src."""
    for part in compiler.PARTS:
        for it in (compiler.TOP / "crates" / crate / part).rglob("*"):
            if it.is_file():
                made = room / it.relative_to(compiler.TOP / "crates" / crate)
                made.parent.mkdir(parents=True, exist_ok=True)
                made.write_bytes(it.read_bytes())
    functions = []
    for file, old, new in changes:
        text = (room / file).read_text(encoding="utf-8")
        if not file.startswith("src/") or text.count(old) != 1:
            return None
        functions.append(function_at(file, text[: text.index(old) + len(old)]))
        (room / file).write_text(text.replace(old, new), encoding="utf-8")
    return [it for it in functions if it]


def refusal_in(ran):
    """How the prover refused a function that it was asked for, or None where it didn't, or couldn't read what it was asked."""
    said = ran.stdout.rstrip("\n").split("\n")
    last = LAST_LINE.fullmatch(said[-1])
    if ran.returncode != 1 or not last or last[1] == last[2] or any(UNREAD.match(it) for it in said):
        return None
    if any(GOAL.match(it) or PROOF.match(it) and not NAME.match(it) for it in said):
        return "refused"
    return "refused, but only since a proof names what the edit took away" if any(PROOF.match(it) for it in said) else None


def refusal_of(crate, edit, under):
    """How the prover refuses the functions alone that an edit changes, or all of the files that they are in; None: it doesn't, or the libraries
    below aren't built as they stand."""
    if not all(compiler.is_built(it) for it in compiler.below(crate, under)):
        return None
    with tempfile.TemporaryDirectory(prefix="more-edit-") as room:
        try:
            changes = changes_of(MORE / crate / edit)
            functions = copy_with(crate, changes, pathlib.Path(room))
        except (OSError, UnicodeError):
            return None
        if functions is None:
            return None
        modules = {"::".join(module_of(file)) for file, _, _ in changes}
        # (nothing can be asked of the module that is the crate's root)
        for asked in [functions, [] if "" in modules else modules]:
            if not asked:
                continue
            only = [word for it in asked for word in ("--only", it)]
            how = {"cwd": room, "stdin": subprocess.DEVNULL, "stdout": subprocess.PIPE, "stderr": subprocess.STDOUT}
            told = [compiler.KIT / "bin" / "rattle", *compiler.words("check", crate, under), "--jobs", "1", *only]
            said = refusal_in(subprocess.run(told, text=True, errors="replace", **how))
            if said:
                return said
        return None
