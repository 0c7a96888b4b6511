"""What the compiler is told of a crate, as `rt` tells it, where the libraries that the gate left in crates/*/out/rlib are taken as they are."""
import os
import pathlib
import shutil

TOP = pathlib.Path(__file__).resolve().parent.parent
KIT = pathlib.Path(os.path.realpath(shutil.which("rt") or "rt")).parent.parent
KIT = KIT if (KIT / "bin" / "rattle").exists() else pathlib.Path("/opt/rattle")
PARTS = ("src", "specs", "proofs")


def listed():
    """The crates of crates.txt, each with those on which it stands; a crate of the kit has no line of its own."""
    lines = (TOP / "crates.txt").read_text(encoding="utf-8").splitlines()
    found = [line.split(":") for line in lines if line and not line.startswith("#")]
    return {head.split()[0]: under.split() for head, under in found}


def below(crate, under):
    """The repository's crates on which this one stands, directly or through others."""
    found = {}
    for it in under[crate]:
        if it in under:
            found.update(dict.fromkeys([*below(it, under), it]))
    return list(found)


def rlib_of(crate):
    return TOP / "crates" / crate / "out" / "rlib" / f"{crate}.rlib"


def is_built(crate):
    """Whether a crate's library is there, and came there after the last change of each of the crate's files."""
    rlib = rlib_of(crate)
    if not rlib.exists():
        return False
    files = [it for part in PARTS for it in (TOP / "crates" / crate / part).rglob("*") if it.is_file()]
    # (`rt` gives a library that it kept its old time of change)
    return all(it.stat().st_mtime <= rlib.stat().st_ctime for it in files)


def words(verb, crate, under):
    """The words of `rattle VERB` of a crate, called in its folder or in a copy of it, but for those that one verb alone takes."""
    is_program = (TOP / "crates" / crate / "src" / "main.rt").exists()
    told = [verb, "--crate-name", crate, "src/main.rt" if is_program else "src/lib.rt"]
    for it in ["std", *[it for it in under[crate] if it not in under]]:
        told += ["--extern", f"{it}={KIT}/rlibs/{it}.rlib"]
    told += ["-L", f"dependency={KIT}/rlibs"]
    for it in under[crate]:
        if it in under:
            told += ["--extern", f"{it}={rlib_of(it)}"]
    for it in below(crate, under):
        told += ["-L", f"dependency={rlib_of(it).parent}"]
    return [*told, "--antt-project", f"{KIT}/rattle/logic/antt-project.json", "--logic-built", f"{KIT}/logic_built"]
