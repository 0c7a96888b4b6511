"""A copy of the crates in which `--version` says of which commit the programs are, and whether they are proved."""
import pathlib
import shutil
import subprocess

TOP = pathlib.Path(__file__).resolve().parent.parent
PARTS = ("src", "specs", "proofs")


def number():
    """The version, which VERSION has alone: what else names it is compared with it (packaging/check)."""
    return (TOP / "VERSION").read_text(encoding="utf-8").strip()


def places():
    """Each text of the crates that has the version, with the file in which it stands once."""
    yield "crates/aotcp/src/own_text.rt", f'"aotcp {number()}\\n"'
    yield "crates/aotcp/specs/OwnTexts.antt", f'"aotcp {number()}\\n"'
    yield "crates/aoscope/src/main.rt", f'"aoscope {number()}\\n"'


def git(*words):
    ran = subprocess.run(["git", "-C", TOP, *words], stdout=subprocess.PIPE, stderr=subprocess.DEVNULL, text=True, check=False)
    return ran.stdout.strip() if ran.returncode == 0 else None


def commit():
    """The commit of this tree, with a word where files of it were changed since; None where nothing says it."""
    if (TOP / ".git").exists():
        name = git("rev-parse", "--short=12", "HEAD")
        return name and name + (" with changes" if git("status", "--porcelain") else "")
    kept = TOP / "COMMIT"
    return kept.read_text(encoding="utf-8").strip() if kept.exists() else None


def version_text(kind):
    """What `--version` says after the program's name; kind is `proved` or `not proved`."""
    name = commit()
    return f"{number()} ({name}, {kind})" if name else f"{number()} ({kind})"


def replace_once(file, old, new):
    text = file.read_text(encoding="utf-8")
    if text.count(old) != 1:
        raise SystemExit(f"{file}: {old} stands {text.count(old)} times in it")
    file.write_text(text.replace(old, new), encoding="utf-8")


def copy_to(folder, kind):
    """Copies the crates to the folder, and puts the version's text in where there is a kind."""
    for name in ("crates.txt", "HANDLES"):
        shutil.copyfile(TOP / name, folder / name)
    for crate in (TOP / "crates").iterdir():
        for part in PARTS:
            if (crate / part).is_dir():
                shutil.copytree(crate / part, folder / "crates" / crate.name / part)
    for file, text in places() if kind else ():
        replace_once(folder / file, text, text.replace(number(), version_text(kind)))
