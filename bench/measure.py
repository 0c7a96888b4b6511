"""What the benches share: a run with the processor time and memory that it took, the best of some in turns, and the rows."""
import atexit
import dataclasses
import functools
import pathlib
import shutil
import subprocess
import sys
import tempfile

BENCH = pathlib.Path(__file__).resolve().parent
# The makers of captures stand there.
sys.path.insert(0, str(BENCH.parent / "oracle"))


@dataclasses.dataclass
class Used:
    """What a run took of a processor in seconds and of memory in MiB, and its status."""

    seconds: float
    memory: float
    status: int


@dataclasses.dataclass
class Row:
    """What was measured, what came out, and whether it is as it should be."""

    what: str
    figures: str
    right: bool


@functools.cache
def tools():
    """A folder with `used`, built from used.c."""
    folder = pathlib.Path(tempfile.mkdtemp())
    atexit.register(shutil.rmtree, folder)
    subprocess.run(["cc", "-O2", "-o", folder / "used", BENCH / "used.c"], check=True)
    return folder


def run(command, source, target):
    """Runs a command over a file into a file."""
    report = tools() / "report"
    with open(source, "rb") as given, open(target, "wb") as said:
        subprocess.run([tools() / "used", report, *command], stdin=given, stdout=said, check=True)
    microseconds, kibibytes, status = map(int, report.read_text(encoding="ascii").split())
    return Used(microseconds / 1e6, kibibytes / 1024, status)


def best_in_turns(commands, turns):
    """Runs each command, source and target once a turn: what each used at least, and at most of memory."""
    best = {}
    for _ in range(turns):
        for name, (command, source, target) in commands.items():
            now = run(command, source, target)
            before = best.get(name, now)
            best[name] = Used(min(before.seconds, now.seconds), max(before.memory, now.memory), now.status)
    return best


def is_same(one, other):
    """Whether two files have the same bytes."""
    return pathlib.Path(one).read_bytes() == pathlib.Path(other).read_bytes()


def print_rows(name, rows):
    """Prints the rows of a bench as they come: whether all are right."""
    right = True
    for row in rows:
        print(f"{name:12}{row.what:52}{row.figures}{'' if row.right else '  AMISS'}", flush=True)
        right &= row.right
    return right


def measured(name, bench, words):
    """Measures by a bench: whether all its rows are right."""
    with tempfile.TemporaryDirectory() as folder:
        return print_rows(name, bench(str(pathlib.Path(words[0]).resolve()), pathlib.Path(folder), "small" in words[1:]))


def main(bench):
    """The program of a bench: SCRIPT PROGRAM [small]."""
    name = pathlib.Path(sys.argv[0]).stem
    sys.exit(not measured(name, bench, sys.argv[1:]))
