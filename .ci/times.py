#!/usr/bin/env python3
"""What the gate cost: processor seconds of each crate for its proof, its tests and its must-fail edits, and their sums.

    times.py watch PID FILE   looks at the processes below PID, twice a second, until it is told to end (SIGTERM); then writes FILE
    times.py [FILE]           prints FILE, or standard input, as a table: the crate that cost most first

`rt ci` tells no times, so these are read from /proc. A check is a process that names its crate; its seconds are those that it had
when it was last seen, user and system, of all its threads. So each check lacks half a second at most. `edits` has the check that
a crate's edits begin with. The line `all` is exact: what PID waited for, as the kernel counts it. The line `rest` is all less what
was seen of checks: linking, running programs and tests, `rt` itself, and what the checks lack. A proof, or an edit, that an earlier run
passed on this machine costs nothing and isn't in the table. FILE has a line for each number: CRATE KIND SECONDS."""
import os
import signal
import sys
import time

KINDS = ("proof", "tests", "edits")
EVERY = 0.5
TICKS = os.sysconf("SC_CLK_TCK")


def stat_of(pid):
    """The parent, the own and the waited-for processor seconds, and the start of a process, or None once it is gone."""
    try:
        with open(f"/proc/{pid}/stat", encoding="utf-8", errors="replace") as it:
            fields = it.read().rpartition(")")[2].split()
    except OSError:
        return None
    user, system, waited_user, waited_system = (int(it) / TICKS for it in fields[11:15])
    return int(fields[1]), user + system, waited_user + waited_system, fields[19]


def check_of(pid):
    """The crate and the kind of the check that a process is, or None where it is no check."""
    try:
        with open(f"/proc/{pid}/cmdline", "rb") as it:
            words = it.read().decode(errors="replace").split("\0")
        folder = os.readlink(f"/proc/{pid}/cwd")
    except OSError:
        return None
    if "--crate-name" not in words[:-1]:
        return None
    kind = "edits" if "/rt-edit-" in folder else "tests" if "--test" in words else "proof"
    return words[words.index("--crate-name") + 1], kind


def below(top):
    """The processes below one, with what is known of each."""
    found = {int(it): stat_of(it) for it in os.listdir("/proc") if it.isdigit()}
    children = {}
    for pid, known in found.items():
        if known:
            children.setdefault(known[0], []).append(pid)
    left, seen = [top], {}
    while left:
        for pid in children.get(left.pop(), []):
            seen[pid] = found[pid]
            left.append(pid)
    return seen


def watch(top, file):
    """Looks on until SIGTERM, and writes what was seen."""
    checks, ended = {}, []
    signal.signal(signal.SIGTERM, lambda *_: ended.append(True))
    began = time.monotonic()
    while not ended and stat_of(top):
        for pid, (_, own, _, start) in below(top).items():
            known = checks.get((pid, start)) or (check_of(pid), 0)
            if known[0]:
                checks[pid, start] = known[0], own
        time.sleep(EVERY)
    sums = {}
    for check, seconds in checks.values():
        sums[check] = sums.get(check, 0) + seconds
    known = stat_of(top)
    with open(file, "w", encoding="utf-8") as it:
        for (crate, kind), seconds in sorted(sums.items()):
            it.write(f"{crate} {kind} {seconds:.1f}\n")
        it.write(f". clock {time.monotonic() - began:.1f}\n")
        if known:
            it.write(f". all {known[2]:.1f}\n")


def show(lines):
    """Prints the table."""
    crates, whole = {}, {}
    for line in lines:
        crate, kind, seconds = line.split()
        of = whole if crate == "." else crates.setdefault(crate, {})
        of[kind] = of.get(kind, 0) + float(seconds)
    row = lambda name, of: print(f"{name:<18}" + "".join(f"{it:>9.1f}" for it in [*(of.get(kind, 0) for kind in KINDS), sum(of.values())]))
    print(f"{'processor seconds':<18}" + "".join(f"{it:>9}" for it in [*KINDS, "sum"]))
    for crate in sorted(crates, key=lambda it: -sum(crates[it].values())):
        row(crate, crates[crate])
    total = {kind: sum(it.get(kind, 0) for it in crates.values()) for kind in KINDS}
    row("sum", total)
    rest = whole.get("all", 0) - sum(total.values())
    if rest < 0:
        print("what was waited for is less than what was seen: rt was stopped, so there is no line `all`")
    else:
        print(f"{'rest':<18}{rest:>36.1f}")
        print(f"{'all':<18}{whole['all']:>36.1f}   {whole['all'] / 60:.1f} minutes of a processor, by the clock {whole.get('clock', 0) / 60:.1f}")


def main(words):
    if words[:1] == ["watch"] and len(words) == 3 and words[1].isdigit():
        watch(int(words[1]), words[2])
    elif len(words) < 2 and words[:1] != ["watch"]:
        with open(words[0], encoding="utf-8") if words and words[0] != "-" else sys.stdin as it:
            show(it)
    else:
        print(__doc__, file=sys.stderr)
        return 2
    return 0


if __name__ == "__main__":
    sys.exit(main(sys.argv[1:]))
