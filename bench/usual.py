#!/usr/bin/env python3
"""How usual the processors are while something runs: the seconds of check_openssl, as multiples of those that it usually takes.

    bench/usual.py watch FILE   runs it over an input of `times.py` once a minute, the four in turns, until it is told to end (SIGTERM), and
                                writes a line to FILE for each run: ALGORITHM SIZE SECONDS
    bench/usual.py FILE [SECONDS]   prints what FILE says: the mean of the runs as a multiple of the usual seconds, for each input and of all; and
                                of SECONDS of a processor, how many minutes they are on usual processors
    bench/usual.py pairs PID TURNS   runs it TURNS times alone, while the processes below PID are stopped for that moment, and as often beside
                                them, in turns, and prints how much longer it takes beside them

A run is one of a whole bench, while a bench tells the best of six: so FILE says how the processors were on the average of that time, and not in
its best moments. Nor are its runs alone on the machine: they are longer by what `pairs` prints. The usual seconds are those that EVIDENCE has,
the best of six alone on the machine. It needs what `times.py` needs."""
import contextlib
import importlib.util
import os
import pathlib
import signal
import subprocess
import sys
import tempfile
import time

import measure
import make_capture
import times

# Seconds of a processor, by algorithm and bytes of payload.
USUAL = {("sha1", 1400): 0.413, ("sha1", 19): 0.712, ("cmac", 1400): 0.398, ("cmac", 19): 0.582}
# Seconds from a run to the next, and from one of a pair to the other.
EVERY = 60
PAUSE = 3


def commands(folder):
    """The command of the C program and its input for each algorithm and size, which are made here."""
    subprocess.run([measure.BENCH.parent / "oracle" / "make_peers", folder], check=True)
    counts = dict(times.SIZES)
    for kind, size in USUAL:
        inputs = folder / f"{kind}-{size}"
        inputs.mkdir()
        times.write_inputs(inputs, kind, counts[size], size)
        key = [kind, "1", make_capture.MASTERS[kind].hex()]
        yield (kind, size), [str(folder / "check_openssl"), *key], inputs / "lines"


def watch(file):
    """Measures until SIGTERM."""
    ended = []
    signal.signal(signal.SIGTERM, lambda *_: ended.append(True))
    with tempfile.TemporaryDirectory() as name, open(file, "w", encoding="ascii") as said:
        folder = pathlib.Path(name)
        made = list(commands(folder))
        turn = 0
        while not ended:
            (kind, size), command, source = made[turn % len(made)]
            used = measure.run(command, source, folder / "out")
            said.write(f"{kind} {size} {used.seconds:.3f}\n")
            said.flush()
            turn += 1
            until = time.monotonic() + EVERY
            while not ended and time.monotonic() < until:
                time.sleep(0.5)


def processes_below(top):
    """The processes below one, by the script that counts the gate's seconds."""
    spec = importlib.util.spec_from_file_location("gate_times", measure.BENCH.parent / ".ci" / "times.py")
    gate_times = importlib.util.module_from_spec(spec)
    spec.loader.exec_module(gate_times)
    return list(gate_times.below(top))


def signal_each(processes, sign):
    for pid in processes:
        with contextlib.suppress(ProcessLookupError):
            os.kill(pid, sign)


def run_alone(top, command, source, target):
    """Runs a command while the processes below one are stopped."""
    stopped = processes_below(top)
    try:
        signal_each(stopped, signal.SIGSTOP)
        return measure.run(command, source, target)
    finally:
        signal_each(stopped, signal.SIGCONT)


def pairs(top, turns):
    """Prints how much longer the program takes beside the processes below one than while these are stopped."""
    sums = {"alone": 0.0, "beside": 0.0}
    with tempfile.TemporaryDirectory() as name:
        folder = pathlib.Path(name)
        made = list(commands(folder))
        for turn in range(turns):
            kind, command, source = made[turn % len(made)]
            sums["alone"] += run_alone(top, command, source, folder / "out").seconds / USUAL[kind]
            time.sleep(PAUSE)
            sums["beside"] += measure.run(command, source, folder / "out").seconds / USUAL[kind]
            time.sleep(PAUSE)
    alone, beside = (it / turns for it in sums.values())
    print(f"check_openssl took {alone:.2f} times its usual seconds alone and {beside:.2f} times beside the others, the means of {turns} runs each")
    print(f"beside them it took {beside / alone:.2f} times as long")


def show(lines, seconds):
    """Prints the multiples, and what the seconds are on usual processors."""
    ratios = {it: [] for it in USUAL}
    for line in lines:
        kind, size, used = line.split()
        ratios[kind, int(size)].append(float(used) / USUAL[kind, int(size)])
    means = {it: sum(of) / len(of) for it, of in ratios.items() if of}
    if not means:
        print("check_openssl wasn't run: it isn't known how usual the processors were")
        return
    mean = sum(means.values()) / len(means)
    told = ", ".join(f"{kind} {size} {of:.2f}" for (kind, size), of in means.items())
    count = sum(map(len, ratios.values()))
    print(f"check_openssl took {mean:.2f} times its usual seconds, the mean of {count} runs ({told})")
    if seconds:
        print(f"{seconds / 60:.0f} minutes of such a processor are {seconds / 60 / mean:.0f} of a usual one")


def main(words):
    if words[:1] == ["watch"] and len(words) == 2:
        watch(words[1])
    elif words[:1] == ["pairs"] and len(words) == 3 and all(it.isdigit() for it in words[1:]):
        pairs(int(words[1]), int(words[2]))
    elif len(words) in (1, 2) and words[0] not in ("watch", "pairs"):
        with open(words[0], encoding="ascii") as it:
            show(it, float(words[1] or 0) if len(words) == 2 else 0)
    else:
        print(__doc__, file=sys.stderr)
        return 2
    return 0


if __name__ == "__main__":
    sys.exit(main(sys.argv[1:]))
