#!/usr/bin/env python3
"""Times link files of 20,000 lines, one of five bytes, and a storm.

    bench/link.py PROGRAM [small]

Each run is made three times, and its best time taken. Status 0: each ends with status 0 and the same whole report each time, takes at most
a second of a processor (that of five bytes 0.02) and less than 80 MiB. With `small` files of 1,000 lines, and the same bounds.
"""
import itertools

import measure

LINES = 20_000
# In MiB.
MOST_MEMORY = 80
HEAD = [
    "aotcp-link 1",
    "a 10.0.0.1 1000",
    "b 10.0.0.2 2000",
    "shared HMAC-SHA-1-96 " + "0b" * 16,
    "start a 100 200",
    "start b 200 100",
]
WINDOW = ["fill a 64980 2a"] + ["send a"] * 45


def made_again():
    """One full segment, and then the same again."""
    yield from ["fill a 1440 2a", "send a"]
    yield from itertools.repeat("resend a")


def delivered_and_taken():
    """Full segments are made, each is delivered and taken, and its acknowledgement comes back."""
    for name in itertools.count(1, 2):
        yield from ["fill a 1440 2a", "send a", f"deliver b {name}", "take b 1440", "send b", f"deliver a {name + 1}"]


def delivered_again():
    """The segments of a window come again and again."""
    yield from WINDOW
    for name in itertools.cycle(range(1, 46)):
        yield f"deliver b {name}"


def all_delivered():
    """A window and 9,950 copies of its first segment, and then each comes."""
    yield from WINDOW
    yield from ["resend a"] * 9_950
    for name in itertools.count(1):
        yield f"deliver b {name}"


def one_number():
    """As many segments of one number as there is room for, each with its own window; then each comes."""
    yield from ["fill b 64980 2a"] + ["send b"] * 45
    yield from (f"deliver a {name}" for name in range(1, 46))
    yield from ["fill a 1440 2b", "send a"]
    yield from ["take a 1", "resend a"] * 6_600
    for name in itertools.count(47):
        yield f"deliver b {name}"


def oldest_of_one_number():
    """A segment, nearly 10,000 of its number that aren't the same, and then the first comes as often."""
    yield from ["fill b 1440 2a", "send b", "deliver a 1", "fill a 1440 2b", "send a", "take a 1440"]
    yield from ["resend a"] * 9_990
    yield from itertools.repeat("deliver b 2")


def five_bytes():
    yield from ["give a 68656c6c6f", "send a", "deliver b 1", "take b 100"]


FILES = [
    (made_again, 1.0),
    (delivered_and_taken, 1.0),
    (delivered_again, 1.0),
    (all_delivered, 1.0),
    (one_number, 1.0),
    (oldest_of_one_number, 1.0),
    (five_bytes, 0.02),
]


def timed(program, folder, name, words, most):
    """The row of three runs."""
    command = [program, *words]
    runs = {str(n): (command, folder / "given", folder / f"said-{n}") for n in range(3)}
    used = list(measure.best_in_turns(runs, 1).values())
    same = all(measure.is_same(folder / "said-0", target) for _, _, target in runs.values())
    last = (folder / "said-0").read_bytes().rstrip(b"\n").rpartition(b"\n")[2]
    whole = last.startswith(b"segments ") and last.endswith(b" forgeries 0")
    seconds, memory = min(each.seconds for each in used), max(each.memory for each in used)
    right = same and whole and not any(each.status for each in used) and seconds < most and memory < MOST_MEMORY
    return measure.Row(name, f"{seconds:.3f} s, {memory:.0f} MiB", right)


def bench(program, folder, small):
    for lines, most in FILES:
        with open(folder / "given", "w", encoding="ascii") as given:
            events = itertools.islice(itertools.chain(HEAD, lines()), 1_000 if small else LINES)
            given.writelines(line + "\n" for line in events)
        yield timed(program, folder, lines.__name__.replace("_", " "), ["link"], most)
    yield timed(program, folder, "storm 7 10000", ["storm", "7", "10000"], 1.0)


if __name__ == "__main__":
    measure.main(bench)
