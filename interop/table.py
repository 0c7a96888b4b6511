"""table.py FOLDER: what the runs of FOLDER came to, by theme: scenarios, runs, those as they should be, packets, and the longest run."""
import re
import sys
from collections import defaultdict

import scenarios


def main(folder):
    themes = defaultdict(list)
    with open(f"{folder}/results.txt") as file:
        for line in file:
            told = re.match(r"(PASS|FAIL) ([a-z0-9-]+)\.(\S+): packets (\d+), ([0-9.]+) s", line)
            if told:
                theme = scenarios.ALL[told[2]].__module__.split(".")[-1]
                themes[theme].append((told[2], told[1] == "PASS", int(told[4]), float(told[5])))
    for theme, runs in [*sorted(themes.items()), ("all", [run for runs in themes.values() for run in runs])]:
        names, right, counts, seconds = zip(*runs)
        print(f"{theme}: scenarios {len(set(names))}, runs {len(runs)}, right {sum(right)}, packets {sum(counts)}, longest {max(seconds):.0f} s")


main(*sys.argv[1:])
