"""judge.py PROGRAM FOLDER: each capture of the scenarios judged by `PROGRAM check --pcap`: which verdicts it has. Each segment passes,
but for the verdicts that a scenario says its capture may have."""
import glob
import os
import subprocess
import sys
from collections import Counter

import scenarios

# packets of the kernel's own beside TCP: neighbours and routers
OTHERS = ("bad not-tcp", "bad extension-header")


def verdicts_of(program, capture):
    with open(capture, "rb") as file:
        keys = capture[:-len("pcap")] + "toml"
        told = subprocess.run([program, "check", "--pcap", keys], stdin=file, stdout=subprocess.PIPE, stderr=subprocess.PIPE)
    lines = [line.split(" ", 1)[1] for line in told.stdout.decode().splitlines()]
    return told, Counter(" ".join(word for word in line.split() if not word.isdigit()) for line in lines)


def main(program, folder):
    total, amiss, captures = Counter(), 0, sorted(glob.glob(f"{folder}/*.pcap"))
    for capture in captures:
        name = os.path.basename(capture)
        may = scenarios.ALL[name.split(".")[0]].amiss
        told, verdicts = verdicts_of(program, capture)
        total += verdicts
        others = {text: count for text, count in verdicts.items() if not text.startswith("pass") and text not in OTHERS}
        is_right = told.returncode in (0, 1) and all(text.startswith(may) for text in others)
        amiss += not is_right
        if others or not is_right:
            print(f"{'' if is_right else 'AMISS '}{name}: {dict(verdicts)} {told.stderr.decode().strip()}")
    passed = sum(count for text, count in total.items() if text.startswith("pass"))
    print(f"captures {len(captures)}, segments that pass {passed}, verdicts {dict(total)}")
    print("as they should be" if amiss == 0 else f"{amiss} aren't as they should be")


main(*sys.argv[1:])
