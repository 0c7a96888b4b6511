#!/usr/bin/env python3
"""Times `aoscope sessions` beside `aotcp check --pcap` over the same capture: 60,000 segments of 100 bytes in 300 sessions, in turns,
behind their handshakes. Beside it stands one with a hundred times the sessions, which has no bound.

    bench/sessions.py AOTCP AOSCOPE [small]

For each capture: the median of nine runs in turns, in seconds of a processor, and the ratio. Status 0: both programs verified all
segments, and of 300 sessions the table took at most 1.2 times the time of the check. With `small` a thirtieth of the segments, and no
bound. It needs cc and the package cryptography.
"""
import pathlib
import shutil
import statistics
import sys
import tempfile

import measure
import make_capture
import to_pcap

TURNS = 9
MOST = 1.2
SIZE = 100
SESSIONS = 300
SEGMENTS = 60_000


def found(word):
    """The program of this name or path; the bench ends where there is none."""
    path = shutil.which(word)
    if path is None:
        sys.exit(f"bench/sessions.py: no program {word}")
    return str(pathlib.Path(path).resolve())


def write_inputs(folder, sessions, count):
    """Writes the key file and the packets: each session's SYN with ACK, and then as many segments in turns."""
    (folder / "keys").write_text(make_capture.key_file("sha1"), encoding="ascii")
    with open(folder / "packets", "wb") as packets:
        packets.write(to_pcap.HEAD)
        for made in make_capture.segments("sha1", sessions, count, SIZE):
            packets.write(to_pcap.packet(f"0 {made.hex()}\n"))


def medians(runs):
    """Runs each command once a turn: the median of the seconds that each took, and the status of its last run."""
    took = {name: [] for name in runs}
    statuses = {}
    for _ in range(TURNS):
        for name, (command, source, target) in runs.items():
            used = measure.run(command, source, target)
            took[name].append(used.seconds)
            statuses[name] = used.status
    return {name: statistics.median(seconds) for name, seconds in took.items()}, statuses


def bench(aotcp, aoscope, folder, small):
    """A row for each number of sessions."""
    count = SEGMENTS // 30 if small else SEGMENTS
    for sessions in [SESSIONS, 100 * SESSIONS]:
        write_inputs(folder, sessions, count)
        runs = {
            "sessions": ([aoscope, "sessions", str(folder / "keys")], folder / "packets", folder / "sessions.out"),
            "check --pcap": ([aotcp, "check", "--pcap", str(folder / "keys")], folder / "packets", folder / "check.out"),
        }
        seconds, statuses = medians(runs)
        ratio = seconds["sessions"] / seconds["check --pcap"]
        head = (folder / "sessions.out").read_text(encoding="ascii").split("\n", 1)[0]
        verified = set(statuses.values()) == {0} and head.startswith(f"capture segments {sessions + count} other 0 ")
        yield measure.Row(
            f"{sessions + count:,} segments of {SIZE} in {sessions:,} sessions",
            f"{seconds['sessions']:.3f} s, {seconds['check --pcap']:.3f} s check --pcap: {ratio:.2f}",
            verified and (small or sessions > SESSIONS or ratio <= MOST),
        )


def main():
    words = [word for word in sys.argv[1:] if word != "small"]
    if len(words) != 2:
        sys.exit(__doc__)
    programs = [found(word) for word in words]
    with tempfile.TemporaryDirectory() as folder:
        sys.exit(not measure.print_rows("sessions", bench(*programs, pathlib.Path(folder), "small" in sys.argv[1:])))


if __name__ == "__main__":
    main()
