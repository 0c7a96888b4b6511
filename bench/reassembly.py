#!/usr/bin/env python3
"""Times a `Reassembly` that is given 100,000 pieces of 1,440 bytes, every second one before the one in front of it, and from which the
bytes of each two are taken.

    bench/reassembly.py PROGRAM [small]

PROGRAM isn't used: it makes a program in a copy of the crates that it needs, proves and builds it by `rt`, and runs it. Status 0: the sum
of the taken bytes and of their number was right, and the best of five runs took under a fifth of a second of a processor.
With `small` it does nothing.
"""
import re
import shutil
import subprocess

import measure

NEEDED = ["book_base", "ao_base", "book_segments", "tcp_segment", "stream_buffers"]
PAIRS = 50_000
MOST_SECONDS = 0.2
PROGRAM = r"""//! Prints the sum of the bytes that a reassembly gave back, and of their number.
#![tactic(auto)]
ghost use Rattle.std.specs.Prelude.{◌≡◌, ◌<◌};

use ao_base::Steps;
use std::alloc::{AllocError, Global};
use std::marker::Brand;
use std::sync::ledger::{Blank, Ledger};
use stream_buffers::Reassembly;

fn main(rt: HostRuntime) -> Result<(), AllocError> {
    let sum = sum_of_pairs::<Brand>(rt.alloc(), Blank::new(1))?;
    let _ = println!(rt; "{}", sum);
    Ok(())
}

fn sum_of_pairs<L: Ledger>(alloc: Global, blank: Blank) -> Result<u64, AllocError>
    requires name { blank.name ≡ L.name }
    requires parts { blank.parts ≡ L.parts }
    requires part { 0 < blank.parts }
{
    let mut steps = Steps::<L>::new(blank);
    let mut received = Reassembly::new(alloc, 1)?;
    let mut piece = [42; 1440];
    let mut out = [0; 2880];
    let mut sum: u64 = 0;
    for pair in 0..50_000u64 {
        let number = 1 + 2880 * pair;
        piece[(pair % 1440) as usize] = (pair % 251) as u8;
        let _ = received.keep(number + 1440, &piece, None, &mut steps);
        let _ = received.keep(number, &piece, None, &mut steps);
        sum = sum.wrapping_add(received.take(&mut out) as u64);
        for byte in out {
            sum = sum.wrapping_add(u64::from(byte));
        }
    }
    Ok(sum)
}
"""
PROOF = """use Rattle.reassembly_times.proofs.main.Given as goal

abbrev pub ghosts-sum_of_pairs : goal.ghosts-sum_of_pairs
ghosts-sum_of_pairs a = record { name = a.blank.name; parts = a.blank.parts }
"""


def make(folder):
    """Makes the program in a folder: its path."""
    top = measure.BENCH.parent
    shutil.copy(top / "HANDLES", folder)
    needed = [line for line in (top / "crates.txt").read_text(encoding="ascii").splitlines() if line.partition(":")[0] in NEEDED]
    needed.append("reassembly_times: stream_buffers ao_base")
    (folder / "crates.txt").write_text("".join(line + "\n" for line in needed), encoding="ascii")
    for crate in NEEDED:
        shutil.copytree(top / "crates" / crate, folder / "crates" / crate, symlinks=True)
    program = folder / "crates" / "reassembly_times"
    for place, text in {"src/main.rt": PROGRAM, "proofs/main/Invariants.antt": PROOF}.items():
        (program / place).parent.mkdir(parents=True)
        (program / place).write_text(text, encoding="utf-8")
    subprocess.run(["rt", "run"], cwd=program, check=True, capture_output=True)
    return program / "out" / "reassembly_times"


def expected_sum():
    piece = [42] * 1440
    of_piece, expected = sum(piece), 0
    for pair in range(PAIRS):
        place, byte = pair % 1440, pair % 251
        of_piece += byte - piece[place]
        piece[place] = byte
        expected += 2880 + 2 * of_piece
    return expected


def bench(_program, folder, small):
    if small:
        return
    command = ([str(make(folder))], "/dev/null", folder / "said")
    used = measure.best_in_turns({"": command}, 5)[""]
    said = int(re.fullmatch(r"(\d+)\n", (folder / "said").read_text(encoding="ascii"))[1])
    right = said == expected_sum() and used.seconds < MOST_SECONDS
    yield measure.Row("100,000 pieces, every second one late", f"{used.seconds:.3f} s", right)


if __name__ == "__main__":
    measure.main(bench)
