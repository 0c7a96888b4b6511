#!/usr/bin/env bash
# Refuses each allocation of the read of the two-node file of key_tests in turn, and prints
# what `read_tables` answered to each. Status 0: every refused read answered
# `Memory`, and the next read had both nodes.
# Usage: faults/refused_memory.sh [LAST], where LAST is past the last allocation of the read. It needs `rt`.
#
# `rt try --test --fail-alloc LAST` refuses the LASTth allocation of each test, since each test has
# a process of its own. It takes about a minute, nearly all of it to build, so one run tries all: in
# a copy of the repository it gets a test for each n from 0 to LAST, which makes LAST - n allocations
# before its read. Then the nth allocation of the read is refused, and at 0 the last before it.
set -eu
last=${1:-120}
top=$(cd "$(dirname "$0")/.." && pwd)
copy=$(mktemp -d)
trap 'rm -rf "$copy"' EXIT
cp "$top/crates.txt" "$top/HANDLES" "$copy"
tar -C "$top" --exclude=out -cf - crates | tar -C "$copy" -xf -
cd "$copy/crates/key_tests"
{
    cat <<'HELPER'

fn read_after(rt: &impl std::process::Abort, alloc: Global, ahead: usize) -> Result<(), Fail> {
    for _ in 0..ahead {
        Vec::from_slice(alloc, b"x").ok().ok_or("refused before the read")?;
    }
    let (fault, tables) = read_until_read(alloc)?;
    assert_eq!(rt; (fault, tables.nodes()), (Some(TableFault::Memory), 2));
    Ok(())
}
HELPER
    for n in $(seq 0 "$last"); do
        printf '\n#[test]\nfn refused_%d(rt: HostRuntime) -> Result<(), Fail> {\n' "$n"
        printf '    read_after(&rt, rt.alloc(), %d)\n}\n' $((last - n))
    done
} >> src/of_key_table.rt
rt try --test --fail-alloc "$last" > "$copy/said" 2>&1 || true
awk -v last="$last" '
    / \.\.\. / { n = -1 }
    match($0, /of_key_table::refused_[0-9]+ /) {
        n = substr($0, RSTART + 22, RLENGTH - 23) + 0
        said[n] = / ok$/ ? "Memory, and then both nodes" : ""
    }
    / \.\.\. / { next }
    n >= 0 && /left: \(None, 2\)$/ { said[n] = "both nodes" }
    n >= 0 && /error: "refused before the read"$/ { said[n] = "refused before the read" }
    n >= 0 && said[n] == "" { other[n] = other[n] $0 }
    END {
        for (n = 0; n <= last; n++) {
            if (said[n] == "") said[n] = "amiss:" other[n]
            print n ": " said[n]
            memory += said[n] ~ /^Memory/
        }
        amiss = said[0] != "refused before the read" || memory < 1 || memory >= last
        for (n = 1; n <= last; n++)
            amiss += said[n] != (n <= memory ? "Memory, and then both nodes" : "both nodes")
        print memory + 0 " allocations of the read refused, " (amiss ? "AMISS" : "all answered Memory")
        exit amiss > 0
    }' "$copy/said" || { status=$?; grep -v ' \.\.\. ' "$copy/said" | tail -n 20; exit "$status"; }
