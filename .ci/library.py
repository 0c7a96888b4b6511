#!/usr/bin/env python3
"""Builds crates/aotcp_c/out/libaotcp_c.a from the libraries that a plain `rt ci` leaves in crates/*/out/rlib, as `rt lib` in
crates/aotcp_c builds it: the compiler proves aotcp_c once more, and links. `rt lib` takes nothing from a gate and proves every crate
below anew; it is called where the gate's libraries aren't there, or another toolchain refuses these words."""
import subprocess
import sys

import compiler

CRATE = "aotcp_c"
FOLDER = compiler.TOP / "crates" / CRATE


def words(archive):
    """What the compiler is told, as `rt lib` tells it."""
    told = compiler.words("build", CRATE, compiler.listed())
    return [*told, "--links", f"{CRATE}=", "--crate-type", "staticlib", "--toolchain", f"{compiler.KIT}/toolchain", "--backend", "llvm", "-o", archive]


def main():
    archive = FOLDER / "out" / f"lib{CRATE}.a"
    archive.parent.mkdir(exist_ok=True)
    archive.unlink(missing_ok=True)
    how = {"cwd": FOLDER, "stdout": subprocess.PIPE, "stderr": subprocess.STDOUT, "text": True, "errors": "replace"}
    ran = subprocess.run([compiler.KIT / "bin" / "rattle", *words(archive)], **how)
    if ran.returncode or not archive.exists():
        print(f"library: built anew by `rt lib`, since the gate's libraries don't do: {ran.stdout[-300:]}")
        ran = subprocess.run(["rt", "lib"], **how)
    if ran.returncode or not archive.exists():
        print(ran.stdout[-2000:])
        return 1
    print(f"library: crates/{CRATE}/out/lib{CRATE}.a, {archive.stat().st_size} bytes")
    return 0


if __name__ == "__main__":
    sys.exit(main())
