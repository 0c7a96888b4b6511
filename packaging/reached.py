"""Prints the end of a program that reaches each call of the library for C, for packaging/quick: `rt try` translates what `main` reaches,
and `main` never comes to the calls, since it has no value to hand them.

    packaging/reached.py FOLDER     the folder src of the library"""
import pathlib
import re
import sys

CALL = re.compile(r'pub extern "C" fn (\w+)\((.*?)\) -> i32', re.S)
STRUCT = re.compile(r"^pub struct (\w+)", re.M)
TYPE = re.compile(r"^(?:&(?:mut )?)?(\w+)$")


def calls(folder):
    """Each call's module and name, and the types of its arguments."""
    for file in sorted(folder.glob("*.rt")):
        for name, told in CALL.findall(file.read_text(encoding="utf-8")):
            yield file.stem, name, [it.split(":", 1)[1].strip() for it in told.split(",") if it.strip()]


def declared(folder):
    """Each type's module and name."""
    for file in sorted(folder.glob("*.rt")):
        for name in STRUCT.findall(file.read_text(encoding="utf-8")):
            yield file.stem, name


def reaching(module, name, types):
    arguments = ", ".join(f"a{n}: Option<{it}>" for n, it in enumerate(types))
    opened = "".join(f"if let Some(a{n}) = a{n} {{ " for n in range(len(types)))
    call = f"let _ = {module}::{name}({', '.join(f'a{n}' for n in range(len(types)))});"
    return f"fn reach_{name}({arguments}) {{ {opened}{call} {'} ' * len(types)}}}"


def main():
    found = list(calls(pathlib.Path(sys.argv[1])))
    named = {TYPE.match(it)[1] for _, _, types in found for it in types if TYPE.match(it)}
    print()
    for module, name in declared(pathlib.Path(sys.argv[1])):
        if name in named:
            print(f"use {module}::{name};")
    print("use std::alloc::Global;\n")
    for module, name, types in found:
        print(reaching(module, name, types))
    print("fn main() {")
    for _, name, types in found:
        print(f"    reach_{name}({', '.join(['None'] * len(types))});")
    print("}")


if __name__ == "__main__":
    main()
