"""initrd.py OUT INIT NAME=FILE ..: writes an initramfs (newc, gzip) with INIT as its first program and the files named."""
import gzip
import sys


def entry(name, mode, number, data=b""):
    path = name.encode() + b"\0"
    fields = (number, mode, 0, 0, 1, 0, len(data), 0, 0, 0, 0, len(path), 0)
    head = b"070701" + b"".join(b"%08x" % field for field in fields) + path
    head += bytes(-len(head) % 4) + data
    return head + bytes(-len(head) % 4)


def read(path):
    with open(path, "rb") as file:
        return file.read()


def main(out, init, *files):
    entries = [(name, 0o40755, b"") for name in ("dev", "proc", "sys")] + [("init", 0o100755, read(init))]
    entries += [(name, 0o100755, read(path)) for name, _, path in (it.partition("=") for it in files)]
    entries += [("TRAILER!!!", 0, b"")]
    archive = b"".join(entry(name, mode, number, data) for number, (name, mode, data) in enumerate(entries, 1))
    with open(out, "wb") as file:
        file.write(gzip.compress(archive, 6))


main(*sys.argv[1:])
