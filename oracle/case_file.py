"""The text archives of cases: a file a kind, in which everything can be read and each byte is kept.

    # a comment
    case NAME
    words WORD..
    status N
    part PART
    CONTENT

A case has parts: `keys`, where it has a key file, `input`, `out` and `err`. In its words KEYS stands for the path of the key file.
The content of a part is what its lines say, one behind the other. The first character of each says how:

    |TEXT    the text and a newline
    >TEXT    the text alone
    xHEX     these bytes, in hexadecimal

Other lines don't begin with these. A part with a byte 0 stands in hexadecimal as a whole, 32 bytes a line; else each line that isn't UTF-8
or has a control character other than a tab.
"""
import dataclasses
import re

PARTS = ("keys", "input", "out", "err")
AS_TEXT = re.compile(r"[^\x00-\x08\x0a-\x1f\x7f\u0080-\u009f\u2028\u2029]*")


@dataclasses.dataclass
class Case:
    """A call of the program with what it must answer."""

    name: str
    words: list[str]
    status: int
    parts: dict[str, bytes]
    comments: list[str]


def hex_lines(data):
    return ["x" + data[at : at + 32].hex() for at in range(0, len(data), 32)]


def text_of(line):
    """The line as text, or None where it has to stand in hexadecimal."""
    try:
        text = line.decode("utf-8")
    except UnicodeDecodeError:
        return None
    return text if AS_TEXT.fullmatch(text) else None


def content_lines(data):
    """The lines of an archive that say these bytes."""
    if b"\0" in data:
        return hex_lines(data)
    lines = []
    *whole, last = data.split(b"\n")
    for line in whole:
        text = text_of(line)
        lines += hex_lines(line + b"\n") if text is None else ["|" + text]
    text = text_of(last)
    return lines + (hex_lines(last) if text is None else [">" + text] if last else [])


def content_of(line):
    """The bytes that a line of an archive says."""
    if line[0] == "x":
        return bytes.fromhex(line[1:])
    return line[1:].encode("utf-8") + (b"\n" if line[0] == "|" else b"")


def written(cases):
    """The text of an archive."""
    lines = []
    for case in cases:
        lines += [f"# {comment}" for comment in case.comments]
        lines += [f"case {case.name}", " ".join(["words", *case.words]), f"status {case.status}"]
        for name in PARTS:
            if name in case.parts:
                lines += [f"part {name}", *content_lines(case.parts[name])]
    return "".join(line + "\n" for line in lines)


def read(path):
    """The cases of an archive, in their order."""
    cases, comments, part = [], [], None
    for line in path.read_text(encoding="utf-8").split("\n"):
        if not line:
            continue
        if line[0] in "|>x":
            part.append(content_of(line))
            continue
        word, _, rest = line.partition(" ")
        if word == "#":
            comments.append(rest)
        elif word == "case":
            cases.append(Case(rest, [], 0, {}, comments))
            comments = []
        elif word == "words":
            cases[-1].words = rest.split()
        elif word == "status":
            cases[-1].status = int(rest)
        elif word == "part":
            part = cases[-1].parts[rest] = []
        else:
            raise ValueError(f"{path}: {line[:60]}")
    for case in cases:
        case.parts = {name: b"".join(pieces) for name, pieces in case.parts.items()}
    return cases


def words_over(case, folder):
    """The words of a case, with its key file in a folder."""
    keys = folder / f"{case.name}.keys"
    if "keys" in case.parts:
        keys.write_bytes(case.parts["keys"])
    return [str(keys) if word == "KEYS" else word for word in case.words]
