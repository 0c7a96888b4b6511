"""Text as man(7): escapes, and the Markdown that docs/FORMATS.md uses."""
import re

INLINE = re.compile(r"(`[^`]+`|\*\*[^*]+\*\*|\[[^\]]+\]\([^)]+\))")


def plain(text):
    """Text without any mark."""
    text = text.replace("\\", "\\e").replace("-", "\\-").replace("'", "\\(aq").replace("`", "\\(ga").replace("^", "\\(ha").replace("~", "\\(ti")
    return "".join(it if ord(it) < 128 else f"\\[u{ord(it):04X}]" for it in text)


def bold(text):
    return f"\\fB{plain(text)}\\fR"


def line(text):
    """Text with marks, as one line that isn't a request."""
    parts = []
    for it in INLINE.split(text):
        if it.startswith("`") and len(it) > 1:
            parts.append(bold(it[1:-1]))
        elif it.startswith("**"):
            parts.append(f"\\fI{plain(it[2:-2])}\\fR")
        elif it.startswith("[") and it.endswith(")"):
            parts.append(line(it[1:it.index("]")]))
        else:
            parts.append(plain(it))
    told = "".join(parts)
    return f"\\&{told}" if told[:1] in (".", "'") else told


def head(name, section, date, version):
    return [f'.TH "{name.upper()}" {section} {date} "aotcp {version}" aotcp']


def title(name, about):
    return [".SH NAME", f"{plain(name)} \\- {line(about)}"]


def item(tag, text):
    return [".TP", tag, *text]


def code(lines):
    return [".PP", ".nf", *[(f"\\&{plain(it)}" if it[:1] in (".", "'") else plain(it)) for it in lines], ".fi"]


def is_table(lines):
    return all(it.startswith("|") for it in lines)


def row_of(text):
    return [it.strip() for it in text.strip().strip("|").split("|")]


def table(lines):
    """A table: each row under its first cell, with the others behind it, from the third on with what its column is."""
    heads, _, *rows = [row_of(it) for it in lines]
    told = [".PP", line(f"For each {heads[0]}, {heads[1]}:")] if heads[0] else []
    for row in rows:
        others = [row[1], *[f"{head}: {cell}" for head, cell in zip(heads[2:], row[2:])]]
        told += item(line(row[0]), [line("; ".join(others))])
    return told


def listed(lines):
    """A list: each item begins with a mark or a number."""
    told = []
    for it in lines:
        mark = re.match(r"(- |\d+\. )(.*)", it)
        if mark:
            told.append(".IP \\(bu 4" if mark[1] == "- " else f".IP {mark[1].strip()} 4")
        told.append(line(mark[2] if mark else it.strip()))
    return told


def block(lines):
    """A paragraph, a list, a table or a text as it stands."""
    if is_table(lines):
        return table(lines)
    if re.match(r"- |\d+\. ", lines[0]):
        return listed(lines)
    if lines[0].startswith("```"):
        return code(lines[1:-1])
    if lines[0].startswith("    "):
        return code([it.strip() for it in lines])
    return [".PP", *[line(it.strip()) for it in lines]]


def markdown(text):
    """The blocks of a piece of Markdown without headings."""
    parts, inside = [[]], False
    for it in text.splitlines():
        inside ^= it.startswith("```")
        if it.strip() or inside:
            parts[-1].append(it)
        else:
            parts.append([])
    return [told for part in parts if part for told in block(part)]
