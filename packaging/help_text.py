"""What the programs say of themselves: their words, arguments and options, read from what --help prints."""
import re
import subprocess

ITEM = re.compile(r"^ {2,6}(\S.*?)(?: {2,}(\S.*))?$")
HEADS = ("Commands:", "Arguments:", "Options:")


def said(program, *words):
    """What the program prints for these words, which it must take."""
    return subprocess.run([program, *words], stdin=subprocess.DEVNULL, stdout=subprocess.PIPE, text=True, check=True).stdout


def takes(program, *words):
    """Whether the program does something for these words."""
    how = {"stdin": subprocess.DEVNULL, "stdout": subprocess.DEVNULL, "stderr": subprocess.DEVNULL}
    return subprocess.run([program, *words], check=False, **how).returncode == 0


class Page:
    """A page of help of aoscope: `about`, `usage`, its lists by their heads, and its paragraphs, each a list of lines."""

    def __init__(self, text):
        blocks = [block.splitlines() for block in text.strip().split("\n\n")]
        self.about = " ".join(blocks[0])
        self.usage, self.lists, self.paragraphs = "", {head: [] for head in HEADS}, []
        for block in blocks[1:]:
            if block[0].startswith("Usage: "):
                self.usage = block[0].removeprefix("Usage: ")
            elif block[0] in HEADS:
                self.lists[block[0]] = items(block[1:])
            else:
                self.paragraphs.append(block)

    def options(self):
        """Its options: the names of each, the name of its value or None, and its help."""
        for told, help_line in self.lists["Options:"]:
            value = re.search(r"<(\w+)>$", told)
            yield re.findall(r"--?[\w-]+", told), value and value[1], help_line


def items(lines):
    """The items of a list with what is said of each; a line that is no item goes on with the one before."""
    found = []
    for line in lines:
        item = ITEM.match(line)
        if item:
            found.append((item[1], item[2] or ""))
        else:
            found[-1] = (found[-1][0], f"{found[-1][1]} {line.strip()}".strip())
    return found


class Aotcp:
    """The help of aotcp: its usage line, what it says of each word, and its last lines."""

    def __init__(self, program):
        self.version = said(program, "--version").split(" ", 1)[1].strip()
        self.usage, text = said(program, "--help").split("\n\n")
        self.forms = self.usage.removeprefix("usage: aotcp ").strip().split(" | ")
        self.words = list(dict.fromkeys(form.split()[0] for form in self.forms))
        lines = text.splitlines()
        first = next(n for n, line in enumerate(lines) if line.startswith("Status "))
        self.about = dict(line.split(" ", 1) for line in lines[:first])
        self.status = " ".join(lines[first:])
        if sorted(self.about) != sorted(self.words):
            raise SystemExit("aotcp --help: its usage and its lines name other words")
        # The ways to ask for help, for the version, and for help behind a word.
        self.helps = [it for it in ("-h", "--help", "help") if takes(program, it)]
        self.versions = [it for it in ("-V", "--version") if takes(program, it)]
        self.helps_behind = [it for it in ("-h", "--help") if all(takes(program, word, it) for word in self.words)]

    def forms_of(self, word):
        return [form for form in self.forms if form.split()[0] == word]


class Aoscope:
    """The help of aoscope, with a page for each word."""

    def __init__(self, program):
        self.version = said(program, "--version").split(" ", 1)[1].strip()
        self.top = Page(said(program, "--help"))
        self.words = [name for name, _ in self.top.lists["Commands:"] if name != "help"]
        self.pages = {word: Page(said(program, word, "--help")) for word in self.words}
