"""What the tools read off the repository: its crates, their files, the functions with their contracts, the must-fail edits."""
import os
import re

ROOT = os.path.join(os.path.dirname(os.path.abspath(__file__)), "..")
# crates whose every `pub fn` is a call that users make
PUBLIC = ["names", "records", "p33", "board_runner", "board", "board_words", "board_entries", "capi"]
CALLED = {"board_runner": "board"}  # the crate under whose name users make the calls of another


def read(path):
    with open(path, encoding="utf-8") as f:
        return f.read()


def listed():
    """crate -> what it depends on, of the repository and of the kit, in the order of crates.txt"""
    found = {}
    for line in read("crates.txt").split("\n"):
        if line.strip() and not line.startswith("#"):
            name, below = line.split(":")
            found[name.split()[0]] = below.split()  # a static library's line has that word behind its name
    return found


def sources(crate):
    """the .rt files of a crate"""
    for folder, _, files in sorted(os.walk(f"crates/{crate}/src")):
        for name in sorted(files):
            if name.endswith(".rt"):
                yield os.path.join(folder, name)


def edits(crate):
    """the names of a crate's must-fail edits"""
    folder = f"crates/{crate}/must-fail"
    return sorted(f.removesuffix(".edit") for f in os.listdir(folder) if f.endswith(".edit")) if os.path.isdir(folder) else []


class Function:
    """A `pub fn`: its name, a method's with its type in front; its parameters' text; its `requires` and `ensures` as text; where what follows its name begins and ends in its file."""

    def __init__(self, path, text, found, owner):
        self.path = path
        self.plain = found.group(2)
        self.name = owner + self.plain
        self.begin = found.end()
        self.end = text.index(f"\n{found.group(1)}}}\n", found.end())
        whole = text[self.begin : self.end]
        head = re.split(r"(?:^|\s)\{\n", whole, maxsplit=1)[0]
        self.parameters = re.search(r"\(([^)]*)\)", head).group(1)
        clauses = re.split(r"^\s*(?=(?:requires|ensures)\b)", head, flags=re.M)[1:]
        self.requires = [c for c in clauses if c.startswith("requires")]
        self.ensures = [c for c in clauses if c.startswith("ensures")]

    def takes_board(self):
        return bool(re.search(r":\s*Board\b", self.parameters))

    def is_of_a_port(self):
        """a call on one port and its memory, by value, lent, or in C: a case of the port's run"""
        call = re.sub(r"^fm1_port_|_in_place$|_through$", "", self.plain)
        port = self.name.startswith("P33::") or self.plain == "fm1_port_reg" or re.search(r":\s*(&mut )?(P33|Port)\b", self.parameters)
        return call in ("read", "write", "chip_reset", "take_event", "reg") and bool(port)


def public_functions(path):
    """every `pub fn` of a file, `extern "C"` or not"""
    text = read(path)
    types = [(m.start(), m.group(1)) for m in re.finditer(r"^impl(?:<[^>]*>)? (?:[^\n{]* for )?(\w+)[^\n{]*\{", text, re.M)]
    for m in re.finditer(r'^([ \t]*)pub (?:extern "C" )?fn (\w+)', text, re.M):
        owner = [name for at, name in types if at < m.start()][-1] + "::" if m.group(1) else ""
        yield Function(path, text, m, owner)
