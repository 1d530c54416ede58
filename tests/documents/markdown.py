"""Finds the fenced blocks of a document, and what no document may have beside them."""

import re
from pathlib import Path

# What may follow the three backticks, and which of them have their result in the next block.
KINDS = ("script", "reports", "requests", "sh", "c", "rust", "antt", "output", "text")
RESULT_OF = {"script": "reports", "sh": "output", "c": "output", "rust": "output"}
RESULTS = tuple(sorted(set(RESULT_OF.values())))
# Which of them may name a file: a state file for the first two, the place where a program is saved for the next two, and what is printed for the last.
WITH_FILE = ("script", "requests", "c", "rust", "antt")

OPENING = re.compile(r"^(\s*)(`{3,}|~{3,})(.*)$")
QUOTED = re.compile(r"^\s*>\s*(`{3,}|~{3,})")
ITEM = re.compile(r"^(\s*)([-*+]|\d+[.)])(\s+)\S")
CODE_INDENT = 4
# The folder target/try is every saved program's, so to name it is to name none of them.
SHARED = len(Path("target/try").parts)
# What a command or a report looks like; neither may stand in a block that is not run.
LOOKS_RUN = re.compile(r"^\s*(\$ |answer=\d|user=\d|(\./|\.\./)*target/bin/|\.ci/run|examples/run|bindings/build)")


class Block:
    """A fenced block: where it starts, its kind, the file it names, its text, and the block with its result."""

    def __init__(self, document, line, info):
        words = info.split()
        self.document = document
        self.line = line
        self.info = info
        self.kind = words[0] if words else ""
        self.file = words[1] if len(words) > 1 else None
        self.extra = words[2:]
        self.lines = []
        self.result = None

    @property
    def text(self):
        """The bytes of the block, each line with its end."""
        return "".join(line + "\n" for line in self.lines)

    @property
    def place(self):
        return f"{self.document}:{self.line}"


class Fault(Exception):
    """Something in a document that is wrong before anything is run."""

    def __init__(self, document, line, what):
        super().__init__(what)
        self.place = f"{document}:{line}"
        self.what = what


class Scanner:
    """Reads a document line by line, and keeps its blocks, the lines outside them with their numbers, and its faults."""

    def __init__(self, document):
        self.document = document
        self.blocks = []
        self.faults = []
        self.prose = []
        self.open = None
        self.fence = ""
        self.indent = 0
        self.blank_before = True
        self.list_indent = 0

    def fault(self, line, what):
        self.faults.append(Fault(self.document, line, what))

    def inside(self, text):
        """A line of an open block: its end, or one line more."""
        stripped = text.strip()
        if stripped.startswith(self.fence) and set(stripped) == {self.fence[0]}:
            self.open = None
            return
        cut = min(self.indent, len(text) - len(text.lstrip(" ")))
        self.open.lines.append(text[cut:])

    def start(self, number, found):
        """The first line of a block."""
        self.indent, self.fence = len(found.group(1)), found.group(2)
        self.open = Block(self.document, number, found.group(3).strip())
        self.blocks.append(self.open)

    def outside(self, number, text):
        """A line of prose. It is code without a fence where it stands four columns behind its surroundings after a blank line."""
        self.prose.append((number, text))
        if not text.strip():
            self.blank_before = True
            return
        indent = len(text.expandtabs(CODE_INDENT)) - len(text.expandtabs(CODE_INDENT).lstrip(" "))
        if self.blank_before and indent < self.list_indent:
            self.list_indent = 0
        item = ITEM.match(text)
        if self.blank_before and indent >= self.list_indent + CODE_INDENT:
            self.fault(number, "an indented code block: fence it, so that it is run")
        elif item:
            self.list_indent = len(item.group(1)) + len(item.group(2)) + len(item.group(3))
        self.blank_before = False

    def line(self, number, text):
        opening = OPENING.match(text)
        if self.open is not None:
            self.inside(text)
        elif QUOTED.match(text):
            self.fault(number, "a fenced block inside a quotation is not run")
        elif opening:
            self.start(number, opening)
        else:
            self.outside(number, text)


def scanned(document, text):
    """The whole document: its blocks, the lines outside them, and the faults of its form."""
    scanner = Scanner(document)
    for number, line in enumerate(text.splitlines(), 1):
        scanner.line(number, line)
    if scanner.open is not None:
        scanner.fault(scanner.open.line, "the fence is not closed")
    return scanner


def fault_of_block(block):
    """What is wrong with a block by itself, or nothing."""
    if block.kind not in KINDS:
        return f"unknown info string '{block.info}'"
    if block.extra or (block.file and block.kind not in WITH_FILE):
        return f"'{block.kind}' takes no '{' '.join(block.info.split()[1:])}'"
    if not block.text.strip():
        return "the block is empty"
    if block.kind == "text" and any(LOOKS_RUN.match(line) for line in block.lines):
        return "a command or a report in a 'text' block, which is not run"
    return None


def joined(blocks):
    """The sound examples among the blocks, each with the block of its result, and the faults of the others."""
    examples, faults, last = [], [], None
    for block in blocks:
        what = fault_of_block(block) or stray(block, last)
        if what is not None:
            faults.append(Fault(block.document, block.line, what))
        elif block.kind in RESULTS:
            last.result = block
        elif block.kind != "text":
            examples.append(block)
        last = block
    lacking = [(block, lack_of(block, examples[at:])) for at, block in enumerate(examples)]
    faults += [Fault(block.document, block.line, what) for block, what in lacking if what]
    return [block for block, what in lacking if not what], faults


def stray(block, last):
    """What is wrong with a result that does not follow what it is the result of, or nothing."""
    if block.kind in RESULTS and (last is None or RESULT_OF.get(last.kind) != block.kind):
        return f"'{block.kind}' without an example before it"
    return None


def lack_of(block, later):
    """What an example lacks, or nothing. A program that is saved needs no result, but a later command must name its file or its folder."""
    if block.kind == "antt" and not block.file:
        return "'antt' without the file that it prints"
    if block.kind not in ("script", "c", "rust"):
        return None
    if block.kind != "script" and block.file:
        names = [block.file, *(str(folder) for folder in Path(block.file).parents if len(folder.parts) > SHARED)]
        named = any(other.kind == "sh" and any(name in other.text for name in names) for other in later)
        return None if named else f"no later command names {block.file}"
    return None if block.result else f"'{block.kind}' without '{RESULT_OF[block.kind]}' behind it"
