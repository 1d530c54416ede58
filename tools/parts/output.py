"""Reading the output of one check: what is printed of it, which proof files it offers, and which answers failed."""

import os
import re

from parts.binding import bound_text
from parts.goals import goal, short
from parts.repo import root, write

FOLLOWS = ("was not admitted (it has holes", "has no `Tie` that can be named", "is not admitted: has-holes")
PLAIN = re.compile(r"(library|crate|logic|holes|generated)\b|rt: \S+ proved|\s*$")  # lines that nobody needs
NO_PROOF = re.compile(r": no proof: expected \S+ in \S+/Proof\.antt[^;]*(; `search` does not close (.*))?")
KNOWN_OPEN = re.compile(r": not proved(; it calls .*)?$|: depends on a hole")


def blocks(text):
    """The output in blocks: a line that is not indented, and the indented or empty lines after it."""
    out = []
    for line in text.split("\n"):
        if out and line[:1] in (" ", ""):
            out[-1].append(line)
        else:
            out.append([line])
    return out


def about(head, function):
    """Whether a block speaks of this function: by its proof's folder, or by the function's own line."""
    folder, name = re.escape(function.replace("::", "/")), re.escape(function.replace("/", "::"))
    return re.search(r"/proofs/(\S*[/+])?%s(\+\S*)?/Proof\.antt" % folder, head) or re.match(r"fn \S*?\b%s:" % name, head)


class Output:
    """The output of one check, block by block. `take` prints what is to be read, and the fields count the rest."""

    def __init__(self, only, width, quiet):
        self.only, self.width, self.quiet = only, width, quiet
        self.proved, self.shown, self.open, self.hidden, self.notes = 0, 0, [], [], []
        self.failed = {}  # file: names of the answers in it that failed

    def take(self, block):
        """Sorts one block."""
        head, self.mine = block[0], not self.only or about(block[0], self.only)
        place = re.match(r"(\S+\.(?:antt|rt)):(\d+):(\d+): ", head)
        offered = re.match(r"help: write (\S+/Proof\.antt) with these lines", head)
        if offered:
            self.offer(offered.group(1), block[1:])
        elif re.match(r"fn |(struct|enum) \S+: ", head):
            self.status(head)
        elif head.startswith("note: ") and "it is not proved that" in head:
            self.notes.append(head[6:])
        elif head.startswith("note: ") or (place and head[place.end():].startswith("note:")):
            pass
        elif any(words in head for words in FOLLOWS):
            self.hidden += [head] * ("has-holes" not in head)
        elif place and " goal ? in " in head:
            self.goal(head, block)
        elif place and ": error" in head:
            self.error(place.group(1), head, block)
        elif not PLAIN.match(head) and not self.only:
            print(short("\n".join(block))[:self.width])

    def offer(self, path, lines):
        """Writes a proof file that the check offers, unless it is there or about another function."""
        full = os.path.join(root(), path)
        if self.mine and not os.path.exists(full):
            text = "\n".join(line[4:].rstrip() for line in lines).rstrip() + "\n"
            write(full, bound_text(text)[0])
            print("WROTE " + path)

    def status(self, head):
        """Counts a function's line, and prints it with its notes where it says more than that it is not proved."""
        if head.endswith((": proved", ": no holes")):
            self.proved += head.startswith("fn ")
        else:
            self.open.append(head.split(" ")[1].rstrip(":"))
            if self.mine and not self.quiet and not KNOWN_OPEN.search(head):
                print(short(NO_PROOF.sub(lambda m: ": no proof yet" + ("; refused: " + m.group(2) if m.group(2) else ""), head))[:400])
                print("".join("    " + note + "\n" for note in self.notes), end="")
        self.notes = []

    def goal(self, head, block):
        """Prints the goal at a hole."""
        self.shown += 1
        if self.mine:
            print("\n" + head.split(": goal ? in ")[0] + "  ?  " + head.split("`")[-2] + "\n" + goal(block[1:]))

    def error(self, path, head, block):
        """Notes which answer failed, and prints the error."""
        self.shown += 1
        name = re.search(r"error: `([^`]+)`", head)
        if name and path.endswith("Proof.antt") and self.mine:
            self.failed.setdefault(path, set()).add(name.group(1))
        if self.mine and not self.quiet:
            print("\n" + short("\n".join(block))[:self.width].rstrip())

    def counts(self):
        """The functions proved and not, as one line."""
        names = " (%s)" % ", ".join(name.split("::", 1)[-1] for name in self.open) if self.open else ""
        left = "; %d errors that only follow are left out" % len(self.hidden) if self.hidden else ""
        return "%d functions proved, %d not%s%s" % (self.proved, len(self.open), names, left)
