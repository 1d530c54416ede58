"""What the source says of a function: its parameters, its clauses and the text of its tests and calls."""

import glob
import os
import re

from parts.repo import read, root

BRACKETS = {"(": ")", "[": "]", "{": "}"}
BRANCHY = re.compile(r"&&|\|\||\bif let\b|\bmatch\b")  # where the order of the text does not settle which test is which
LOOPY = re.compile(r"\bloop\b|\bfor\b|'\w+:|&&|\|\|")


class Source:
    """A function as it is written: its parameters as (name, type), what it requires and ensures, and its body."""

    def __init__(self, text, at):
        end = closing(text, at)
        self.params = re.findall(r"(?:^|,)\s*(?:mut )?(\w+)\s*:\s*([^,]*(?:\[[^\]]*\])?)", text[at + 1:end])
        self.clauses = {"requires": [], "ensures": [], "ghost": []}
        while True:
            at = text.find("{", end)
            word = (text[end:at].split() or [""])[-1]
            end = closing(text, at) + 1
            if word not in self.clauses:
                break
            self.clauses[word].append(" ".join(re.sub("[⌜⌝]", "", text[at + 1:end - 1]).split()))
        self.body = text[at:end]

    def says(self, word):
        """All that the function requires, or ensures, on one line."""
        return " AND ".join(self.clauses[word]) or "nothing"


def closing(text, at):
    """Where the bracket that opens here is closed."""
    depth = 0
    for place in range(at, len(text)):
        depth += (text[place] in BRACKETS) - (text[place] in BRACKETS.values())
        if depth == 0:
            return place
    return len(text)


def source(crate, function):
    """The one function of this name in a crate, or None where there is none or more than one."""
    hits = []
    for path in glob.glob(glob.escape(os.path.join(root(), "crates", crate, "src")) + "/**/*.rt", recursive=True):
        text = re.sub(r"//.*|b'(\\.|[^'])'", lambda match: " " * len(match.group(0)), read(path))
        hits += [(text, match.end()) for match in re.finditer(r"\bfn %s\b(<[^>]*>)?\s*(?=\()" % re.escape(function), text)]
    return Source(*hits[0]) if len(hits) == 1 else None


def tests(body, things):
    """{thing: the text of its test} of the branches and loops, where the order of the text settles which is which."""
    out = {}
    conditions = [] if BRANCHY.search(body) else re.findall(r"\bif\s+([^{]*?)\s*\{", body)
    names = ["if%d" % (i + 1) for i in range(len(conditions))]
    if {thing for thing in things if re.fullmatch(r"if\d+", thing)} == set(names):
        out.update(zip(names, conditions))
    if not LOOPY.search(body):
        loops = re.findall(r"\bwhile\s+([^{]*?)\s*\{", body)
        out.update(("loop%s-test" % (i + 1 if i else ""), condition) for i, condition in enumerate(loops))
    return out


def calls(body, callee, things):
    """{thing: the text of its call} of one function that is called, where no call of it stands inside another."""
    texts = [body[m.start():closing(body, m.end() - 1) + 1] for m in re.finditer(r"\b%s\(" % callee, body)]
    names = [callee.replace("_", "-") + (str(i + 1) if i else "") for i in range(len(texts))]
    if any(text.count(callee + "(") != 1 for text in texts) or any(name not in things for name in names):
        return {}
    return dict(zip(names, (" ".join(text.split()) for text in texts)))


def hints(body, records):
    """{thing: its text in the source}; nothing where the text may not settle it."""
    things = {field for fields in records.fields.values() for field, _ in fields}
    out = tests(body, things)
    for callee in {path.split("::")[-1] for path in records.called}:
        out.update(calls(body, callee, things))
    return out
