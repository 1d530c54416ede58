"""The clauses of a proof file: where each starts and ends, and which of them answer a need."""

import re

NAME = r"[^\s()\[\]{},;.|]+"  # a name of antt
GAP = r"(?: |\n +)"  # between the words of a clause's head
CLAUSE = re.compile(r"^((?:abbrev |pub )*)(\S+) : ((?:(?!\n\n)[\s\S])*?)\n(unfolding [^\n]*\n)?\2((?:%s[^\s=]+)*)%s=" % (GAP, GAP), re.M)
NEED = re.compile(r"\b(?:tie|(\S+)-lts)\.(Need-)?(%s)" % NAME)


class Clause:
    """A declaration `NAME : KIND`, perhaps `unfolding ..`, and `NAME ARGS = TERM`, as places in its file's text."""

    def __init__(self, match, text):
        words, self.name, self.kind, self.unfolding, self.args = match.groups()
        self.abbrev = "abbrev" in words
        self.kind_end, self.start, self.end = match.end(3), match.end(), term_end(text, match.end())
        self.term = text[self.start:self.end]
        need = NEED.search(self.kind)
        self.speaks = bool(need) and not self.abbrev  # of a place of the code
        self.member, self.is_need, self.place = (need.group(1), bool(need.group(2)), need.group(3)) if need else (None, False, None)


def term_end(text, start):
    """Where the term that starts here ends: before the next line that is neither indented nor a closing bracket."""
    end = re.compile(r"\n(?=[^\s)\]}])|\Z").search(text, start).start()
    return start + len(text[start:end].rstrip())


def clauses(text):
    """Every clause of a proof file, in order."""
    return [Clause(match, text) for match in CLAUSE.finditer(text)]


def speaking(text):
    """The clauses that speak of a place of the code: the needs, and the lemmas about a record."""
    return [clause for clause in clauses(text) if clause.speaks]


def unfolded(clause):
    """The names that a clause unfolds, as one text."""
    return (clause.unfolding or "")[len("unfolding"):].strip()
