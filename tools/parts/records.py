"""The records of one function: one for each place of its code, with the field `before`, the record of the place before
it, and one field more, the thing that was bound last. Each need is a function of such a record, `c`."""

import re

from parts.clauses import NAME

CALLED = ["result", "ensures", "last", "kept", "ok"]  # what a call binds
AT_ENTRY = {"args": "Args", "fits": "Ranges"}  # the fields of the first record that are records themselves
RECORD = re.compile(r"^( *)pub record (\S+)[^\n]* : Type \d+ where\n((?:\1  .*\n|\n)*)", re.M)
OWN = re.compile(r"^ *abbrev pub (\S+·own) : Type \d+\n *\1 =\s+Called\.Called\b", re.M)
NEED = re.compile(r"^ *abbrev pub Need-(\S+) : Type \d+\n *Need-\1 =\s+\(c : (\S+?)\)", re.M)


class Records:
    """What a module Lts says: the fields of each record, the record of each need, and the functions that are called."""

    def __init__(self, text):
        self.fields = {}
        for match in RECORD.finditer(text):
            indent, name, body = match.groups()
            field = r"^%s  pub (%s) : ((?:.*)(?:\n%s   +.*)*)" % (indent, NAME, indent)
            self.fields[name] = [(f.group(1), " ".join(f.group(2).split())) for f in re.finditer(field, body, re.M)]
        for match in OWN.finditer(text):
            self.fields[match.group(1)] = [(field, "") for field in CALLED]
        self.needs = dict(match.groups() for match in NEED.finditer(text))
        self.called = list(dict.fromkeys(re.findall(r"Syntax\.call\s+\"([^\"]+)\"", text)))

    def chain(self, place):
        """[(number of .before, thing, what it has)] from a place on, nearest first; the things of the entry last."""
        out, depth = [], 0
        while "before" in dict(self.fields[place]):
            (thing, kind), = [field for field in self.fields[place] if field[0] != "before"]
            out.append((depth, thing, self.names(kind.split()[0])))
            place, depth = dict(self.fields[place])["before"].split()[0], depth + 1
        return out + [(depth, field, self.names(AT_ENTRY.get(field))) for field, _ in self.fields[place]]

    def names(self, record):
        """The names of a record's fields; of what is no record, none."""
        return [name for name, _ in self.fields.get(record, [])]
