"""Writing out the short forms of a line for `answers`: `.b7`, and `@THING`, the path from a need to a thing known there."""

import os
import re

from parts.clauses import NAME
from parts.generated import find
from parts.paths import steps
from parts.records import Records
from parts.repo import fail

PROOF = re.compile(r"(?:^|/)crates/([^/]+)/proofs/(.*)/Proof\.antt$")


class Spots:
    """The things that are known at the needs of one proof file, read when the first is asked for."""

    def __init__(self, file):
        match = PROOF.search(os.path.abspath(file))
        self.crate, self.folder = match.groups() if match else (None, None)
        self.known = {}

    def records(self, member):
        """The records of the file's function; of a cycle, those of one member."""
        if member not in self.known:
            if not self.crate:
                fail("the file is not crates/CRATE/proofs/FUNCTION/Proof.antt, so @ has no meaning")
            function = self.folder
            if member:
                above, names = os.path.split(self.folder)
                name, = [name for name in names.split("+") if name.replace("_", "-") == member]
                function = os.path.join(above, name)
            self.known[member] = Records(find(self.crate, function)[0])
        return self.known[member]

    def chain(self, clause):
        """What is known where a clause stands, nearest first."""
        records = self.records(clause.member)
        return records.chain(records.needs.get(clause.place) if clause.is_need else clause.place)

    def path(self, thing, clause):
        """The path from a clause's `c` to a thing; `Start` is the record of the entry."""
        chain = self.chain(clause)
        depths = {name: depth for depth, name, _ in chain}
        if thing == "Start":
            return "c" + steps(chain[-1][0])
        if thing not in depths:
            fail("%s: @%s is not known there; these are: %s" % (clause.name, thing, " ".join(depths)))
        return "c" + steps(depths[thing]) + " ." + thing

    def expand(self, term, clause):
        """The term with its short forms written out for this clause."""
        term = re.sub(r"@(%s)" % NAME, lambda match: self.path(match.group(1), clause), term)
        return re.sub(r" \.b(\d+)\b", lambda match: steps(int(match.group(1))), term)
