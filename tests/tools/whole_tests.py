"""bind on every proof that the repository had in the older form: short lines, the same after a second run, and the same answers.

They stand in tests/tools/older, each under its crate and function, as they were when they were the proofs."""

import glob
import os
import unittest

from parts.binding import bound_text, undone_text
from parts.clauses import clauses
from parts.paths import one_line

ROOT = os.path.join(os.path.dirname(os.path.abspath(__file__)), "older")
PROOFS = sorted(glob.glob(os.path.join(ROOT, "**", "*.txt"), recursive=True))


def said(text):
    """{name: what the clause says}, with paths written out and on one line."""
    return {c.name: (one_line(c.kind), c.args, one_line(c.term)) for c in clauses(undone_text(text)[0])}


class EveryProof(unittest.TestCase):
    """What holds of each proof file once it is bound."""

    def test_there_are_proofs(self):
        self.assertGreater(len(PROOFS), 100)

    def test_bound(self):
        for path in PROOFS:
            with open(path) as source:
                text = source.read()
            new = bound_text(text)[0]
            with self.subTest(path=os.path.relpath(path, ROOT)):
                self.assertLessEqual(max(map(len, new.split("\n"))), 160)
                self.assertEqual(bound_text(new)[0], new)
                self.assertEqual(said(new), said(text))
