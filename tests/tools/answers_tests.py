"""answers, places --fix and the records: paths are counted right, and a skeleton is filled."""

import contextlib
import io
import os
import subprocess
import sys
import tempfile
import unittest

from parts.clauses import clauses
from parts.fill import take_over
from parts.records import CALLED, Records
from parts.recount import recounted
from parts.spots import Spots
from samples import LTS, SKELETON, clause, path, proof

TOOLS = os.path.join(os.path.dirname(os.path.abspath(__file__)), "..", "..", "tools")


def spots():
    """The things of the sample's function, with no check run."""
    out = Spots("Proof.antt")
    out.known[None] = Records(LTS)
    return out


def terms(text):
    """{name: term on one line}."""
    return {c.name: " ".join(c.term.split()) for c in clauses(text)}


class Counted(unittest.TestCase):
    """Paths are counted as the records say."""

    def test_the_chain_of_a_need(self):
        chain = Records(LTS).chain("After-find2")
        self.assertEqual([(depth, thing) for depth, thing, _ in chain], [(0, "find2"), (1, "if1"), (2, "find"), (3, "args"), (3, "good"), (3, "pre")])
        self.assertEqual([has for _, _, has in chain[:4]], [CALLED, ["left"], CALLED, ["t", "e"]])

    def test_the_needs_and_what_is_called(self):
        records = Records(LTS)
        self.assertEqual(records.needs, {"find-requires": "Start", "find-requires-2": "Else1", "returns": "After-find2"})
        self.assertEqual(records.called, ["tables::find"])

    def test_short_forms_are_written_out(self):
        need = {c.name: c for c in clauses(SKELETON)}["returns"]
        self.assertEqual(spots().expand("law (@find .ensures) @Start (@args .t) (c .b4 .x)", need),
                         "law (%s) %s (%s) (%s)" % (path(2, " .find .ensures"), path(3, ""), path(3, " .args .t"), path(4, " .x")))

    def test_a_thing_that_is_not_known_there_ends_it(self):
        need = {c.name: c for c in clauses(SKELETON)}["find-requires"]
        with self.assertRaises(SystemExit):
            spots().expand("@find .ensures", need)

    def test_fix_counts_anew_and_says_so(self):
        text = proof(clause("returns", "law (%s) (%s) (%s)" % (path(7, " .find .ensures"), path(1, " .if1 .left"), path(9, " .gone .x"))))
        said = io.StringIO()
        with contextlib.redirect_stdout(said):
            new = recounted(text, "put", Records(LTS))
        self.assertIn("(%s) (%s) (s9 .gone .x)" % (path(2, " .find .ensures"), path(1, " .if1 .left")), new)
        self.assertIn("returns: .find is at .b2, was at .b7", said.getvalue())
        self.assertIn("returns: not known there: c .b9 .gone", said.getvalue())

    def test_fix_reads_bound_records(self):
        text = proof("returns : tie.Need-returns\nreturns c =\n    let s4 = c .before .before .before .before in\n    law (s4 .find .ensures)\n\n")
        with contextlib.redirect_stdout(io.StringIO()):
            new = recounted(text, "put", Records(LTS))
        self.assertIn("returns c = law (c .before .before .find .ensures)\n", new)


class Filled(unittest.TestCase):
    """A skeleton is filled by lines, as the command does it."""

    def setUp(self):
        self.room = tempfile.TemporaryDirectory()
        self.file = os.path.join(self.room.name, "Proof.antt")
        with open(self.file, "w") as to:
            to.write(SKELETON)

    def tearDown(self):
        self.room.cleanup()

    def answer(self, lines):
        """Runs `answers` on the skeleton; gives its status and the file's text after it."""
        done = subprocess.run([sys.executable, "-B", os.path.join(TOOLS, "answers"), self.file], input=lines, text=True, capture_output=True)
        with open(self.file) as source:
            return done.returncode, source.read()

    def test_every_line_goes_to_its_need_and_the_star_to_the_rest(self):
        status, text = self.answer("use mathlib.Core.Path.{refl}\nuse native.Mathlib.Omega.{arith}\nInv-loop | | i ≤ 8\nμ-loop | | 8 - i\n"
                                   "returns | held leads | law (c .b9 .pre)\n  (c .b2 .if1 .left)\n* | | search needs\n")
        self.assertEqual(status, 0)
        self.assertEqual(terms(text)["Inv-loop"], "i ≤ 8")
        self.assertEqual(terms(text)["μ-loop"], "8 - i")
        self.assertEqual(terms(text)["find-requires"], "search needs")
        self.assertEqual(terms(text)["find-requires-2"], "search needs")
        self.assertEqual(terms(text)["returns"], "let s9 = c%s in law (s9 .pre) (c .before .before .if1 .left)" % (" .before" * 9))
        self.assertIn("\nunfolding held leads\nreturns c =\n", text)
        self.assertEqual((text.count("use mathlib.Core.Path.{refl}\n"), text.count("use native.Mathlib.Omega.{arith}\n")), (1, 1))

    def test_the_star_leaves_invariants_alone(self):
        self.assertEqual(terms(self.answer("* | | search needs\n")[1])["Inv-loop"], "?")

    def test_nothing_is_written_if_a_need_is_not_found(self):
        status, text = self.answer("returns | | refl\nreturn | | refl\n")
        self.assertNotEqual(status, 0)
        self.assertEqual(text, SKELETON)

    def test_a_line_that_is_no_answer_is_refused(self):
        status, text = self.answer("returns = refl\n")
        self.assertNotEqual(status, 0)
        self.assertEqual(text, SKELETON)


class TakenOver(unittest.TestCase):
    """An earlier proof is taken over into a new skeleton."""

    def test_answers_invariants_lemmas_and_uses_come_over(self):
        old = SKELETON.replace("Inv-loop t e i₀ i = ?", "Inv-loop t e i₀ i = (\n  i ≤ 8,\n)").replace("returns c = ?", "returns c = near (%s)" % path(5, " .find .ensures"))
        old = old.replace("-- src/lib.rt:9:5", "-- why it is near\nnear : ℕ\nnear = 3\n\ngone : tie.Need-gone\ngone c = refl\n\n-- src/lib.rt:9:5")
        said = io.StringIO()
        with contextlib.redirect_stdout(said):
            new = take_over(SKELETON, "use lib.ListN.{take}\n" + old, spots())
        self.assertEqual(terms(new)["returns"], "near (%s)" % path(2, " .find .ensures"))
        self.assertEqual(terms(new)["Inv-loop"], "( i ≤ 8, )")
        self.assertEqual(terms(new)["find-requires"], "?")
        self.assertTrue(new.startswith("use lib.ListN.{take}\n"))
        self.assertIn("-- why it is near\nnear : ℕ\nnear = 3\n\n-- src/lib.rt:9:5\n", new)
        self.assertIn("no need any more: gone", said.getvalue())
        self.assertNotIn("gone :", new)
