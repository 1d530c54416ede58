"""prove, cycle-short and loop-proof: the output of a check is sorted, and the lines they write are right."""

import contextlib
import io
import os
import subprocess
import sys
import tempfile
import unittest

from parts.cycle import shortened
from parts.goals import short
from parts.output import Output, blocks
from samples import CHECK, CYCLE, SKELETON

TOOLS = os.path.join(os.path.dirname(os.path.abspath(__file__)), "..", "..", "tools")


class Sorted(unittest.TestCase):
    """The output of a check."""

    def setUp(self):
        self.room, self.was = tempfile.TemporaryDirectory(), os.getcwd()
        os.chdir(self.room.name)
        open("crates.txt", "w").close()

    def tearDown(self):
        os.chdir(self.was)
        self.room.cleanup()

    def read(self, only=None):
        """The sample's output as `prove` reads it, and what is printed of it."""
        said, output = io.StringIO(), Output(only, 900, False)
        with contextlib.redirect_stdout(said):
            for block in blocks(CHECK):
                output.take(block)
        return output, said.getvalue()

    def test_what_is_counted(self):
        output, _ = self.read()
        self.assertEqual(output.counts(), "1 functions proved, 2 not (put, has); 1 errors that only follow are left out")
        self.assertEqual(output.failed, {"crates/box/proofs/has/Proof.antt": {"loop-again"}})

    def test_what_is_printed(self):
        _, said = self.read()
        self.assertIn("fn box::put: no proof yet; refused: `returns`\n", said)
        self.assertIn("  ?  returns\n    c : After-find\n  ⊢ c .b2 .find .result ≡ suc 0\n", said)
        self.assertIn("error: `loop-again`", said)
        self.assertNotIn("has-spec", said)
        self.assertNotIn("modules loaded", said)

    def test_an_offered_file_is_written_and_never_overwritten(self):
        file = "crates/box/proofs/put/Proof.antt"
        self.read()
        with open(file) as source:
            self.assertEqual(source.read(), "use borrow.Author.Needs.{needs}\n\nreturns : tie.Need-returns\nreturns c = ?\n")
        with open(file, "w") as to:
            to.write("mine\n")
        self.read()
        with open(file) as source:
            self.assertEqual(source.read(), "mine\n")

    def test_only_one_function(self):
        output, said = self.read("get")
        self.assertIn("?  returns", said)
        self.assertNotIn("loop-again", said)
        self.assertEqual(output.failed, {})
        self.assertFalse(os.path.exists("crates"))


class Written(unittest.TestCase):
    """The smaller tools."""

    def test_prefixes_and_steps_are_shortened(self):
        self.assertEqual(short("Rattle·box·specs.specs.Laws.near (c .before .before .before .pre)"), "near (c .b3 .pre)")

    def test_the_claims_of_a_cycle_are_named_once(self):
        new = shortened(CYCLE)
        self.assertIn("abbrev go-calls : ℕ → go-lts.Claims\ngo-calls t = (used-reads.Asked, used-reads.Learnt, go-below t, go.Post)\n", new)
        self.assertEqual((new.count("(go-calls t)"), new.count("used-reads.Asked")), (2, 1))
        self.assertEqual(shortened(new), new)

    def test_a_cycle_with_two_tuples_is_left(self):
        other = CYCLE.replace("    used-reads.Asked, used-reads.Learnt,\n", "    used-reads.Asked,\n")
        with contextlib.redirect_stdout(io.StringIO()) as said:
            self.assertEqual(shortened(other), other)
        self.assertIn("go: its needs cite 2 tuples", said.getvalue())

    def test_the_lines_of_a_loop(self):
        with tempfile.TemporaryDirectory() as room:
            file = os.path.join(room, "Proof.antt")
            with open(file, "w") as to:
                to.write(SKELETON)
            words = ["--form", "every", "--callee", "user_ok", "--bound", "16", "--predicate", "fine t", "--laws", "Laws", "--unfolding", "all", "--print"]
            said = subprocess.run([sys.executable, "-B", os.path.join(TOOLS, "loop-proof"), file] + words, text=True, capture_output=True)
        self.assertEqual(said.returncode, 0)
        self.assertIn("Inv-loop | | (i ≤ 16) × (every i (fine t) ≡ true)\n", said.stdout)
        self.assertIn("returns | all | every-fails 16 _ _ (omega arith) (omega arith) (sym (@user-ok .ensures) ∙ not-true _ (@if1 .taken))\n", said.stdout)
        self.assertIn("use Laws.{every-none, every-more, every-fails, every-done}\n", said.stdout)

    def test_every_tool_has_help(self):
        for tool in ("answers", "bind", "cycle-short", "loop-proof", "places", "prove"):
            said = subprocess.run([os.path.join(TOOLS, tool), "--help"], text=True, capture_output=True)
            self.assertEqual(said.returncode, 0, tool)
            self.assertIn(tool, said.stdout)
