"""Runs every example of the documents, and compares what it gives with what they say.

    python3 -B tests/documents/run.py [FILES]

Without FILES: README.md and docs/*.md, the documentation comments of the crate `mms`, the programs in bindings/examples (as C and as C++)
and bindings/rust/examples, the table of docs/MODEL.md that says what of the demands must be believed (believed.py), and then the documents
in tests/documents/wrong, each of which must be refused. It prints one line for each example, and at the end `N examples, M wrong`. The
status is 0 only if M is 0. `tests/documents/run` sets what is needed and calls this.

How an example is written in a document. Code is fenced, never indented, and the word behind the backticks says what it is:

  requests [STATE]   one request in each line, and behind `: ` the report that it gets, as `examples/run -v` prints them. They are one
                     script, run on case state S1 (examples/state.words) or on the state file STATE.
  script [STATE]     the bytes of a script. The next block is `reports`, the bytes that the desk writes.
  c [FILE]           a whole program, compiled without warnings against bindings/mms.h and linked with the archive. The next block is
  rust [FILE]        `output`, what the program writes. Or the program is saved as FILE, and a later `sh` names FILE or its folder below
                     target/try; then `output` may be left out.
  sh                 commands, typed in the repository's root. If the next block is `output`, that is what they write (on standard
                     output). A command that fails is wrong. target/try is the reader's own folder; it is emptied before each document.
                     A path into target/ at the start of a line or behind `| ` is an x86-64 program, and is started with UNDER.
  antt FILE          a part of FILE, a file of definitions, word for word as it stands there.
  text               a picture or a form. It is not run, so no command and no report may stand in it.

Prose may stand between an example and its result, but no other block. A line `...` in an `output` stands for any lines. Every other word
behind the backticks is refused, and so is none. Commands that cannot be run from here are listed in examples.py, each with the reason.
A link to a file or a heading that is not there is wrong, too.
Documentation comments: a block without a word, or with `rust`, is a program or the body of one; it must end without a panic.

Environment: UNDER   words with which x86-64 programs are started; none on x86-64
             CC, CXX, CARGO, RUSTC   compilers for x86-64
             DESK   another program, run as it is instead of target/bin/desk
"""

import re
import shutil
import sys
from pathlib import Path

import believed
import links
import markdown
import rustdoc
from examples import RUNNERS, compare
from machine import ROOT, TRY, Machine, Wrong

# Documents that are worth nothing without examples.
MUST_HAVE = ("README.md", "docs/GUIDE.md", "docs/LINKING.md", "bindings/rust/src/lib.rs", "tests/documents/wrong/none.md")
# In the first line of a document that must be refused: what is to be said of it.
EXPECTED = re.compile(r"(?:<!--|//) wrong: (.*?)(?: -->)?\n")
# What a program that is an example as a whole is built as, by the end of its name. The header is for C and C++, so its programs are both.
LANGUAGES = {
    ".c": {"C": Machine.c_program, "C++": Machine.cxx_program},
    ".rs": {"Rust": lambda machine, text: machine.rust_program(text, strict=True)},
}


class Tally:
    """How many examples there were and how many were wrong; each is printed as it is done."""

    def __init__(self, quiet=False):
        self.examples = 0
        self.wrong = 0
        self.said = []
        self.quiet = quiet

    def say(self, place, kind, verdict):
        self.said.append(verdict)
        if not self.quiet:
            print(f"{place} {kind}: {verdict}", flush=True)

    def fault(self, fault):
        self.wrong += 1
        self.say(fault.place, "form", "WRONG: " + fault.what)

    def tried(self, place, kind, attempt):
        """Runs one example, and says how it went; `attempt` returns a remark or nothing."""
        self.examples += 1
        try:
            self.say(place, kind, attempt() or "ok")
        except Wrong as wrong:
            self.wrong += 1
            self.say(place, kind, "WRONG: " + str(wrong).replace("\n", "\n    "))


def empty_try():
    if TRY.exists():
        shutil.rmtree(TRY)
    TRY.mkdir(parents=True)


def documents():
    """The files that have examples, from the root."""
    pages = [ROOT / "README.md", *sorted((ROOT / "docs").glob("*.md"))]
    sources = sorted((ROOT / "bindings" / "rust" / "src").rglob("*.rs"))
    programs = sorted((ROOT / "bindings" / "examples").glob("*.c")) + sorted((ROOT / "bindings" / "rust" / "examples").glob("*.rs"))
    return [str(path.relative_to(ROOT)) for path in pages + sources + programs]


def is_program(name):
    """A file that is an example as a whole."""
    return "/examples/" in "/" + name and not name.endswith(".md")


def examples_of(name):
    """The examples of a document and the faults of its form."""
    text = (ROOT / name).read_text()
    if name.endswith(".rs"):
        return rustdoc.examples_of(name, text)
    page = markdown.scanned(name, text)
    examples, faults = markdown.joined(page.blocks)
    return examples, page.faults + faults + links.faults_of(name, text)


def run_document(name, machine, tally):
    """Runs the examples of one document in their order."""
    examples, faults = examples_of(name)
    for fault in sorted(faults, key=lambda fault: int(fault.place.rpartition(":")[2])):
        tally.fault(fault)
    if name in MUST_HAVE and not examples:
        tally.fault(markdown.Fault(name, 1, "has no examples"))
    empty_try()
    for block in examples:
        tally.tried(block.place, block.kind, lambda: RUNNERS[block.kind](block, machine))


def run_programs(names, machine, tally):
    """Each program must end well and write something, and those of one name in several languages must write the same."""
    first = {}

    def attempt(name, build):
        written = machine.start(build(machine, (ROOT / name).read_text()))
        if not written:
            raise Wrong("it wrote nothing")
        stem = Path(name).stem
        if stem in first:
            compare(first[stem], written)
        first.setdefault(stem, written)

    for name in names:
        for language, build in LANGUAGES[Path(name).suffix].items():
            tally.tried(name, language, lambda: attempt(name, build))


def run_wrong(machine, tally):
    """Each document that must be refused, and for the reason that it gives itself."""

    def attempt(path):
        name = str(path.relative_to(ROOT))
        expected = EXPECTED.match(path.read_text()).group(1)
        inner = Tally(quiet=True)
        run_document(name, machine, inner)
        refusals = [said for said in inner.said if said.startswith("WRONG: ")]
        if not refusals or not all(expected in said for said in refusals):
            raise Wrong(f"must be refused with '{expected}' and nothing else\n" + "\n".join(inner.said))
        return "refused"

    for path in sorted((ROOT / "tests" / "documents" / "wrong").iterdir()):
        tally.tried(str(path.relative_to(ROOT)), "wrong", lambda: attempt(path))


def main(names):
    machine, tally = Machine(), Tally()
    chosen = names or documents()
    try:
        for name in chosen:
            if not is_program(name):
                run_document(name, machine, tally)
        run_programs([name for name in chosen if is_program(name)], machine, tally)
        if not names:
            tally.tried(believed.PAGE, "believed", believed.compare)
            run_wrong(machine, tally)
    finally:
        machine.close()
    print(f"{tally.examples} examples, {tally.wrong} wrong")
    return 1 if tally.wrong or not tally.examples else 0


if __name__ == "__main__":
    sys.exit(main(sys.argv[1:]))
