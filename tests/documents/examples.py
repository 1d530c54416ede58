"""Runs one example of each kind and compares what it gives with what the document says."""

import difflib
import re
import shlex

import rustdoc
from machine import ROOT, S1, Wrong

REQUEST_KEYS = ("user", "op", "ref", "ref2", "a", "b", "c")
REPORT_KEYS = ("answer", "held", "missed")
# Where a document leaves lines out.
GAP = "..."

# Commands that are not run here, by their first word, and why.
NOT_RUN = {
    ".ci/run": "it runs this test",
    "tests/documents/run": "it is this test",
    "bench/run": "its figures differ from run to run",
}
# A program in target/ is x86-64; it is started at the beginning of a line or behind a pipe.
STARTS_PROGRAM = re.compile(r"(^|\| )((?:\.\./)*target/\S+)", re.M)


def difference(expected, found):
    """Both texts line by line, and what differs."""
    lines = difflib.unified_diff(expected.splitlines(), found.splitlines(), "document", "run", lineterm="", n=1)
    return "\n".join(lines) or "they differ in their line ends"


def compare(expected, found):
    """The texts must be the same, apart from what stands in a gap."""
    if "\n" + GAP + "\n" not in "\n" + expected:
        if expected != found:
            raise Wrong("differs\n" + difference(expected, found))
        return
    parts = re.split(r"(?m)^\.\.\.\n", expected)
    if not "".join(parts).strip():
        raise Wrong("there is nothing but a gap")
    if not re.fullmatch(r"(?:.*\n)*?".join(re.escape(part) for part in parts), found):
        raise Wrong("differs\n" + difference(expected, found))


def fields(words, keys, place):
    """Checks that the words are those keys, in that order, each with its value."""
    parts = words.split(" ")
    if [part.partition("=")[0] for part in parts] != list(keys) or not all("=" in part for part in parts):
        raise Wrong(f"line {place}: not of the form '{'=.. '.join(keys)}=..'")
    return "".join(part + "\n" for part in parts)


def run_requests(block, machine):
    """Each line is a request in one line, a colon and its report; all of them are one script."""
    script, expected = "", ""
    for number, line in enumerate(block.lines, 1):
        request, colon, report = line.partition(": ")
        if not colon:
            raise Wrong(f"line {number}: no report behind a colon")
        script += fields(request, REQUEST_KEYS, number)
        expected += fields(report, REPORT_KEYS, number)
    found = machine.answers(script.encode(), block.file or S1)
    if expected != found:
        raise Wrong("differs\n" + difference(in_lines(expected), in_lines(found)))


def in_lines(reports):
    """Reports, each in one line."""
    lines = reports.splitlines()
    width = len(REPORT_KEYS)
    return "".join(" ".join(lines[at : at + width]) + "\n" for at in range(0, len(lines), width))


def run_script(block, machine):
    found = machine.answers(block.text.encode(), block.file or S1)
    if found != block.result.text:
        raise Wrong("differs\n" + difference(block.result.text, found))


def saved(block):
    """Puts the program where the document tells the reader to save it."""
    if block.file:
        place = ROOT / block.file
        place.parent.mkdir(parents=True, exist_ok=True)
        place.write_text(block.text)


def run_c(block, machine):
    saved(block)
    program = machine.c_program(block.text)
    if block.result:
        compare(block.result.text, machine.start(program))


def run_rust(block, machine):
    saved(block)
    program = machine.rust_program(block.text, strict=True)
    if block.result:
        compare(block.result.text, machine.start(program))


def run_doctest(block, machine):
    machine.start(machine.rust_program(rustdoc.program_of(block), strict=False))


def left_out(block):
    """Why each command of a block is not run, for those that are not; they must be there all the same."""
    reasons = []
    for line in block.lines:
        name = line.split()[0] if line.split() else ""
        if name in NOT_RUN:
            if not (ROOT / name).is_file():
                raise Wrong(f"there is no {name}")
            reasons.append(f"{name} not run: {NOT_RUN[name]}")
    return reasons


def run_sh(block, machine):
    """The commands in one shell, and what they write if the document says it. Says which were left out."""
    reasons = left_out(block)
    if reasons and len(reasons) == len(block.lines):
        return "; ".join(sorted(set(reasons)))
    if reasons:
        raise Wrong("a command that is not run stands among others: " + reasons[0])
    under = shlex.join(machine.under)
    commands = STARTS_PROGRAM.sub(rf"\1{under} \2", block.text) if under else block.text
    found = machine.shell(commands)
    if block.result:
        compare(block.result.text, found)
    return None


def run_antt(block, machine):
    """A part of a file of definitions, as it stands there."""
    place = ROOT / block.file
    if not place.is_file():
        raise Wrong(f"there is no {block.file}")
    if block.text not in place.read_text():
        raise Wrong(f"does not stand in {block.file}")


RUNNERS = {
    "requests": run_requests,
    "script": run_script,
    "c": run_c,
    "rust": run_rust,
    "doctest": run_doctest,
    "sh": run_sh,
    "antt": run_antt,
}
