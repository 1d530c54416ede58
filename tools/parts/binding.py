"""Binding the records that an answer reads: `let s4 = c .before .before .before .before in`, and undoing it."""

import re

from parts.clauses import clauses
from parts.long_lines import LONGEST, broken
from parts.paths import PATH, binds, depth_of, one_line, stands_free, steps, written_out
from parts.wrap import lets_apart, wrapped

FAR = 6  # an answer with a longer path is bound, however short it is
NEAR = 3  # paths up to here stay as they are
STRIDE = 14  # steps that fit on the line of one let
INDENT = "    "
AS_RECORD = (" =", "")
AS_FUNCTION = (" : _ → _ = λ _.", " c")
# These read every variable in scope with the fields of records, 128 records at most: a bound record would fill that up, a function does not.
LOOKS_FOR_FACTS = re.compile(r"\bomega\b|\bsearch\b|\bcc\b")


def undone_text(text):
    """The file's text with every path written out and every answer on one line, and the names of the answers that were left."""
    return rewritten(text, lambda head, term, old: head + " " + term)


def bound_text(text):
    """The file's text with its long paths bound and its lines broken, and the names of the answers that were left."""
    text, left = rewritten(text, laid_out)
    return broken(text), left


def rewritten(text, write):
    """The text with each answer about a record `c` written anew, from the last to the first."""
    left = []
    for clause in reversed(clauses(text)):
        if "c" not in clause.args.split():
            continue
        start, term = text.rfind("\n", 0, clause.start) + 1, written_out(clause.term)
        if "--" in clause.term or binds(term, "c") or foreign(term):
            left.append(clause.name)
            continue
        new = write(text[start:clause.start], term, text[start:clause.end])
        text = text[:start] + new + text[clause.end:]
    return text, left[::-1]


def laid_out(head, term, old):
    """A clause bound anew; one that says the same already, on lines that are short enough, stays as it is laid out."""
    new = bound(head, term)
    return old if one_line(new) == one_line(old) and longest(old) <= LONGEST else new


def longest(text):
    """The columns of the longest line."""
    return max(map(len, text.split("\n")))


def foreign(term):
    """Whether a written out term still has a name of the form sN, which is then not ours."""
    return any(m.group(1) != "c" for m in PATH.finditer(term))


def depths(term):
    """The numbers of `.before` of the term's paths from `c`, in order, each once."""
    return sorted({depth_of(m) for m in PATH.finditer(term) if stands_free(term, m.start())})


def stations(far):
    """The depths that get a name: those given, and steps between them where one let would not fit on a line."""
    out, last = [], 0
    for depth in far:
        strides = -(-(depth - last) // STRIDE)
        out += [last + (depth - last) * i // strides for i in range(1, strides + 1)]
        last = depth
    return out


def bound(head, term):
    """The clause with its long paths bound and its lines broken; one that is short enough stays on its line."""
    all_depths = depths(term)
    if len(head) + 1 + len(term) <= LONGEST and max(all_depths, default=0) <= FAR:
        return head + " " + term
    binder, of_c = AS_FUNCTION if LOOKS_FOR_FACTS.search(term) else AS_RECORD
    lines, last = [head], ("c", 0)
    for depth in stations([d for d in all_depths if d > NEAR]):
        lines.append("%slet s%d%s %s%s in" % (INDENT, depth, binder, last[0], steps(depth - last[1])))
        last = ("s%d%s" % (depth, of_c), depth)
    term = PATH.sub(lambda m: shortened(m, term, of_c), term)
    return "\n".join(lines + [line for part in lets_apart(term) for line in wrapped(part, INDENT)])


def shortened(match, term, of_c):
    """A path from `c`, from the bound record where it has one."""
    depth = depth_of(match)
    return "s%d%s" % (depth, of_c) if depth > NEAR and stands_free(term, match.start()) else match.group(0)
