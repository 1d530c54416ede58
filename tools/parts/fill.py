"""Putting answers into the text of a proof file: from lines, and from an earlier proof of the function."""

import re

from parts.clauses import clauses, speaking, unfolded
from parts.paths import written_out
from parts.recount import recount
from parts.repo import fail

CHOSEN = re.compile(r"(^|-)(Inv|μ)-")  # an invariant or a measure, which the author chooses


def fill(text, need, unfolding, term, spots):
    """The text with this answer to this need; an invariant or a measure is answered by its name, too."""
    for clause in speaking(text):
        if clause.name == need:
            line = ("unfolding %s\n" % unfolding if unfolding else "") + need + clause.args
            return text[:clause.kind_end] + "\n" + line + " = " + spots.expand(term, clause) + text[clause.end:]
    for clause in clauses(text):
        if clause.abbrev and clause.name == need:
            return text[:clause.start] + " " + term + text[clause.end:]
    fail("no need %s in the file; nothing is written" % need)


def fill_rest(text, unfolding, term, spots):
    """The text with this answer to every need whose answer is still `?`."""
    for need in [clause.name for clause in speaking(text) if clause.is_need and clause.term.strip() == "?"]:
        text = fill(text, need, unfolding, term, spots)
    return text


def with_uses(text, uses):
    """The text with those of these `use` lines on top that it does not have."""
    have = text.split("\n")
    return "".join(use + "\n" for use in dict.fromkeys(uses) if use not in have) + text


def take_over(text, old, spots):
    """The text with all that an earlier proof of the function still has a name for. It says what it could not place."""
    text = chosen_over(answers_over(text, old, spots), old, spots)
    at = text.index("-- src/") if "-- src/" in text else text.index("\n\n") + 2
    text = text[:at] + "".join(lemma + "\n\n" for lemma in lemmas(text, old)) + text[at:]
    return with_uses(text, re.findall(r"^use .*", old, re.M))


def answers_over(text, old, spots):
    """The text with the earlier answers, their paths counted anew."""
    needs = {clause.name: clause for clause in speaking(text) if clause.is_need}
    for clause in speaking(old):
        if clause.is_need and clause.name not in needs:
            print("no need any more: " + clause.name)
        elif clause.is_need and clause.term.strip() != "?":
            term = recount(clause.name, written_out(clause.term), spots.chain(needs[clause.name]))
            text = fill(text, clause.name, unfolded(clause), term, spots)
    return text


def chosen_over(text, old, spots):
    """The text with the earlier invariants and measures."""
    names = {clause.name for clause in clauses(text) if clause.abbrev}
    for clause in clauses(old):
        if clause.abbrev and clause.name in names and CHOSEN.search(clause.name):
            text = fill(text, clause.name, "", clause.term.strip(), spots)
    return text


def lemmas(text, old):
    """The earlier declarations that are neither needs nor in the text, with their comments."""
    have = {clause.name for clause in clauses(text)} | {clause.name for clause in speaking(old) if clause.is_need}
    out = []
    for part in re.split(r"\n\s*\n", re.sub(r"^-- src/.*\n", "", old, flags=re.M)):
        name = re.search(r"^(?:abbrev |unfoldable |pub )*(\S+) : ", part, re.M)
        if name and name.group(1) not in have and not name.group(1).endswith("-spec"):
            out.append(re.sub(r"^use .*\n", "", part, flags=re.M).strip("\n"))
    return out
