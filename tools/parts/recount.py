"""Counting the steps of a term's paths anew, after the code has changed."""

import re

from parts.binding import bound_text
from parts.clauses import NAME, speaking
from parts.paths import stands_free, steps, written_out

THING = re.compile(r"(?<![^\s(\[,{])c((?: \.before)*) \.(?!before\b)(%s)" % NAME)


def recount(name, term, chain):
    """The term, its paths written out, with each path `c .before .. .THING` as long as the chain says. It says what
    changes, and what is not known there and stays."""
    depths = {thing: depth for depth, thing, _ in chain}

    def anew(match):
        """One path, counted anew."""
        old, thing = match.group(1).count("."), match.group(2)
        if not stands_free(term, match.start()):
            return match.group(0)
        if thing not in depths:
            print("%s: not known there: c%s .%s" % (name, " .b%d" % old if old else "", thing))
            return match.group(0)
        if depths[thing] != old:
            print("%s: .%s is at .b%d, was at .b%d" % (name, thing, depths[thing], old))
        return "c" + steps(depths[thing]) + " ." + thing

    return THING.sub(anew, term)


def recounted(text, member, records):
    """The text of a proof file with the paths of its answers counted anew, in a cycle those of one member. An answer
    with nothing to count stays as it is laid out."""
    for clause in reversed(speaking(text)):
        place = records.needs.get(clause.place) if clause.is_need else clause.place
        if clause.member not in (None, member) or place not in records.fields:
            continue
        old = written_out(clause.term)
        new = recount(clause.name, old, records.chain(place))
        if new != old:
            text = text[:clause.start] + " " + new + text[clause.end:]
    return bound_text(text)[0]
