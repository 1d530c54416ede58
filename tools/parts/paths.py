"""The paths of a term: `c .before .before .pre`, written out, or from a bound record: `sN`, or `sN c`, is N steps before c."""

import re

WORDS_BEFORE_A_TERM = ("in", "rw", "simp", "at", "omega", "cc", "search")
PATH = re.compile(r"(?<![^\s(\[,{])(c|s\d+)( c)?((?: \.before)*)(?= \.|[\s)\],}]|$)")
LAMBDA = re.compile(r"λ((?:\s*(?:[^\s().]+|\((?:[^()]|\([^()]*\))*\)))+)\.")  # its binders
BOUND = re.compile(r"let (s\d+)(?: : _ → _ = λ _\.| =) (c|s\d+)(?: c)?((?: \.before)+) in ")


def stands_free(text, at):
    """Whether the word at this place starts a path: after a function it is an argument, `law c .pre` is `(law c) .pre`."""
    before = (text[:at].split() or ["="])[-1]
    return not re.search(r"[\w)\]}'₀-₉]$", before) or before in WORDS_BEFORE_A_TERM


def steps(depth):
    """So many `.before`."""
    return " .before" * depth


def one_line(term):
    """The term on one line: one space where a line ended, and no comma or semicolon after the last part of a tuple or record."""
    term = re.sub(r"\s*\n\s*", " ", term).strip()
    return re.sub(r"[,;]? ([)\]}])", r"\1", re.sub(r"([(\[{]) ", r"\1", term))


def binds(term, name):
    """Whether a λ, a let, a case, a `←` or a type inside the term binds this name."""
    word = re.compile(r"(?<![^\s({,])%s(?![^\s:.)},])" % re.escape(name))
    patterns = [part.split(" : ")[0] for binders in LAMBDA.findall(term) for part in re.split(r"[()]", binders)]
    patterns += re.findall(r"(?<!\S)let ([^=:]*)", term) + re.findall(r"[\[|] *([^|\[↦]*)↦", term) + re.findall(r"(\S+|\([^()]*\)) ←", term)
    patterns += re.findall(r"[({]([^(){}:]*) : ", term)
    return any(word.search(pattern) for pattern in patterns)


def written_out(term):
    """The term on one line with every bound record put back in its place as a path from `c`."""
    term, depths = one_line(term), {"c": 0}
    while True:
        bound = BOUND.search(term)
        if not bound or bound.group(2) not in depths:
            break
        depths[bound.group(1)] = depths[bound.group(2)] + bound.group(3).count(".")
        term = term[:bound.start()] + term[bound.end():]
    return PATH.sub(lambda m: put_back(m, term, depths), term)


def put_back(match, term, depths):
    """A path from a bound record, as a path from `c`; in brackets where the record is an argument."""
    name, of_c, more = match.groups()
    if name == "c" or name not in depths:
        return match.group(0)
    path = "c" + steps(depths[name]) + more
    return path if stands_free(term, match.start()) else "(%s)" % path


def depth_of(match):
    """How many steps a written out path goes back."""
    return match.group(3).count(".")
