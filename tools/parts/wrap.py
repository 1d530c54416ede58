"""Breaking a term into lines: at a space, at the outermost bracket that leaves no line short, and never before a projection."""

import re

WIDTH = 150  # of a wrapped line
SHORT = 80  # a line is broken after this column where it can be
OPENING, CLOSING = "([{", ")]}"


def lets_apart(term):
    """The term in parts that each start a line: every let at its start, up to its `in`, and the rest."""
    out = []
    while term.startswith("let "):
        end = let_end(term)
        out, term = out + [term[:end]], term[end + 1:]
    return out + [term]


def let_end(term):
    """Where the let at the start of the term ends: after the `in` that is its own."""
    depth = lets = 0
    for word in re.finditer(r"[(\[{]|[)\]}]|(?<!\S)let(?= )|(?<!\S)in(?= )", term):
        depth += (word.group(0) in OPENING) - (word.group(0) in CLOSING)
        lets += (depth == 0) * ((word.group(0) == "let") - (word.group(0) == "in"))
        if depth == 0 and word.group(0) == "in" and lets == 0:
            return word.end()
    return len(term)


def breaks(text, within_paths):
    """[(place, depth of brackets)] of the spaces at which a line may end."""
    out, depth = [], 0
    for at, char in enumerate(text):
        depth += (char in OPENING) - (char in CLOSING)
        if char == " " and (within_paths or not text.startswith(" .", at)):
            out.append((at, depth))
    return out


def cut_at(text, room, term):
    """Where to break a text that is longer than there is room, or 0. Of prose the last space is taken."""
    near = [p for p in breaks(text, not term) if p[0] <= room] or [p for p in breaks(text, True) if p[0] <= room]
    near = [p for p in near if p[0] >= SHORT] or near
    outermost = min((depth for _, depth in near), default=0)
    return max((at for at, depth in near if depth == outermost or not term), default=0)


def wrapped(text, indent, term=True):
    """The lines of a term, or of prose, each indented, of at most WIDTH columns where there is a space to break at."""
    lines = []
    while len(text) > WIDTH - len(indent):
        cut = cut_at(text, WIDTH - len(indent), term)
        if not cut:
            break
        lines.append(indent + text[:cut])
        text = text[cut + 1:]
    return lines + [indent + text]
