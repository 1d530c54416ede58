"""Naming the claims of a cycle of calls once: the tuple of what each callee asks and ensures, which each need repeats."""

import re

from parts.long_lines import broken
from parts.paths import one_line


def members(text):
    """The functions of the cycle, as their proof names them."""
    return list(dict.fromkeys(re.findall(r"([^\s()]+)-lts\.Need-", text)))


def shortened(text):
    """The text with each member's tuple named; it says which member is left because its needs cite more than one."""
    for member in members(text):
        cited = re.compile(r"(?<![\w-])(%s-lts\.(?:Need-[\w-]+|spec))\s+(\((?:[^()]|\([^()]*\))*\))" % re.escape(member))
        tuples = {one_line(match.group(2)) for match in cited.finditer(text)}
        name = "(%s-calls t)" % member
        if tuples == {name}:
            continue
        if len(tuples) != 1:
            print("%s: its needs cite %d tuples, so it is left alone" % (member, len(tuples)))
            continue
        text = with_name(cited.sub(lambda match: "%s %s" % (match.group(1), name), text), member, tuples.pop())
    return text


def with_name(text, member, claims):
    """The text with a name for these claims before its first need."""
    at = text.index("\n-- src/") if "\n-- src/" in text else text.index("\n\n") + 1
    named = "\nabbrev %s-calls : ℕ → %s-lts.Claims\n%s-calls t = %s\n" % (member, member, member, claims)
    return text[:at] + broken(named) + text[at:]
