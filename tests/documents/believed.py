"""What a reader of the three demands must believe: the definitions that the page crates/mms/specs/Demands.antt is made of, name by name. The calls
are left shut, since the code is proved to meet their contracts, and so are the names that the page itself ties to the calls. docs/MODEL.md has
these definitions in a table, and the two must be the same."""

import re

from machine import ROOT, Wrong

PAGE = "docs/MODEL.md"
DEMANDS = "mms/Demands"
SHUT = {"CheckCall", "StepCall", "RunCall", "ListCall", "ReadCall", "WriteCall", "WriteTablesCall", "ReadTablesCall", "after", "Outputs"}
# crates whose places are named with them; the others are rooms of the model
NAMED = ("mms", "tables_text")

USE = re.compile(r"^use Rattle\.(\w+)\.specs\.(\S+?)\.\{([^}]*)\}$", re.M)
ALIAS = re.compile(r"^use Rattle\.(\w+)\.specs\.(\S+) as (\w+)$", re.M)
SORTS = r"(?:abbrev |unfoldable |pub |record |data )*"
DECLARED = re.compile(rf"^(?:  )?{SORTS}([^\s:(]+)")
INNER = re.compile(r"^  (?:abbrev|unfoldable|pub) ")
TOKEN = re.compile(r"[^\s(){}\[\],;]+")
CELL = re.compile(rf"\b((?:{'|'.join(NAMED)}|[A-Z]\w*)/[A-Z]\w*|Level)\b(?: without its `(\w+)`)?(?:: ((?:`[^`]+`(?:, | and )?)+))?")


def place_of(crate, module):
    return "/".join(([] if crate == "model" else [crate]) + module.split("."))


def file_of(place):
    crate, _, rest = place.partition("/")
    return ROOT / "crates" / crate / "specs" / f"{rest}.antt" if crate in NAMED else ROOT / "crates" / "model" / "specs" / f"{place}.antt"


def ours(crate):
    """A crate of this repository; the toolchain's library is believed as a whole."""
    return (ROOT / "crates" / crate).is_dir()


class Definitions:
    """A file: where each name that it brings in comes from, and the text of each name that it declares."""

    def __init__(self, place):
        text = file_of(place).read_text()
        self.brought = {name.strip(): place_of(c, m) for c, m, names in USE.findall(text) if ours(c) for name in names.split(",")}
        self.aliases = {alias: place_of(c, m) for c, m, alias in ALIAS.findall(text) if ours(c)}
        self.declared, name, in_module = {}, None, False
        for line in text.splitlines():
            if not line.strip() or line.strip().startswith("--") or line.startswith("use "):
                continue
            if line.startswith("module "):
                in_module, name = True, None
            elif not line.startswith(" "):
                in_module, name = False, DECLARED.match(line).group(1)
            elif in_module and (INNER.match(line) or name is None or re.match(r"^  \S", line)):
                name = DECLARED.match(line).group(1)
            if name is not None:
                self.declared[name] = self.declared.get(name, "") + line + "\n"

    def cited(self, name):
        """What the text of a name cites, as pairs of a place and a name. Of `x.f` that is x, and of an alias `a.x` it is x."""
        for token in set(TOKEN.findall(self.declared.get(name, ""))):
            head, _, rest = token.partition(".")
            if rest and head in self.aliases:
                yield self.aliases[head], rest
            elif head in self.brought:
                yield self.brought[head], head
            elif head in self.declared and head != name:
                yield None, head


def reached():
    """Every definition that the demands are made of: a set of names for each place."""
    files = {DEMANDS: Definitions(DEMANDS)}
    todo = [(DEMANDS, name) for name in files[DEMANDS].declared]
    found = {}
    while todo:
        place, name = todo.pop()
        if name in SHUT or name in found.get(place, ()):
            continue
        found.setdefault(place, set()).add(name)
        if place not in files:
            files[place] = Definitions(place)
        todo += [(other or place, cited) for other, cited in files[place].cited(name)]
    # a constructor goes with its data type
    return {place: {name for name in names if name in files[place].declared} for place, names in found.items()}


def listed():
    """What the table says: the places to be read as a whole, with what is left out of them, and the names of other places."""
    text = (ROOT / PAGE).read_text()
    section = text[text.index("## The three demands") : text.index("### Demand 1")]
    whole, parts = {}, {}
    for row in section.splitlines():
        if row.startswith("| ") and not row.startswith("| read "):
            for place, without, names in CELL.findall(row):
                if names:
                    parts.setdefault(place, set()).update(re.findall(r"`([^`]+)`", names))
                else:
                    whole[place] = {without} - {""}
    return whole, parts


def compare():
    """The table and the closure must be the same."""
    found = reached()
    whole, parts = listed()
    wrong = [f"{place} is listed and not needed" for place in whole if place not in found]
    wrong += [f"{place}: {name} is left out and needed" for place, left in whole.items() for name in left & found.get(place, set())]
    wrong += [f"{place}: {name} is listed and not needed" for place, names in parts.items() for name in names - found.get(place, set())]
    wrong += [
        f"{place}: {name} is needed and not listed"
        for place, names in sorted(found.items())
        if place not in whole
        for name in sorted(names - parts.get(place, set()))
    ]
    wrong += [f"{place} is a file of laws" for place in found if place.endswith("Laws")]
    if wrong:
        raise Wrong("\n".join(wrong))
    return f"{sum(map(len, found.values()))} definitions"
