"""Looks at the links of a document: the file that a link names is there, and so is the heading behind its `#`."""

import re
from pathlib import Path

from machine import ROOT
from markdown import Fault, scanned

LINK = re.compile(r"\]\(([^)\s]+)\)")
ELSEWHERE = re.compile(r"^[a-z]+:")
HEADING = re.compile(r"^#+\s+(.*?)\s*$")


def anchors_of(text):
    """The name of each heading as a link says it: small letters, digits and hyphens; a name that was there already takes a number."""
    seen, anchors = {}, set()
    for _, line in scanned("", text).prose:
        heading = HEADING.match(line)
        if heading:
            name = re.sub(r"[^\w\- ]", "", heading.group(1).lower()).replace(" ", "-")
            count = seen[name] = seen.get(name, -1) + 1
            anchors.add(f"{name}-{count}" if count else name)
    return anchors


def fault_of(target, document, text):
    """What is wrong with one link, or nothing. Links to other hosts are not followed."""
    if ELSEWHERE.match(target):
        return None
    name, _, anchor = target.partition("#")
    path = (ROOT / document).parent / name if name else ROOT / document
    if not path.exists():
        return f"the link '{target}' leads to no file"
    page = text if not name else path.read_text() if Path(name).suffix == ".md" else None
    if anchor and page is not None and anchor not in anchors_of(page):
        return f"the link '{target}' leads to no heading"
    return None


def faults_of(document, text):
    """Each link that leads nowhere."""
    found = [(number, fault_of(target, document, text)) for number, line in scanned(document, text).prose for target in LINK.findall(line)]
    return [Fault(document, number, what) for number, what in found if what]
