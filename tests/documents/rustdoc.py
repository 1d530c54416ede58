"""Finds the examples in the documentation comments of Rust sources."""

import re

from markdown import Block, Fault

COMMENT = re.compile(r"^\s*//[/!] ?(.*)$")
FENCE = re.compile(r"^\s*(`{3,})(.*)$")
# An example without an info string is Rust; the others that the documentation tool knows would keep one from being run.
RUN = ("", "rust")
NOT_CODE = ("text",)


def examples_of(document, text):
    """Every example of the source as a block of kind `doctest`, and the faults: info strings that are not run, fences left open."""
    examples, faults, block = [], [], None
    for number, line in enumerate(text.splitlines(), 1):
        comment = COMMENT.match(line)
        fence = FENCE.match(comment.group(1)) if comment else None
        if block is None and fence:
            block = Block(document, number, fence.group(2).strip())
        elif block is not None and fence:
            examples.append(block)
            block = None
        elif block is not None and comment:
            block.lines.append(comment.group(1))
        elif block is not None:
            faults.append(Fault(document, block.line, "the fence is not closed"))
            block = None
    faults += [Fault(document, b.line, f"unknown info string '{b.info}'") for b in examples if b.info not in RUN + NOT_CODE]
    examples = [b for b in examples if b.info in RUN]
    for example in examples:
        example.kind = "doctest"
    return examples, faults


def shown(line):
    """A line as it is compiled: what is hidden from the reader stands behind `# `, and `##` is a `#`."""
    stripped = line.lstrip()
    if stripped == "#":
        return ""
    if stripped.startswith("# "):
        return stripped[2:]
    if stripped.startswith("##"):
        return line.replace("##", "#", 1)
    return line


def program_of(block):
    """The whole program of an example: in `fn main` where it has none of its own; one that ends in `Ok::<(), E>(())` may use `?`."""
    lines = [shown(line) for line in block.lines]
    body = "\n".join(lines)
    if re.search(r"^\s*fn main\(", body, re.M):
        return body + "\n"
    attributes = [line for line in lines if line.startswith("#![")]
    rest = "\n".join(line for line in lines if not line.startswith("#!["))
    if re.search(r"\bOk::<\(\), .+>\(\(\)\)\s*$", rest):
        inner = f"fn main() {{\nfn inner() -> Result<(), impl std::fmt::Debug> {{\n{rest}\n}}\ninner().unwrap()\n}}\n"
    else:
        inner = f"fn main() {{\n{rest}\n}}\n"
    return "\n".join(attributes) + "\n" + inner
