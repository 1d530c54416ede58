"""The repository that a tool is called in, and how it runs `rt`."""

import os
import subprocess
import sys


def fail(message):
    """Ends the tool with a message."""
    sys.exit(os.path.basename(sys.argv[0]) + ": " + message)


def root():
    """The repository's folder: the nearest at or above this one that has a crates.txt."""
    at = os.getcwd()
    while not os.path.exists(os.path.join(at, "crates.txt")):
        if at == os.path.dirname(at):
            fail("no crates.txt in this folder or above it")
        at = os.path.dirname(at)
    return at


def proof_file(crate, folder):
    """The path of a proof file, by its crate and its folder below proofs/."""
    return os.path.join(root(), "crates", crate, "proofs", folder, "Proof.antt")


def rt(words, **more):
    """Runs `rt`, one crate at a time unless RT_JOBS says otherwise, with no line cut; gives its status and what it said."""
    env = dict(os.environ, RT_CUT="0", RT_JOBS=os.environ.get("RT_JOBS", "1"))
    return subprocess.run(["rt"] + words, env=env, stdout=subprocess.PIPE, stderr=subprocess.STDOUT, text=True, **more)


def read(path):
    """The text of a file."""
    with open(path) as source:
        return source.read()


def write(path, text):
    """Makes a file, and its folder, with this text."""
    os.makedirs(os.path.dirname(os.path.abspath(path)), exist_ok=True)
    with open(path, "w") as to:
        to.write(text)
