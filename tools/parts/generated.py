"""The modules that the check generates: for each function one, Lts, with a record for each place of its code.

They are kept in the machine's folder for temporary files until a source, the toolchain or the list of proof files is
another: a function has an Lts only where each function that it calls has a proof file."""

import glob
import hashlib
import os
import sys
import tempfile

from parts.repo import fail, read, root, rt, write


def state(crate):
    """One number for all that the generated modules of a crate depend on."""
    top, out = root(), hashlib.sha256(rt(["version"]).stdout.encode())
    for path in sorted(glob.glob(top + "/crates/*/src/**/*.rt", recursive=True)):
        out.update(path.encode() + read(path).encode())
    for path in sorted(glob.glob(glob.escape(top + "/crates/" + crate) + "/proofs/**/Proof.antt", recursive=True)):
        out.update(path.encode())
    return out.hexdigest()


def kept_folder(crate):
    """Where the generated modules of a crate of this repository are kept."""
    repository = hashlib.sha256(root().encode()).hexdigest()[:12]
    return os.path.join(tempfile.gettempdir(), "rattle-places-%d" % os.getuid(), repository, crate)


def generated(crate, anew=False):
    """The folder with the crate's modules Lts, which are generated first where they are not those of the state at hand."""
    if not os.path.isdir(os.path.join(root(), "crates", crate, "src")):
        fail("there is no crate crates/" + crate)
    kept, now = kept_folder(crate), state(crate)
    stamp = os.path.join(kept, "stamp")
    if not anew and os.path.exists(stamp) and read(stamp) == now:
        return kept
    os.makedirs(kept, mode=0o700, exist_ok=True)
    for path in glob.glob(glob.escape(kept) + "/*"):
        os.remove(path)
    print("(generating the records of %s, once for this state of the sources)" % crate, file=sys.stderr)
    generate(crate, kept)
    write(stamp, now)
    return kept


def generate(crate, kept):
    """Has the check write its modules, and keeps each Lts, `|` standing for `/` in its name."""
    with tempfile.TemporaryDirectory() as room:
        said = rt(["dev", crate, "--generated", room], cwd=root()).stdout
        here = os.path.join(room, "Rattle·%s·proofs" % crate, "proofs")
        for path in glob.glob(glob.escape(here) + "/**/Lts*.antt", recursive=True):
            write(os.path.join(kept, os.path.relpath(path, here).replace("/", "|")), read(path))
    if "generated=" not in said:
        print(said[:3000])
        fail("rt dev %s --generated wrote nothing" % crate)


def modules(crate, name, anew):
    """[(function, path of its Lts, folder of its proof)] of the functions whose name ends so."""
    out = []
    for path in sorted(glob.glob(glob.escape(generated(crate, anew)) + "/*.antt")):
        folder, module = os.path.basename(path)[:-5].replace("|", "/").rsplit("/", 1)
        own = folder if module == "Lts" else "/".join(folder.split("/")[:-1] + [module[4:]])
        if ("/" + own).endswith("/" + name):
            out.append((own, path, folder))
    return out


def find(crate, function, anew=False):
    """The text of a function's Lts, and the folder of its proof below proofs/. FUNCTION may be MODULE::FUNCTION."""
    name = function.replace("::", "/").strip("/")
    hits = modules(crate, name, anew) or modules(crate, name, True)
    hits = [hit for hit in hits if hit[0] == name] or hits
    if not hits:
        fail(function + ": no records. It is not covered by the borrow checker, or a function that it calls has no proof file yet")
    if len(hits) > 1:
        fail("%s: more than one: %s" % (function, ", ".join(hit[0] for hit in hits)))
    return read(hits[0][1]), hits[0][2]
