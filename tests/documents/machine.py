"""What the examples are run with: the desk's program, the compilers, the archive, and folders of their own."""

import json
import os
import shlex
import shutil
import subprocess
import tempfile
from pathlib import Path

ROOT = Path(__file__).resolve().parents[2]
# Where the documents tell their readers to work. It is emptied before each document.
TRY = ROOT / "target" / "try"
ARCHIVE = ROOT / "target" / "bindings" / "lib" / "libmms.a"
HEADERS = ROOT / "target" / "bindings" / "include"
S1 = "examples/state.words"

# Seconds that a program may take, and a command, which may have to prove and to build first.
PROGRAM_SECONDS = 120
COMMAND_SECONDS = 3 * 3600

C_FLAGS = ["-Wall", "-Wextra", "-Werror", "-pedantic", "-O1"]
RUST_FLAGS = ["--edition", "2021", "-C", "debug-assertions=on", "-C", "overflow-checks=on"]


class Wrong(Exception):
    """An example did not do what the document says."""


def run(words, stdin=b"", cwd=ROOT, seconds=PROGRAM_SECONDS, env=None):
    """What a program writes; that it fails, or takes too long, is wrong."""
    try:
        done = subprocess.run(words, input=stdin, cwd=cwd, timeout=seconds, env=env, capture_output=True)
    except subprocess.TimeoutExpired:
        raise Wrong(f"not done after {seconds} seconds") from None
    except OSError as error:
        raise Wrong(f"cannot be started: {error}") from None
    if done.returncode != 0:
        said = (done.stdout + done.stderr).decode(errors="replace")
        raise Wrong(f"status {done.returncode}\n{said}")
    return done.stdout


class Machine:
    """The programs that the environment names, as `.ci/machine` finds them."""

    def __init__(self):
        self.under = shlex.split(os.environ.get("UNDER", ""))
        self.cc = os.environ.get("CC", "gcc")
        self.cxx = os.environ.get("CXX", "g++")
        self.cargo = os.environ.get("CARGO", "cargo")
        self.rustc = os.environ.get("RUSTC", "rustc")
        self.triple = os.environ.get("CARGO_BUILD_TARGET", "x86_64-unknown-linux-gnu")
        desk = os.environ.get("DESK")
        self.desk = [str(Path(desk).resolve())] if desk else [*self.under, str(ROOT / "target" / "bin" / "desk")]
        self.folder = Path(tempfile.mkdtemp(prefix="documents."))
        self.made = 0
        self.crate = None

    def close(self):
        shutil.rmtree(self.folder)

    def fresh(self):
        """A new empty folder."""
        self.made += 1
        folder = self.folder / str(self.made)
        folder.mkdir()
        return folder

    def answers(self, script, state):
        """What the desk writes of a script, in a folder with that state file, which must be the same afterwards."""
        folder = self.fresh()
        tables = (ROOT / state).read_bytes()
        (folder / "state.words").write_bytes(tables)
        written = run(self.desk, script, folder)
        if (folder / "state.words").read_bytes() != tables:
            raise Wrong("the state file was changed")
        return written.decode()

    def start(self, program):
        """What a program that was built here writes; it is started in the repository's root."""
        return run([*self.under, str(program)]).decode()

    def c_program(self, text):
        """The program of a C source, linked with the archive."""
        return self.compiled([self.cc, "-std=c99"], "example.c", text)

    def cxx_program(self, text):
        """The same source as C++."""
        return self.compiled([self.cxx, "-std=c++11"], "example.cc", text)

    def compiled(self, compiler, name, text):
        """The program of a source of that name; a warning fails."""
        folder = self.fresh()
        (folder / name).write_text(text)
        program = folder / "example"
        run([*compiler, *C_FLAGS, f"-I{HEADERS}", str(folder / name), str(ARCHIVE), "-o", str(program)])
        return program

    def rust_program(self, text, strict):
        """The program of a Rust source, linked with the crate; where it is strict, a warning fails."""
        folder = self.fresh()
        (folder / "example.rs").write_text(text)
        program = folder / "example"
        lints = ["-D", "warnings"] if strict else ["-A", "unused"]
        linker = ["--target", self.triple, "-C", f"linker={self.cc}"]
        extern = ["--extern", f"mms={self.mms()}"]
        run([self.rustc, *RUST_FLAGS, *lints, *linker, *extern, str(folder / "example.rs"), "-o", str(program)])
        return program

    def mms(self):
        """The crate as cargo builds it, once; cargo says itself where it lies."""
        if self.crate is None:
            words = [self.cargo, "build", "--offline", "-j1", "-p", "mms", "--target", self.triple, "--message-format=json"]
            env = dict(os.environ, RUSTC=self.rustc)
            said = run(words, env=env, seconds=COMMAND_SECONDS).decode()
            built = [json.loads(line) for line in said.splitlines() if line.startswith("{")]
            names = [name for m in built if m.get("target", {}).get("name") == "mms" for name in m.get("filenames", ())]
            found = [name for name in names if name.endswith(".rlib")]
            if not found:
                raise Wrong("cargo did not say where the crate lies")
            self.crate = found[-1]
        return self.crate

    def shell(self, commands):
        """What commands write that a reader types in the repository's root; the first that fails ends them."""
        env = dict(os.environ, CC=self.cc, CARGO=self.cargo, RUSTC=self.rustc)
        return run(["sh", "-eu", "-c", self.as_typed() + commands], env=env, seconds=COMMAND_SECONDS).decode()

    def as_typed(self):
        """`gcc` and `cargo` are the compilers for x86-64, whatever they are called on this machine."""
        return f'gcc() {{ command {self.cc} "$@"; }}\ncargo() {{ command {self.cargo} "$@"; }}\n'
