"""Programs that run in folders of their own."""
import os
import select
import shutil
import stat
import subprocess
import tempfile
import time

NOBODY = 65534
STATE = "state.words"
PATIENCE = 20  # seconds in which a report must come, or the end
LONG_PATIENCE = 300  # seconds for a script as a whole
PIECE = 65536  # bytes taken at once from what a program writes


def as_nobody():
    """Root can read every file, so that a program is then run as nobody."""
    return {"user": NOBODY, "group": NOBODY, "extra_groups": []} if os.getuid() == 0 else {}


def give_to_nobody(path):
    """What root has made then belongs to whom the programs run as."""
    if os.getuid() == 0:
        os.chown(path, NOBODY, NOBODY)


class Program:
    """A compiled program for x86-64, and the words that start it. It is copied to where nobody may run it."""

    def __init__(self, name, under, path, room):
        self.name = name
        copy = os.path.join(room, name)
        shutil.copy(path, copy)
        os.chmod(copy, 0o755)
        self.command = [*under, copy]


class Folder:
    """A folder to run in, with the file of the tables in it or whatever stands in its place."""

    def __init__(self, room, state, mode=0o644):
        self.path = tempfile.mkdtemp(dir=room)
        os.chmod(self.path, 0o755)
        self.file = os.path.join(self.path, STATE)
        if state == "folder":
            os.mkdir(self.file)
        elif state is not None:
            with open(self.file, "wb") as file:
                file.write(state)
            give_to_nobody(self.file)  # who could then write to it
            os.chmod(self.file, mode)
        give_to_nobody(self.path)
        self.before = self.look()

    def look(self):
        """Everything that a run must leave alone."""
        names = sorted(os.listdir(self.path))
        if not os.path.isfile(self.file):
            return names
        found = os.stat(self.file)
        os.chmod(self.file, found.st_mode | stat.S_IRUSR)
        with open(self.file, "rb") as file:
            contents = file.read()
        os.chmod(self.file, found.st_mode)
        return names, contents, found.st_mtime_ns, found.st_mode

    def close(self):
        """Was the folder left as it was?"""
        kept = self.look() == self.before
        shutil.rmtree(self.path)
        return kept


class Running:
    """A program that is running, and its streams."""

    def __init__(self, program, folder, **settings):
        streams = {"stdin": subprocess.PIPE, "stdout": subprocess.PIPE, "stderr": subprocess.PIPE}
        settings = {**streams, **as_nobody(), **settings}
        self.process = subprocess.Popen(program.command, cwd=folder.path, bufsize=0, **settings)

    def send(self, text):
        """A program that has stopped takes no more, which is no error; were all bytes taken?"""
        view = memoryview(text)
        try:
            while view:
                view = view[self.process.stdin.write(view):]
        except BrokenPipeError:
            return False
        return True

    def send_pieces(self, script, sizes, pause):
        """Sends all of it, in pieces of these sizes, and then closes the stream."""
        at = 0
        for size in sizes:
            if at >= len(script) or not self.send(script[at:at + size]):
                break
            at += size
            time.sleep(pause)
        self.process.stdin.close()

    def lines(self, count, seconds=PATIENCE):
        """Lines as they come; fewer where the program ends or none comes in time."""
        text, end = b"", time.monotonic() + seconds
        while text.count(b"\n") < count and time.monotonic() < end:
            if select.select([self.process.stdout], [], [], min(1, seconds))[0]:
                piece = os.read(self.process.stdout.fileno(), PIECE)
                if piece == b"":
                    break
                text += piece
        return text

    def end(self):
        """Its status, None where it does not end, and what it said on standard error. Its streams are open until then."""
        try:
            status = self.process.wait(timeout=PATIENCE)
        except subprocess.TimeoutExpired:
            status = None
            self.process.kill()
            self.process.wait()
        said = self.process.stderr.read()
        for stream in filter(None, (self.process.stdin, self.process.stdout, self.process.stderr)):
            stream.close()
        return status, said

    def whole(self, script):
        """What it writes on a script that is there at once, and what `end` gives."""
        try:
            wrote, said = self.process.communicate(script, timeout=LONG_PATIENCE)
            return wrote, self.process.returncode, said
        except subprocess.TimeoutExpired:
            self.process.kill()
            wrote, said = self.process.communicate()
            return wrote, None, said

    def peak(self):
        """The most kilobytes that it has had so far, 0 if it has ended: what is told later counts its parent's too."""
        with open(f"/proc/{self.process.pid}/status", encoding="ascii", errors="replace") as file:
            return next((int(line.split()[1]) for line in file if line.startswith("VmHWM:")), 0)
