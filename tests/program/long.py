"""Long scripts: that they take no more memory than short ones, and how long a request takes."""
import os
import statistics
import subprocess
import threading
import time

from programs import PATIENCE, PIECE, Folder, Running
from scripts import LINES, REPORT_LINES

MEGABYTES = int(os.environ.get("MEGABYTES", "20"))
WITH_TABLES = 4  # times shorter: a step takes longer than a refusal
WARM_UP = 1000  # copies of the script after which the memory is first looked at
MORE_MEMORY = 512  # kB that may come to it afterwards; an emulator takes some
TIMED = 20_000  # requests in the script that is timed
TIMES = 5


class Reader(threading.Thread):
    """Takes what a program writes, as it comes."""

    def __init__(self, running):
        super().__init__(daemon=True)
        self.stream = running.process.stdout
        self.pieces, self.length, self.ended = [], 0, False
        self.changed = threading.Condition()
        self.start()

    def run(self):
        """Goes on until the program has closed its output."""
        while not self.ended:
            piece = os.read(self.stream.fileno(), PIECE)
            with self.changed:
                self.pieces.append(piece)
                self.length += len(piece)
                self.ended = piece == b""
                self.changed.notify()

    def wait(self, length):
        """Until so many bytes have come, or no more will."""
        with self.changed:
            self.changed.wait_for(lambda: self.length >= length or self.ended, timeout=PATIENCE)


def memory(trial):
    """Most of the bytes go to a desk without tables."""
    s1, script = trial.maker.s1()
    size = MEGABYTES * 10 ** 6 // len(script)
    for what, state, copies in [("without tables", None, size), ("on S1", s1, WARM_UP + size // WITH_TABLES)]:
        what = f"a script of {copies * len(script)} bytes {what}"
        wanted = [trial.run(trial.ordinary, what, state, script * n) for n in (WARM_UP, copies)]
        requests = copies * script.count(b"\n") // LINES
        trial.expect(what, wanted[-1].count(b"\n") == REPORT_LINES * requests, "requests without a report")
        same_in_little_memory(trial, what, state, [script * WARM_UP, script * (copies - WARM_UP)], wanted)


def same_in_little_memory(trial, what, state, parts, wanted):
    """One run is sent the parts one after another; behind each, once its reports are there, the memory is looked at."""
    folder = Folder(trial.room, state)
    running = Running(trial.proved, folder)
    reader, peaks, start = Reader(running), [], time.monotonic()
    for part, reports in zip(parts, wanted):
        running.send(part)
        reader.wait(len(reports))
        peaks.append(running.peak())
    print(f"{what}: {time.monotonic() - start:.2f} s,"
          f" at most {peaks[0]} kB by byte {len(parts[0])} and {peaks[-1]} kB by the end")
    running.process.stdin.close()
    reader.join()
    trial.expect(what, b"".join(reader.pieces) == wanted[-1], "the programs write different things")
    trial.expect(what, 0 < peaks[-1] <= peaks[0] + MORE_MEMORY, f"memory grows from {peaks[0]} to {peaks[-1]} kB")
    trial.ended_well(what, folder, *running.end())


def speed(trial):
    """Prints what a request takes: nothing is asked of it here."""
    state, script = trial.maker.script(5, TIMED)
    folder = Folder(trial.room, state)
    for program in (trial.ordinary, trial.proved):
        start, whole = usual_seconds(trial, program, folder, b""), usual_seconds(trial, program, folder, script)
        print(f"{program.name}: {1e6 * (whole - start) / TIMED:.1f} us for each of {TIMED} requests,"
              f" and {1000 * start:.1f} ms to start")
    folder.close()


def usual_seconds(trial, program, folder, script):
    """The median of a few runs on a script."""
    return statistics.median(seconds(trial, program, folder, script) for _ in range(TIMES))


def seconds(trial, program, folder, script):
    """From file to nowhere, so that nothing waits for this script."""
    path = os.path.join(trial.room, "script")
    with open(path, "wb") as file:
        file.write(script)
    with open(path, "rb") as file:
        start = time.monotonic()
        Running(program, folder, stdin=file, stdout=subprocess.DEVNULL).end()
        return time.monotonic() - start
