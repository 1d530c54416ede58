"""What a script takes in programs that read it, each of them started anew, in turn.

    python3 -B bench/program.py FOLDER REPETITIONS ORDINARY PROVED [OTHER...]

FOLDER has `state.words` and `script`. ORDINARY is the program written by hand, PROVED the proved one, and each OTHER is
held against them too, such as that of an older build. From the environment:

    UNDER   what each of them is started with where the machine is not x86-64, such as an emulator and its options

Before anything is timed each program must write what the ordinary one writes. The status is 1 where one does not.
"""
import os
import statistics
import subprocess
import sys
import time

LINES = 7  # in a request text
SCRIPT = "script"
ACCEPTED = b"answer=0\n"


class Program:
    """A program, and what its starts took: on no script at all, and on the script."""

    def __init__(self, name, path):
        self.name = name
        self.command = [*os.environ.get("UNDER", "").split(), os.path.abspath(path)]
        self.idle, self.busy = [], []

    def run(self, folder, script, stdout):
        """One start. From file to nowhere, nothing waits for whoever measures."""
        with open(script, "rb") as file:
            start = time.perf_counter()
            done = subprocess.run(self.command, cwd=folder, stdin=file, stdout=stdout, check=True)
            return time.perf_counter() - start, done.stdout

    def time(self, folder, script):
        """One start on nothing and one on the script."""
        self.idle.append(self.run(folder, os.devnull, subprocess.DEVNULL)[0])
        self.busy.append(self.run(folder, script, subprocess.DEVNULL)[0])

    def requests(self):
        """What the requests took, by repetition: the whole without the start."""
        return [busy - idle for idle, busy in zip(self.idle, self.busy)]


def quartiles(figures):
    """The lower quartile, the median and the upper one."""
    return statistics.quantiles(figures, n=4, method="inclusive")


def between(figures, digits):
    """From the lower quartile to the upper one."""
    lower, _, upper = quartiles(figures)
    return f"{lower:.{digits}f} to {upper:.{digits}f}"


def row(program, ordinary, count):
    """The line of a program. Its ratio is the median of the ratios of repetitions next to each other."""
    whole = [1000 * busy for busy in program.busy]
    ratios = [busy / other for busy, other in zip(program.busy, ordinary.busy)]
    each = statistics.median(program.requests()) * 1e6 / count
    cells = [program.name, f"{statistics.median(whole):.2f}", f"{1000 * statistics.median(program.idle):.2f}",
             f"{each:.3f}", f"{statistics.median(ratios):.2f}", between(whole, 2), between(ratios, 2)]
    return f"| {' | '.join(cells)} |"


def main():
    """Compares, times and prints."""
    if len(sys.argv) < 5:
        sys.exit(__doc__)
    folder, repetitions, ordinary, proved, *others = sys.argv[1:]
    programs = [Program("ordinary", ordinary), Program("proved", proved), *(Program(other, other) for other in others)]
    script = os.path.join(folder, SCRIPT)
    with open(script, "rb") as file:
        count = file.read().count(b"\n") // LINES
    wrote = [program.run(folder, script, subprocess.PIPE)[1] for program in programs]
    for program, text in zip(programs, wrote):
        if text != wrote[0]:
            sys.exit(f"{program.name} does not write what the ordinary program writes")
    for repetition in range(int(repetitions)):
        # who is first changes, so that nobody always finds the machine as the same other left it
        turn = repetition % len(programs)
        for program in programs[turn:] + programs[:turn]:
            program.time(folder, script)
    print(f"A script of {count:,} requests, {wrote[0].count(ACCEPTED):,} of them accepted:"
          f" medians of {repetitions} starts of each program, in turn.")
    print()
    print("| program | ms | ms to start | µs for a request | ratio | ms, quartiles | ratio, quartiles |")
    print("|-|-|-|-|-|-|-|")
    for program in programs:
        print(row(program, programs[0], count))


if __name__ == "__main__":
    main()
