"""Scripts that arrive bit by bit. How the bytes arrive must not matter, and nobody who waits for a report before
sending more waits in vain [rules 12.2, 12.4]. Only the proved program is asked for this: the ordinary one, which
reads all of a script first, says what must be written."""
import os
import signal

from programs import Folder, Running
from scripts import LONGEST_TEXT, NOT_READ, REPORT_LINES, split

SILENCE = 0.3  # seconds in which nothing must come
ALL = 10 ** 9  # more lines than are ever written
PIPE_SIGNALS = [("a closed pipe", signal.SIG_DFL), ("a closed pipe, its signal ignored", signal.SIG_IGN)]


def start(trial, state, **settings):
    """The proved program, in a folder with these tables."""
    folder = Folder(trial.room, state)
    return folder, Running(trial.proved, folder, **settings)


def sizes(dice, most):
    """Sizes of pieces, without end."""
    while True:
        yield dice.randint(1, most)


def pieces(trial):
    """However the bytes of a script arrive, the reports are the same."""
    dice = trial.maker.dice()
    state, script = trial.maker.script(2, 20)
    wanted = trial.same("a script at once", state, script)
    for what, most, pause in [("pieces of one byte", 1, 0), ("pieces of one byte, slowly", 1, 0.001),
                              ("small pieces", 60, 0.01), ("large pieces", 400, 0.02)]:
        folder, running = start(trial, state)
        running.send_pieces(script, sizes(dice, most), pause)
        trial.expect(what, running.lines(ALL) == wanted)
        trial.ended_well(what, folder, *running.end())


def turns(trial):
    """Each report comes before the next request is sent, also of tables that fail the check."""
    state, script = trial.maker.script(3, 30)
    in_turn(trial, "a report before the next request", state, script)
    in_turn(trial, "a report of bad tables before the next request", b"\2" + state[1:], script)


def in_turn(trial, what, state, script):
    """Sends each request when the report of the one before is there."""
    wanted = trial.same("a script at once", state, script)
    folder, running = start(trial, state)
    got, sent = b"", 0
    for request in split(script):
        if got.count(b"\n") == REPORT_LINES * sent and running.send(request):
            sent += 1
            got += running.lines(REPORT_LINES)
    trial.expect(what, got == wanted, f"{got!r} instead of {wanted!r}")
    running.process.stdin.close()
    trial.ended_well(what, folder, *running.end())


def bad_requests(trial):
    """Nothing is said of a request before seven lines or 166 bytes of it are there. Then 18 comes, and the end, without
    waiting for more."""
    state, script = trial.maker.s1()
    request = split(script)[0]
    for what, first, rest in [
            ("a bad first line", b"x" + request[:-1], request[-1:]), ("a bad last line", request[:-2] + b"x", b"\n"),
            ("seven LF", b"\n" * 6, b"\n"), ("no LF", b"u" * (LONGEST_TEXT - 1), b"u"),
            ("six lines", request[:-4].ljust(LONGEST_TEXT - 1, b"0"), b"0"),
            ("a bad line", request[:-4] + b"C=0", b"\n")]:
        folder, running = start(trial, state)
        running.send(first)
        trial.expect(f"{what}: silence", running.lines(1, SILENCE) == b"")
        running.send(rest)
        trial.expect(f"{what}: 18", running.lines(REPORT_LINES) == NOT_READ)
        trial.ended_well(f"{what}: an end", folder, *running.end())


def closed_pipes(trial):
    """Nobody reads what is written: the program ends all the same and leaves nothing behind."""
    state, script = trial.maker.s1()
    for what, action in PIPE_SIGNALS:
        reader, writer = os.pipe()
        os.close(reader)
        folder, running = start(trial, state, stdout=writer, restore_signals=False,
                                preexec_fn=lambda: signal.signal(signal.SIGPIPE, action))
        os.close(writer)
        running.send_pieces(script * 400, iter(lambda: 60000, None), 0)
        status, _ = running.end()
        trial.expect(what, status is not None, "no end")
        trial.kept(what, folder)
        print(f"{what}: ended with status {status}")
