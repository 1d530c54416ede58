"""Scripts that are there as a whole when the program starts."""
from collections import Counter

from scripts import LINES, NOT_READ, REPORT_LINES, damage, longest, report, request, split

RANDOM_TABLES = 40
REQUESTS = 300
DAMAGED = 300
BAD_TABLES = 40
BAD_REQUESTS = 50
LONG_LINE = 10_000

# What is reported for the script of S1, by its first request and by both.
FIRST_REPORT = report(9, held=9, missed=1)
BOTH_REPORTS = FIRST_REPORT + report(0, held=9, missed=1)

# What random scripts must be answered: all that a step can say of tables that are well-formed and secure.
ANSWERS = {0, *range(4, 17)}

# Words of S1's tables, by their number [rules 2.1 to 2.3]: whether user 1 is present, the current roles of user 2 and how
# many refusals that user missed, and the maximum of entity 1, a device.
PRESENT = 0
CURRENT = 16 + 3
MISSED = 16 + 7
MAXIMUM = 256 + 6

# Operations [rules 6.10 to 6.14].
SHOW, CLEAR, LOGIN, CURRENT_ROLES = 10, 11, 12, 14


def fixed(trial):
    """The script of S1, and scripts that are odd as a whole."""
    s1, script = trial.maker.s1()
    request = split(script)[0]
    for what, text, wanted in [
            ("S1", script, BOTH_REPORTS),
            ("an empty script", b"", b""),
            ("one LF", b"\n", NOT_READ),
            ("CR LF", script.replace(b"\n", b"\r\n"), NOT_READ),
            ("NUL bytes", bytes(500), NOT_READ),
            ("a NUL byte behind", script + b"\0", BOTH_REPORTS + NOT_READ),
            ("an LF behind", script + b"\n", BOTH_REPORTS + NOT_READ),
            ("an LF between", script.replace(b"c=0\n", b"c=0\n\n", 1), FIRST_REPORT + NOT_READ),
            ("the last line without LF", script[:-1], FIRST_REPORT + NOT_READ),
            ("a good request behind a bad one", script.replace(b"op=10", b"op=010", 1), NOT_READ),
            ("a long line", request.replace(b"op=10", b"op=1".ljust(LONG_LINE, b"0")), NOT_READ),
            ("a long line without LF", b"u" * LONG_LINE, NOT_READ),
            ("many LF", b"\n" * LONG_LINE, NOT_READ),
            ("the longest text", longest(), report(4)),
            ("the longest text twice", 2 * longest(), 2 * report(4)),
            ("the longest text and a digit", longest().replace(b"c=4", b"c=44"), NOT_READ),
            ("the longest text without LF", longest()[:-1], NOT_READ)]:
        trial.same(what, s1, text, wanted)


def cut(trial):
    """The script of S1 ends at each of its bytes."""
    s1, script = trial.maker.s1()
    first = len(split(script)[0])
    for length in range(len(script)):
        before = b"" if length < first else FIRST_REPORT
        trial.same(f"cut at {length}", s1, script[:length], before + (b"" if length in (0, first) else NOT_READ))


def states(trial):
    """Without tables each request that can be read is answered 1, and the first that can't 18 [rule 12.5]."""
    s1, script = trial.maker.s1()
    ones = report(1) * 2
    for what, state, mode in [
            ("no state file", None, 0), ("a folder for a state file", "folder", 0), ("an empty state file", b"", 0o644),
            ("9,215 bytes", s1[:-1], 0o644), ("9,217 bytes", s1 + b"\0", 0o644), ("18,432 bytes", s1 + s1, 0o644),
            ("a state file that may not be read", s1, 0)]:
        trial.same(what, state, script, ones, mode)
        trial.same(what + ", damaged script", state, script + b"user=1\n", ones + NOT_READ, mode)
        trial.same(what + ", empty script", state, b"", b"", mode)
    trial.same("a state file that may only be read", s1, script, BOTH_REPORTS, 0o444)


def bad_tables(trial):
    """Tables are checked once, when they are loaded. Where they fail every request is answered alike, from the first to
    the last, also behind such as would have made them good [rules 7.2, 7.3]."""
    s1, script = trial.maker.s1()
    requests = [*split(script), request(1, CURRENT_ROLES, a=2), request(2, CURRENT_ROLES, a=2), request(2, CLEAR),
                request(3, LOGIN, b"3"), request(9, SHOW, b"5", a=3), request(2, 99), longest(), *split(script)]
    for what, state, answer in [
            ("neither present nor absent", changed(s1, PRESENT, 2), 2),
            ("the highest byte of each word first", swapped(s1), 2),
            ("refusals missed and none held, which a refusal mends", changed(s1, MISSED, 5), 2),
            ("a device above its maximum", changed(s1, MAXIMUM, 0), 3),
            ("a role without authority, which new roles mend", changed(s1, CURRENT, 1), 3)]:
        trial.same(what, state, b"".join(requests), report(answer) * len(requests))
        trial.same(what + ", one request", state, requests[0], report(answer))
        trial.same(what + ", damaged script", state, requests[0] * 2 + b"user=1\n", report(answer) * 2 + NOT_READ)
        trial.same(what + ", empty script", state, b"", b"")
    met = {answer for number in range(BAD_TABLES) for answer in random_bad_tables(trial, number)}
    trial.expect("answers to random tables that may be bad", {0, 2, 3} <= met, f"only {sorted(met)}")


def random_bad_tables(trial, number):
    """Where one request is answered 2 or 3 all are; the answers that were given are returned."""
    state, script = trial.maker.bad_script(number, BAD_REQUESTS)
    wrote = trial.same(f"tables that may be bad, {number}", state, script)
    answers = answers_in(wrote)
    alike = not {2, 3} & set(answers) or wrote == report(answers[0]) * BAD_REQUESTS
    trial.expect(f"answers of tables that may be bad, {number}", alike, f"{answers}")
    return set(answers)


def answers_in(wrote):
    """The answers that a program has written, in order."""
    return [int(line.partition(b"=")[2]) for line in wrote.splitlines() if line.startswith(b"answer=")]


def changed(state, word, value):
    """Tables with another value in a word."""
    return state[:4 * word] + value.to_bytes(4, "little") + state[4 * word + 4:]


def swapped(state):
    """Tables with the bytes of each word the other way round."""
    return b"".join(state[i:i + 4][::-1] for i in range(0, len(state), 4))


def random_scripts(trial):
    """Each request is reported in three lines, and every answer that good tables can give is met."""
    answers = Counter()
    for number in range(1, RANDOM_TABLES + 1):
        state, script = trial.maker.script(number, REQUESTS)
        wrote = trial.same(f"tables and script {number}", state, script)
        trial.expect(f"requests of script {number}", script.count(b"\n") == LINES * REQUESTS)
        trial.expect(f"reports of script {number}", wrote.count(b"\n") == REPORT_LINES * REQUESTS)
        answers.update(answers_in(wrote))
    print("answers to random scripts:", ", ".join(f"{answer}: {answers[answer]}" for answer in sorted(answers)))
    trial.expect("answers to random scripts", ANSWERS <= set(answers), f"never {sorted(ANSWERS - set(answers))}")


def damaged_scripts(trial):
    """A script of a few requests, damaged somewhere, as a reader meets it in the middle."""
    dice = trial.maker.dice()
    state, script = trial.maker.script(1, 12)
    for number in range(DAMAGED):
        trial.same(f"damaged script {number}", state, damage(dice, script))
