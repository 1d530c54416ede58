"""Scripts, and what is reported for them."""
import random
import subprocess

STATE_BYTES = 9216
LINES = 7  # in a request text
REPORT_LINES = 3
SCRIPTS = 1000  # with numbers below this each seed has its own
SEEDS = 2**64  # a seed of the maker is below this
BAD_EVERY = 8  # the maker's tables may be bad with the last of every so many seeds
ODD_BYTES = b"\n\r\0 .=+-09azAZ\x80\xff"
LARGEST = b"4294967295"
KEYS = (b"user", b"op", b"ref", b"ref2", b"a", b"b", b"c")
LONGEST_TEXT = 166


def report(answer, held=0, missed=0):
    """The three lines for a request."""
    return b"answer=%d\nheld=%d\nmissed=%d\n" % (answer, held, missed)


NOT_READ = report(18)


def longest():
    """The longest text that there is."""
    names = b".".join([LARGEST] * 4)
    return b"".join(b"%s=%s\n" % (key, names if key.startswith(b"ref") else LARGEST) for key in KEYS)


def request(user, op, ref=b"", a=0, b=0):
    """The text of a request with one operand or none."""
    return b"user=%d\nop=%d\nref=%s\nref2=\na=%d\nb=%d\nc=0\n" % (user, op, ref, a, b)


def split(script):
    """The texts of the requests in a script."""
    lines = script.splitlines(keepends=True)
    return [b"".join(lines[i:i + LINES]) for i in range(0, len(lines), LINES)]


def damage(dice, script):
    """One to three times: a byte dropped, changed, put in or doubled, or a line dropped or doubled."""
    for _ in range(dice.randint(1, 3)):
        at = dice.randrange(len(script))
        byte = bytes([dice.choice(ODD_BYTES)])
        start, end = script.rfind(b"\n", 0, at) + 1, script.find(b"\n", at) + 1 or len(script)
        script = dice.choice([
            script[:at] + script[at + 1:], script[:at] + byte + script[at + 1:], script[:at] + byte + script[at:],
            script[:at] + script[at:at + 1] + script[at:], script[:start] + script[end:],
            script[:end] + script[start:end] + script[end:]]) or b"\n"
    return script


class Maker:
    """Tables and scripts, by number; all follow from the seed."""

    def __init__(self, differential, seed):
        self.differential = differential
        self.seed = seed

    def dice(self):
        """Dice for what is done to scripts; each time they are thrown alike."""
        return random.Random(self.seed)

    def s1(self):
        """Case state S1 and its script of two requests [rule 13]."""
        return self.make("s1")

    def script(self, number, requests):
        """Tables and requests to them."""
        return self.make(str((SCRIPTS * self.seed + number) % SEEDS), str(requests))

    def bad_script(self, number, requests):
        """Tables that may be bad, and requests to them."""
        first = (BAD_EVERY - 1 - SCRIPTS * self.seed) % BAD_EVERY
        return self.script(first + BAD_EVERY * number, requests)

    def make(self, *words):
        """What the maker gives for these words: the bytes of tables, and behind them a script."""
        made = subprocess.run([*self.differential, "script", *words], stdout=subprocess.PIPE, check=True).stdout
        return made[:STATE_BYTES], made[STATE_BYTES:]
