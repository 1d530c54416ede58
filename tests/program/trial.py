"""Both programs, and what was found so far."""
from programs import STATE, Folder, Running

REPORTS = 20  # differences printed; more are only counted
SHOWN = 300  # bytes of a text that are printed


def shorten(text):
    """The beginning and the end of what is too long to be printed."""
    return text if len(text) <= SHOWN else text[:SHOWN // 2] + b" .. " + text[-SHOWN // 2:]


class Trial:
    """Both programs, what makes scripts for them, and counts of what was asked and what was wrong."""

    def __init__(self, room, maker, ordinary, proved):
        self.room = room
        self.maker = maker
        self.ordinary = ordinary
        self.proved = proved
        self.asked = 0
        self.wrong = 0

    def expect(self, what, good, detail=""):
        """Counts one thing asked, and prints it where it is not good."""
        self.asked += 1
        if good:
            return
        self.wrong += 1
        if self.wrong <= REPORTS:
            print(f"wrong: {what}{': ' if detail else ''}{detail}")

    def kept(self, what, folder):
        """The program has left its folder as it was."""
        self.expect(what, folder.close(), f"the folder or {STATE} is not as it was")

    def ended_well(self, what, folder, status, said):
        """A program that is done has said nothing on standard error and left its folder as it was."""
        self.expect(what, status == 0 and said == b"", f"status {status}, on standard error {shorten(said)!r}")
        self.kept(what, folder)

    def run(self, program, what, state, script, mode=0o644):
        """What a program writes on a script that is there at once. It must end well."""
        folder = Folder(self.room, state, mode)
        wrote, status, said = Running(program, folder).whole(script)
        self.ended_well(f"{what}, {program.name}", folder, status, said)
        return wrote

    def same(self, what, state, script, wanted=None, mode=0o644):
        """Both write the same, and what is wanted where that is known; what the ordinary one wrote is returned."""
        ordinary, proved = (self.run(program, what, state, script, mode) for program in (self.ordinary, self.proved))
        self.expect(what, ordinary == proved and wanted in (None, proved),
                    f"ordinary {shorten(ordinary)!r}, proved {shorten(proved)!r}"
                    f"{'' if wanted is None else f', wanted {shorten(wanted)!r}'}, script {script[:1000]!r}")
        return ordinary
