"""The proved program and one written by hand, on the same tables and scripts: both must write the same
[rules 12.1 to 12.5].

    python3 -B tests/program/run.py DIFFERENTIAL ORDINARY_DESK DESK [UNDER...]

DIFFERENTIAL makes tables and scripts, ORDINARY_DESK is the program written by hand, DESK the proved one. UNDER is what
each of them is started with where the machine is not x86-64, such as an emulator and its options. From the environment:

    SEED        what the random scripts come from (1)
    MEGABYTES   how long the longest script is (20)

The last line is `N asked, M wrong`, and the status is 1 if anything is wrong.
"""
import os
import shutil
import sys
import tempfile

import arriving
import long
import whole
from programs import Program
from scripts import Maker
from trial import Trial

GROUPS = [
    ("fixed scripts", whole.fixed),
    ("cut scripts", whole.cut),
    ("state files", whole.states),
    ("bad tables", whole.bad_tables),
    ("random scripts", whole.random_scripts),
    ("damaged scripts", whole.damaged_scripts),
    ("pieces", arriving.pieces),
    ("turns", arriving.turns),
    ("bad requests", arriving.bad_requests),
    ("closed pipes", arriving.closed_pipes),
    ("long scripts", long.memory),
    ("speed", long.speed),
]


def main():
    """Runs every group in its turn; the status is 1 if anything is wrong."""
    if len(sys.argv) < 4:
        sys.exit(__doc__)
    differential, ordinary, desk, *under = sys.argv[1:]
    seed = int(os.environ.get("SEED", "1"))
    room = tempfile.mkdtemp()
    os.chmod(room, 0o755)
    try:
        trial = Trial(room, Maker(under + [differential], seed), Program("ordinary", under, ordinary, room),
                      Program("proved", under, desk, room))
        print(f"seed {seed}")
        for name, group in GROUPS:
            asked, wrong = trial.asked, trial.wrong
            group(trial)
            print(f"{name}: {trial.asked - asked} asked, {trial.wrong - wrong} wrong", flush=True)
    finally:
        shutil.rmtree(room)
    print(f"{trial.asked} asked, {trial.wrong} wrong")
    return 1 if trial.wrong else 0


if __name__ == "__main__":
    sys.exit(main())
