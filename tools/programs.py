"""The program mcexec, for scripts that run it: built by the launcher's own way where it isn't built yet."""

import functools
import subprocess
import sys
from pathlib import Path

TOP = Path(__file__).resolve().parent.parent


@functools.cache
def mcexec():
    """The program's file. Where there is none and none can be built, the script says so, and ends with 77."""
    told = subprocess.run([TOP / "tools" / "program.sh"], stdout=subprocess.PIPE, text=True)
    if told.returncode:
        print("skipped: the program isn't built", flush=True)
        sys.exit(77)
    return Path(told.stdout.strip())


def is_unproved():
    return mcexec().parent.name == "unproved"


def seconds():
    """How long a run may take here: an unproved build is a few hundred times slower."""
    return 3000 if is_unproved() else 100
