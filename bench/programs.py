"""Programs of crates that the benches run: how they are built, and what a run takes."""
import resource
import subprocess
import sys
from pathlib import Path

TOP = Path(__file__).resolve().parent.parent


def build(crate, *words):
    """Proves and builds the program of the crate, and tries it with these words; the answer is its file."""
    folder = TOP / "crates" / crate
    told = subprocess.run(["rt", "run", "--", *words], cwd=folder, text=True, stdout=subprocess.PIPE, stderr=subprocess.STDOUT)
    program = folder / "out" / crate
    if told.returncode or not program.exists():
        sys.exit(told.stdout + "the program was not built")
    return program


def run(*command):
    """The processor seconds of a run, and what it printed."""
    before = resource.getrusage(resource.RUSAGE_CHILDREN)
    told = subprocess.run(command, text=True, check=True, stdout=subprocess.PIPE).stdout
    after = resource.getrusage(resource.RUSAGE_CHILDREN)
    return after.ru_utime + after.ru_stime - before.ru_utime - before.ru_stime, told
