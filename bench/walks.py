#!/usr/bin/env python3
"""Measures walks, replays and audits of the program: what an event and an instruction cost, at a tenth of a size and at the whole of it.

    walks.py [TRIES]

Runs crates/mcexec/out/mcexec (which `rt run` builds in crates/mcexec), several times each, and takes the least processor time without that of a
walk of the least guest. It stops where a run doesn't end as it should.
"""
import os
import resource
import subprocess
import sys
import tempfile
from pathlib import Path

TOP = Path(__file__).resolve().parent.parent
PROGRAM = TOP / "crates" / "mcexec" / "out" / "mcexec"
sys.path.insert(0, str(TOP / "tools" / "worked_rows"))
from guests import Guest  # noqa: E402
from run import image_bytes  # noqa: E402

OPENAT, PWRITE64 = 56, 68
CREATE_AND_WRITE = 0x40 | 2


def counted(guest, register, body):
    """A loop of as many rounds as the register says; the body keeps it."""
    guest.label("again")
    body(guest)
    guest.addi(register, register, -1)
    guest.branch(register, "zero", "again")


def writer(times):
    """A guest that writes one page to the beginning of a file, so many times."""
    guest = Guest()
    path = guest.blob(b"/f%d\0" % times)
    # the count's word stands before the page, within reach
    guest.set("t1", times)
    page = guest.blob(bytes(4096))
    guest.call(OPENAT, -100, path, CREATE_AND_WRITE, 0)
    guest.addi("s1", "a0", 0)
    guest.set("s0", page)

    def write(g):
        for k, register in enumerate(("s1", "s0", "x18", "zero")):
            g.addi(f"a{k}", register, 0)
        g.set("a7", PWRITE64)
        g.emit("ecall")

    guest.emit("lui", "x18", 1)
    counted(guest, "t1", write)
    guest.exit()
    return guest.end()


def spinner(instructions):
    """A guest that executes about so many instructions in a loop."""
    guest = Guest()
    guest.set("t1", instructions // 4)
    counted(guest, "t1", lambda g: [g.addi("t2", "t2", 1) for _ in range(2)])
    guest.exit()
    return guest.end()


class Job:
    """A job in a folder of its own."""

    def __init__(self, guests, **lines):
        self.room = tempfile.TemporaryDirectory()
        self.folder = Path(self.room.name)
        text = []
        for k, guest in enumerate(guests):
            (self.folder / f"g{k}").write_bytes(image_bytes(*guest.words_and_data()))
            text.append(f"guest g{k}")
        text += [f"{name} {value}" for name, value in lines.items()]
        (self.folder / "job").write_text("".join(line + "\n" for line in text))

    def run(self, *words):
        """The processor seconds, the most memory in KiB so far of any run, and what was printed."""
        before = resource.getrusage(resource.RUSAGE_CHILDREN)
        ran = subprocess.run([PROGRAM, *words], cwd=self.folder, capture_output=True)
        after = resource.getrusage(resource.RUSAGE_CHILDREN)
        if ran.returncode:
            sys.exit(f"{' '.join(words)} ended with status {ran.returncode}: {ran.stderr.decode().strip()}")
        return after.ru_utime + after.ru_stime - before.ru_utime - before.ru_stime, ran.stdout

    def trace(self):
        told = self.run("walk", "job", "trace")[1]
        (self.folder / "trace").write_bytes(told)
        return told.count(b"\n") - 1


def least(job, tries, *words):
    return min(job.run(*words)[0] for _ in range(tries))


def writers(count, times):
    return Job([writer(times + k) for k in range(count)], frames=32 * count, limit=4000000, cores=min(count, 8))


def row(name, small, large, unit):
    (few, short), (many, long) = small, large
    a, b = short / few * 1e9, long / many * 1e9
    print(f"{name:26} {few:>9} {a:>10.1f} {many:>9} {b:>10.1f} {b / a:>7.2f}  ns a{unit}", flush=True)


def measured(job, tries, command, base):
    """How many events the job's walk has, and the seconds of a command over it."""
    events = job.trace()
    words = ("walk", "job") if command == "walk" else (command, "job", "trace")
    return events, least(job, tries, *words) - base


def main():
    tries = int(sys.argv[1]) if len(sys.argv) > 1 else 5
    if not os.access(PROGRAM, os.X_OK):
        print("skipped: the proved program isn't built (rt run in crates/mcexec builds it)")
        sys.exit(77)
    base = least(Job([spinner(4)], frames=32), tries, "walk", "job")
    print(f"{'':26} {'at':>9} {'':>10} {'at':>9} {'':>10} {'ratio':>7}")
    spins = {n: least(Job([spinner(n)], frames=32, limit=4000000), tries, "walk", "job") - base for n in (300000, 3000000)}
    row("walk, instructions", *spins.items(), "n instruction")
    # two guests, so that a thousand and a million events are 55 and 49,000 writes each
    tenth, whole = writers(2, 4900), writers(2, 49000)
    times = {}
    for command in ("walk", "replay", "audit"):
        times[command] = measured(tenth, tries, command, base), measured(whole, tries, command, base)
        row(f"{command}, events", *times[command], "n event")
    print(f"{'audit over walk':26} {times['audit'][1][1] / times['walk'][1][1]:>10.2f}")
    row("walk, guests", measured(writers(1, 6000), tries, "walk", base), measured(writers(16, 375), tries, "walk", base), "n event")
    grown = {n: least(Job([spinner(4)], frames=32), tries, "grow", str(n)) for n in (1, 16)}
    print(f"{'grow 1, grow 16':26} {grown[1] * 1000:>9.1f} {grown[16] * 1000:>10.1f}  ms")


if __name__ == "__main__":
    main()
