#!/usr/bin/env python3
"""Tries what the launcher tells behind a status: each row of messages.py by the program; and that no event of a walk is
one of which a trace alone tells that it may not happen.

    test.py            all rows, and whether the manual's examples are among them
    test.py WORD..     those whose words or messages have one of these words

It ends with 1 where a row differs, and with 77 where there is no program.
"""

import os
import subprocess
import sys
import tempfile
from pathlib import Path

HERE = Path(__file__).resolve().parent
TOP = HERE.parent.parent
sys.dont_write_bytecode = True
sys.path[:0] = [str(HERE), str(HERE.parent / "trace_view"), str(HERE.parent / "worked_rows"), str(HERE.parent)]
import programs  # noqa: E402
from events import Followed  # noqa: E402
from jobs import Job  # noqa: E402
from messages import FIRST_OF_MANUAL, ROWS, USAGE  # noqa: E402
from rows import LINES, RUNS  # noqa: E402
from run import write_job  # noqa: E402
from traces import events_of  # noqa: E402


def write(folder, files):
    for name, content in files.items():
        file = folder / name
        file.parent.mkdir(parents=True, exist_ok=True)
        file.write_bytes(content.encode() if isinstance(content, str) else content)


def told_by(folder, words):
    """The status of the launcher, and the lines on standard error, but for the one of an unproved build."""
    whole = [str(TOP / "mcexec"), *words]
    ran = subprocess.run(list(map(os.fsencode, whole)), cwd=folder, capture_output=True, timeout=programs.seconds())
    lines = ran.stderr.decode(errors="replace").split("\n")[:-1]
    return ran.returncode, [line for line in lines if not line.startswith("mcexec: this run is of an unproved build")]


def differs(words, status, wanted, files, usage):
    with tempfile.TemporaryDirectory() as room:
        write(Path(room), files)
        was, told = told_by(room, words)
    wanted = [line for it in wanted for line in (usage if it in USAGE else [it])]
    if was != status:
        return f"status {was} in place of {status}"
    return "" if told == wanted else f"{told} in place of {wanted}"


def walks():
    """Of rows of walks: their names, images and jobs."""
    for name, (images, job, *_) in [*RUNS.items(), *LINES.items()]:
        yield name, images, job


def wrongly_refused(images, job):
    """The first event of walks that is said to be none that may happen, though it did."""
    with tempfile.TemporaryDirectory() as room:
        folder = Path(room)
        write_job(folder, images, job)
        read = Job((folder / "job").read_bytes())
        for order in ("0", "7"):
            whole = [programs.mcexec(), "walk", "job", order, "trace"]
            ran = subprocess.run(whole, cwd=folder, capture_output=True, text=True, timeout=programs.seconds())
            followed = Followed(read)
            for event in events_of(ran.stdout):
                why = followed.refusal(event)
                if why:
                    return f"order {order}, line {event.place + 2}, {event.word} {event.numbers}: {why}"
                followed.take(event)
    return ""


def manual():
    """What differs between the manual's examples and the rows that are to be theirs."""
    text = (TOP / "docs" / "mcexec.1").read_text().split(".SH DIAGNOSTICS")[1].split(".nf\n")[1].split(".fi")[0]
    wanted = [line for _, _, told, _ in ROWS[FIRST_OF_MANUAL:] for line in told]
    told = text.replace("\\-", "-").split("\n")[:-1]
    return "" if told == wanted else f"{told} in place of {wanted}"


def main(words):
    programs.mcexec()
    usage = subprocess.run([TOP / "mcexec", "--help"], capture_output=True, text=True).stdout.split("\n")[:-1]
    wrong = count = 0

    def judge(name, said):
        nonlocal wrong, count
        count, wrong = count + 1, wrong + bool(said)
        if said:
            print(f"{name}: {said}", flush=True)

    for of, status, wanted, files in ROWS:
        if not words or any(word in line for word in words for line in [*of, *wanted]):
            judge(" ".join(of).encode(errors="replace").decode(), differs(of, status, wanted, files, usage))
    if not words:
        judge("the examples of the manual", manual())
    for name, images, job in walks() if not words else ():
        judge(f"events of {name}", wrongly_refused(images, job))
    print(f"{count} rows{' by an unproved build' if programs.is_unproved() else ''}, {wrong} wrong")
    return 1 if wrong else 0


if __name__ == "__main__":
    sys.exit(main(sys.argv[1:]))
