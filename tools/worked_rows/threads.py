#!/usr/bin/env python3
"""Runs the worked rows by `run`, on threads, several times each, and compares what doesn't depend on the order: the
ending, each guest's end, outputs, files and unsent lines. The trace that a run writes is replayed and audited, and both
texts have to be the same.

    threads.py            all of them, three times each
    threads.py TIMES      so many times each

The program is the one that the launcher runs, and is built where it isn't yet. It ends with 1 where a row differs, and
with 77 where there is no program.
"""

import subprocess
import sys
import tempfile
from pathlib import Path

HERE = Path(__file__).resolve().parent
sys.path[:0] = [str(HERE), str(HERE.parent)]
import hostile  # noqa: E402
import programs  # noqa: E402
from rows import LINES, RUNS  # noqa: E402
from run import STATUS, write_job  # noqa: E402


def without_counts(report):
    """The lines of a report that no order changes."""
    return [line for line in report.split(b"\n") if not line.startswith(b"count ")]


def mcexec(folder, *words):
    whole = [programs.mcexec(), *words]
    return subprocess.run(whole, cwd=folder, capture_output=True, timeout=programs.seconds())


def rows():
    """Of each row: its name, images, job, and what a report says, whole or only some of its lines."""
    for name, (images, job, report, _) in RUNS.items():
        yield name, images, job, report, None
    for name, (images, job, lines) in LINES.items():
        yield name, images, job, None, [line.encode() for line in lines]
    for name, (guest, job, report) in hostile.REPORTS.items():
        yield name, [guest.words_and_data()], job.plain, report, None
    for name, (guest, job, lines) in hostile.LINES.items():
        yield name, [guest.words_and_data()], job.plain, None, lines


def differs(ran, report, lines):
    """What is wrong with a run's report, or nothing."""
    said = ran.stdout.split(b"\n")
    if report is None:
        missing = [line for line in lines if line not in said]
        return f"no line {missing[0]!r} (status {ran.returncode})" if missing else ""
    wanted = STATUS[report.split(b"\n")[1].split()[1].decode()]
    if ran.returncode != wanted:
        return f"status {ran.returncode} in place of {wanted}"
    pairs = zip(without_counts(ran.stdout), without_counts(report))
    return next((f"{a[:60]!r} in place of {b[:60]!r}" for a, b in pairs if a != b), "")


def traced(folder):
    """Whether the trace of a run is replayed and audited with one text, which says how it ended."""
    ran = mcexec(folder, "run", "job", "trace")
    (folder / "trace").write_bytes(ran.stdout)
    replayed, audited = mcexec(folder, "replay", "job", "trace"), mcexec(folder, "audit", "job", "trace")
    if replayed.returncode != ran.returncode:
        return f"the run ended with {ran.returncode}, its replay with {replayed.returncode}"
    if (audited.returncode, audited.stdout) != (replayed.returncode, replayed.stdout):
        return f"the audit ended with {audited.returncode}, the replay with {replayed.returncode}, or their texts differ"
    return ""


def judged(images, job, report, lines, times):
    with tempfile.TemporaryDirectory() as room:
        folder = Path(room)
        write_job(folder, images, job)
        for _ in range(times):
            wrong = differs(mcexec(folder, "run", "job"), report, lines)
            if wrong:
                return wrong
        return traced(folder)


def main(words):
    times = int(words[0]) if words else 3
    programs.mcexec()
    wrong = count = 0
    for name, images, job, report, lines in rows():
        count += 1
        said = judged(images, job, report, lines, times)
        wrong += bool(said)
        print(f"{name}: {said or 'as it should be'}", flush=True)
    of = " by an unproved build" if programs.is_unproved() else ""
    print(f"{count} rows on threads, {times} times each{of}, {wrong} wrong")
    return 1 if wrong else 0


if __name__ == "__main__":
    sys.exit(main(sys.argv[1:]))
