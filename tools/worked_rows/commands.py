#!/usr/bin/env python3
"""Runs the commands of the program that aren't walks: replays and audits of a trace that is whole, changed or cut short,
checks, growing jobs, and words that fit none.

Expected are the texts and statuses of docs/FORMATS.md, over the rows `ExitCodeSeven` and `Hello` of rows.py. The program
is the one that the launcher runs, and is built where it isn't yet; it ends with 77 where there is none.
"""

import itertools
import subprocess
import sys
import tempfile
from pathlib import Path

HERE = Path(__file__).resolve().parent
sys.path[:0] = [str(HERE), str(HERE.parent)]
import programs  # noqa: E402
from rows import RUNS  # noqa: E402
from run import write_job  # noqa: E402

GROWN = "end done\nguests {0}\ncount instructions {1}\ncount requests {2}\ncount faults {3}\ncount rounds {2}\ncount free {4}\n"
CHECKED = "guest 1 entry 0000000000010078 pages 18\nsegment 0000000000010000 132 rwx\nframes 18 of 18\n"


class Row:
    """A row's job in a folder of its own."""

    def __init__(self, name):
        images, job, self.report, trace = RUNS[name]
        self.room = tempfile.TemporaryDirectory()
        self.folder = Path(self.room.name)
        self.trace = trace.strip().split("\n") if trace else []
        write_job(self.folder, images, job)

    def run(self, *words):
        whole = [programs.mcexec(), *words]
        return subprocess.run(whole, cwd=self.folder, capture_output=True, timeout=programs.seconds())

    def traced(self, command, lines):
        (self.folder / "trace").write_text("".join(line + "\n" for line in lines))
        return self.run(command, "job", "trace")

    def replay(self, lines):
        return self.traced("replay", lines)


def differs(ran, status, output, told=""):
    if ran.returncode != status:
        return f"status {ran.returncode} in place of {status}"
    if output is not None and ran.stdout != output:
        return f"{ran.stdout[:80]!r} in place of {output[:80]!r}"
    return "" if ran.stderr.decode().strip() == told else f"{ran.stderr!r} in place of {told!r}"


def as_its_replay(audited, replayed):
    return differs(audited, replayed.returncode, replayed.stdout, replayed.stderr.decode().strip())


def exchanged(lines, one, other):
    at = lines.index(one)
    assert lines[at + 1] == other
    return lines[:at] + [other, one] + lines[at + 2 :], at + 1


def replays(row):
    whole = row.trace
    yield "replay of the whole trace", differs(row.replay(whole), 0, row.report)
    lines, broken = exchanged(whole, "pin 1 0", "copy 1 0")
    yield "replay of exchanged lines", differs(row.replay(lines), 10, b"", f"mcexec: trace line {broken}")
    unfinished = row.report.replace(b"end done", b"end unfinished").replace(b"free 18", b"free 0")
    yield "replay without the last line", differs(row.replay(whole[:-1]), 11, unfinished)
    yield "replay of another version", differs(row.replay(["mctrace 9", *whole[1:]]), 10, b"", "mcexec: trace line 1")
    yield "replay of the older version", differs(row.replay(["mctrace 1", *whole[1:]]), 0, row.report)
    yield "replay of what is no entry", differs(row.replay([*whole[:3], "nothing", *whole[3:]]), 10, b"", "mcexec: trace line 4")
    yield "replay of an absent trace", differs(row.run("replay", "job", "absent"), 7, b"", "mcexec: host fault")


def audits(row):
    whole = row.trace
    yield "audit of the whole trace", differs(row.traced("audit", whole), 0, row.report)
    for what, lines in (
        ("exchanged lines", exchanged(whole, "pin 1 0", "copy 1 0")[0]),
        ("a trace without the last line", whole[:-1]),
        ("another version", ["mctrace 9", *whole[1:]]),
        ("what is no entry", [*whole[:3], "nothing", *whole[3:]]),
    ):
        replayed = row.replay(lines)
        yield f"audit of {what} as its replay", as_its_replay(row.traced("audit", lines), replayed)
    yield "audit of an absent trace", differs(row.run("audit", "job", "absent"), 7, b"", "mcexec: host fault")


def audits_of_walks():
    """Of every row in several orders: the audit of the walk's trace writes what its replay writes, and ends so."""
    for name in RUNS:
        row = Row(name)
        for order in ("0", "1", "7"):
            walked = row.run("walk", "job", order, "trace")
            (row.folder / "trace").write_bytes(walked.stdout)
            replayed = row.run("replay", "job", "trace")
            audited = row.run("audit", "job", "trace")
            yield f"audit of {name} in order {order}", as_its_replay(audited, replayed)


def others(row):
    yield "check", differs(row.run("check", "job"), 0, CHECKED.encode())
    yield "check of an absent job", differs(row.run("check", "absent"), 7, b"", "mcexec: host fault")
    yield "walk of an endless device", differs(row.run("walk", "/dev/zero"), 7, b"", "mcexec: host fault")
    for n in (1, 2, 16):
        grown = GROWN.format(n, 1004 * n, 50 * n, 150 * n, 22 * n)
        yield f"grow {n}", differs(row.run("grow", str(n)), 0, grown.encode())
    yield "grow 3 in order 5", differs(row.run("grow", "3", "5"), 0, GROWN.format(3, 3012, 150, 450, 66).encode())
    for words in ((), ("walk",), ("grow", "0"), ("grow", "17"), ("grow", "01"), ("replay", "job"), ("walk", "job", "x"), ("run", "job", "7")):
        yield f"words {' '.join(words)!r}", differs(row.run(*words), 2, b"", "mcexec: words")


def main():
    programs.mcexec()
    wrong = count = 0
    parts = (replays(Row("Hello")), audits(Row("Hello")), audits_of_walks(), others(Row("ExitCodeSeven")))
    for name, said in itertools.chain(*parts):
        count += 1
        wrong += bool(said)
        print(f"{name}: {said or 'as it should be'}", flush=True)
    print(f"{count} commands{' by an unproved build' if programs.is_unproved() else ''}, {wrong} wrong")
    return 1 if wrong else 0


if __name__ == "__main__":
    sys.exit(main())
