#!/usr/bin/env python3
"""Runs the worked rows that are walks in order 0 by the program, and compares whole reports and traces, or lines of a
report; then the rows of hostile guests, in order 0 and in orders 1 to 16.

    run.py            all of them
    run.py NAME..     these

The program is the one that the launcher runs, and is built where it isn't yet. It ends with 1 where a row differs,
with 2 where a name is no row's, and with 77 where there is no program.
"""

import struct
import subprocess
import sys
import tempfile
from pathlib import Path

HERE = Path(__file__).resolve().parent
sys.path[:0] = [str(HERE), str(HERE.parent)]
import hostile  # noqa: E402
import programs  # noqa: E402
from rows import LINES, RUNS  # noqa: E402

STATUS = dict(done=0, stalled=1, limit=6)


def image_bytes(words, data):
    """The file of a small image: one segment with the whole file at 0x10000, all rights, its entry behind the headers."""
    body = b"".join(struct.pack("<I", word) for word in words) + data
    size = 120 + len(body)
    header = b"\x7fELF\x02\x01\x01" + bytes(9) + struct.pack("<HHIQQQIHHHHHH", 2, 243, 1, 0x10078, 64, 0, 0, 64, 56, 1, 0, 0, 0)
    segment = struct.pack("<IIQQQQQQ", 1, 7, 0, 0x10000, 0, size, size, 4096)
    return header + segment + body


def write_job(folder, images, job):
    """The job's text, with guests first, since a signal's line has to stand where the row says; empty lines say nothing."""
    lines = []
    for k, (words, data) in enumerate(images):
        name = chr(ord("a") + k)
        (folder / name).write_bytes(image_bytes(words, data))
        lines.append(f"guest {name}")
    for line, guest, signal, after in job.get("signals", ()):
        lines += [""] * (line - 1 - len(lines))
        lines.append(f"signal {guest} {signal} {after}")
        assert line == len(lines), f"signal line {line}"
    for name, content in dict(job.get("files", {})).items():
        (folder / f"file_{name}").write_bytes(content.encode() if isinstance(content, str) else content)
        lines.append(f"file /{name} file_{name}")
    for guest, content in job.get("inputs", ()):
        (folder / f"input_{guest}").write_bytes(content.encode() if isinstance(content, str) else content)
        lines.append(f"input {guest} input_{guest}")
    lines.append(f"frames {job['frames']}")
    for name in ("cores", "workers", "rings", "limit"):
        if name in job:
            lines.append(f"{name} {job[name]}")
    (folder / "job").write_text("".join(line + "\n" for line in lines))


def walk(folder, *words):
    whole = [programs.mcexec(), "walk", "job", *words]
    return subprocess.run(whole, cwd=folder, capture_output=True, timeout=programs.seconds())


def first_difference(got, wanted):
    for a, b in zip(got.split(b"\n"), wanted.split(b"\n")):
        if a != b:
            return f"{a[:60]!r} in place of {b[:60]!r}"
    return f"{len(got)} bytes in place of {len(wanted)}"


def judged_lines(name):
    images, job, lines = LINES[name]
    with tempfile.TemporaryDirectory() as room:
        folder = Path(room)
        write_job(folder, images, job)
        ran = walk(folder)
    missing = [line for line in lines if line.encode() not in ran.stdout.split(b"\n")]
    return f"no line {missing[0]!r} (status {ran.returncode})" if missing else ""


def differs(report, wanted):
    """What is wrong with a report of which these lines are known, and that its output is of whole pages."""
    lines = report.split(b"\n")
    for line in wanted:
        if line not in lines:
            return f"no line {line!r}"
    output = next((int(line.split()[2]) for line in lines if line.startswith(b"output 1 ")), 1)
    return f"an output of {output} bytes" if output % hostile.PAGE else ""


def judged_in_orders(name):
    guest, job, wanted = hostile.REPORTS.get(name) or hostile.LINES[name]
    with tempfile.TemporaryDirectory() as room:
        folder = Path(room)
        write_job(folder, [guest.words_and_data()], job.plain)
        for order in range(17):
            ran = walk(folder, str(order))
            if name in hostile.LINES:
                wrong = differs(ran.stdout, wanted)
            else:
                wrong = ran.stdout != wanted and first_difference(ran.stdout, wanted)
            if wrong or ran.returncode != 0:
                return f"order {order}: {wrong or ''} (status {ran.returncode})"
    return ""


def judged(name):
    if name in LINES:
        return judged_lines(name)
    if name not in RUNS:
        return judged_in_orders(name)
    images, job, report, trace = RUNS[name]
    with tempfile.TemporaryDirectory() as room:
        folder = Path(room)
        write_job(folder, images, job)
        ran = walk(folder)
        wanted = STATUS[report.split(b"\n")[1].split()[1].decode()]
        if ran.stdout != report:
            return first_difference(ran.stdout, report) + f" (status {ran.returncode})"
        if ran.returncode != wanted:
            return f"status {ran.returncode} in place of {wanted}"
        if trace:
            told = walk(folder, "trace").stdout
            if told != (trace.strip() + "\n").encode():
                return first_difference(told, (trace.strip() + "\n").encode())
    return ""


def main(names):
    known = [*RUNS, *LINES, *hostile.REPORTS, *hostile.LINES]
    unknown = [name for name in names if name not in known]
    if unknown:
        print(f"run.py: no row is named {unknown[0]}; the rows are {' '.join(known)}", file=sys.stderr)
        return 2
    programs.mcexec()
    wrong = 0
    names = names or known
    for name in names:
        said = judged(name)
        wrong += bool(said)
        print(f"{name}: {said or 'as it should be'}", flush=True)
    print(f"{len(names)} rows{' by an unproved build' if programs.is_unproved() else ''}, {wrong} wrong")
    return 1 if wrong else 0


if __name__ == "__main__":
    sys.exit(main(sys.argv[1:]))
