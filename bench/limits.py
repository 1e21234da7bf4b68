#!/usr/bin/env python3
"""Measures what a job at all limits takes: 16 guests, 16,000 frames, 64 files and 16 console inputs of 1 MiB each.

    limits.py

Runs crates/mcexec/out/mcexec (which `rt run` builds in crates/mcexec) and prints the most memory that a run had, as the system counts it, beside the
stated memory of its boot: the frames, and twice the bytes of files and inputs, as they were fetched and as they stand in the files. A walk that writes its
trace has no more than its boot; one that writes its report has the bytes of all files once more. It stops where a run doesn't end as it should.
"""
import os
import sys

from walks import PROGRAM, Job, spinner

MIB = 1 << 20
GUESTS, FRAMES, FILES = 16, 16000, 64


def at_all_limits():
    """A job with as much of everything as a job may have; the guests end at once."""
    job = Job([spinner(4) for _ in range(GUESTS)], frames=FRAMES, cores=8, workers=4, rings=8)
    with open(job.folder / "job", "a") as text:
        for k in range(FILES):
            (job.folder / f"f{k}").write_bytes(os.urandom(MIB))
            text.write(f"file /f{k} f{k}\n")
        for k in range(1, GUESTS + 1):
            (job.folder / f"i{k}").write_bytes(os.urandom(MIB))
            text.write(f"input {k} i{k}\n")
    return job


def peak(job, *words):
    """The most memory of one walk, in KiB, and its processor seconds."""
    reader, writer = os.pipe()
    child = os.fork()
    if child == 0:
        os.chdir(job.folder)
        os.dup2(writer, 1)
        os.close(reader)
        os.execv(PROGRAM, [str(PROGRAM), "walk", "job", *words])
    os.close(writer)
    with os.fdopen(reader, "rb") as told:
        told.read()
    _, status, used = os.wait4(child, 0)
    if status:
        sys.exit(f"the walk ended with status {os.waitstatus_to_exitcode(status)}")
    return used.ru_maxrss, used.ru_utime + used.ru_stime


def main():
    if not os.access(PROGRAM, os.X_OK):
        print("skipped: the proved program isn't built (rt run in crates/mcexec builds it)")
        sys.exit(77)
    least, _ = peak(Job([spinner(4)], frames=32), "trace")
    job = at_all_limits()
    boot, seconds = peak(job, "trace")
    whole, _ = peak(job)
    stated = FRAMES * 4 + 2 * (FILES + GUESTS) * 1024
    print(f"the least job {least:,} KiB; at all limits {boot:,} KiB in {seconds:.2f} s, and {whole:,} KiB with a report")
    print(f"stated {stated:,} KiB; the boot over it {boot / stated:.2f}")


if __name__ == "__main__":
    main()
