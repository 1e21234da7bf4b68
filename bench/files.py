#!/usr/bin/env python3
"""Measures the store of files: the time of a call and of a byte, with 10 and with 1,000 files in the tree.

Builds crates/time_files. A round of its work `calls` opens a new file, sets its place, takes its name away and closes it; a round of `bytes`
writes 64 KiB in pieces of 4 KiB and reads them back as well. Prints the processor time of one of the four calls, and, from what the two
works differ by, of a byte that is written and read, and each with 1,000 files over that with 10. It stops if the two trees come to
different checksums, since no answer of these calls depends on what else the tree has.
"""
import sys

import programs

FEW, MANY = 10, 1000
# A round has so many calls, and moves so many bytes in and out.
CALLS, BYTES = 4, 65536
# How many rounds of each work, so that a run takes some tenths of a second.
ROUNDS = {"calls": 500000, "bytes": 50000}


def run(program, work, files, rounds):
    """The processor seconds of a run, and its checksum."""
    seconds, told = programs.run(program, work, str(files), str(rounds))
    return seconds, told.split()[-1]


def nanoseconds(program, work, files, tries):
    """The nanoseconds of a round, without what the program takes to start and to make the tree."""
    rounds = ROUNDS[work]
    none = min(run(program, work, files, 0)[0] for _ in range(tries))
    whole = min(run(program, work, files, rounds)[0] for _ in range(tries))
    return (whole - none) / rounds * 1e9


def main():
    tries = int(sys.argv[1]) if len(sys.argv) > 1 else 7
    program = programs.build("time_files", "bytes", "10", "3")
    for work in ROUNDS:
        if run(program, work, FEW, 3)[1] != run(program, work, MANY, 3)[1]:
            sys.exit("%s: the two trees came to different checksums" % work)
    times = {}
    for files in (FEW, MANY):
        calls = nanoseconds(program, "calls", files, tries)
        whole = nanoseconds(program, "bytes", files, tries)
        times[files] = {"a call": calls / CALLS, "a byte": (whole - calls) / BYTES}
    print("%-8s %14s %14s %7s" % ("", "ns at %d" % FEW, "ns at %d" % MANY, "ratio"))
    for what in ("a call", "a byte"):
        few, many = times[FEW][what], times[MANY][what]
        print("%-8s %14.3f %14.3f %7.2f" % (what, few, many, many / few))


main()
