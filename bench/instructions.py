#!/usr/bin/env python3
"""Measures the proved interpreter beside the plain one in C, on the same loops.

Builds both, runs them in turn, and prints the most instructions per second that each reached, and their ratio.
"""
import os
import re
import subprocess
import sys
import tempfile

TOP = os.path.dirname(os.path.dirname(os.path.abspath(__file__)))
CRATE = os.path.join(TOP, "crates", "time_loops")


def build_proved():
    """Proves and builds the program; its file is out/time_loops."""
    told = subprocess.run(["rt", "run"], cwd=CRATE, text=True, stdout=subprocess.PIPE, stderr=subprocess.STDOUT)
    if told.returncode != 0:
        sys.exit(told.stdout + "the program was not built")
    return os.path.join(CRATE, "out", "time_loops")


def build_plain(folder):
    """Compiles the plain interpreter, with the words of src/loops.rt as its header."""
    text = open(os.path.join(CRATE, "src", "loops.rt"), encoding="utf-8").read()
    loops = re.findall(r"pub static (\w+): \[u32; \d+\] = \[(.*?)\];", text, re.S)
    with open(os.path.join(folder, "loops.h"), "w", encoding="utf-8") as header:
        for name, words in loops:
            header.write("static const uint32_t %s[] = {%s};\n" % (name.lower(), words.replace("_", "")))
        header.write("#define LOOPS " + " ".join("RUN(%s);" % name.lower() for name, _ in loops) + "\n")
    plain = os.path.join(folder, "plain")
    source = os.path.join(TOP, "bench", "plain.c")
    subprocess.run(["gcc", "-O2", "-I", folder, "-o", plain, source], check=True)
    return plain


def times(command):
    """For each loop what it came to, and its microseconds."""
    told = subprocess.run(command, text=True, check=True, stdout=subprocess.PIPE).stdout
    rows = [line.split() for line in told.splitlines()]
    return {row[0]: (tuple(row[1:4]), int(row[4])) for row in rows}


def main():
    rounds = int(sys.argv[1]) if len(sys.argv) > 1 else 7
    with tempfile.TemporaryDirectory() as folder:
        commands = {"proved": [build_proved(), "time"], "plain": [build_plain(folder)]}
        best = {name: {} for name in commands}
        ends = {}
        for _ in range(rounds):
            for name, command in commands.items():
                for loop, (end, microseconds) in times(command).items():
                    if ends.setdefault(loop, end) != end:
                        sys.exit("%s: the two came to different ends: %s and %s" % (loop, ends[loop], end))
                    best[name][loop] = min(best[name].get(loop, microseconds), microseconds)
    print("%-10s %14s %12s %12s %7s" % ("loop", "instructions", "proved M/s", "plain M/s", "ratio"))
    for loop, end in ends.items():
        proved, plain = (int(end[0]) / best[name][loop] for name in ("proved", "plain"))
        print("%-10s %14s %12.1f %12.1f %7.2f" % (loop, end[0], proved, plain, proved / plain))


if __name__ == "__main__":
    main()
