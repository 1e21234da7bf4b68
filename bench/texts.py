#!/usr/bin/env python3
"""Measures how long assembler texts and jobs take to read, at a tenth of a size and at the whole of it.

Builds crates/time_texts and prints the processor time a byte, and that of the whole over that of the tenth: near 1 where reading is linear.
"""
import programs


def seconds(program, kind, size, rounds):
    """The processor seconds of a run, and the bytes of its text."""
    took, told = programs.run(program, kind, str(size), str(rounds))
    return took, int(told.split()[1])


def per_round(program, kind, size, rounds):
    """The seconds of a round and the bytes of the text, without what the program takes to start and to make the text."""
    none = min(seconds(program, kind, size, 0)[0] for _ in range(7))
    all_rounds = min(seconds(program, kind, size, rounds)[0] for _ in range(7))
    return (all_rounds - none) / rounds, seconds(program, kind, size, 0)[1]


def main():
    program = programs.build("time_texts", "assemble", "100000", "1")
    print("%-10s %9s %12s %14s %7s" % ("text", "lines", "bytes", "ns a byte", "whole/tenth"))
    for kind, tenth, whole, rounds in (("assemble", 10000, 100000, 10), ("listing", 10000, 100000, 10), ("job", 1, 10, 20)):
        small, small_bytes = per_round(program, kind, tenth, rounds * 10)
        large, large_bytes = per_round(program, kind, whole, rounds)
        for size, took, count in ((tenth, small, small_bytes), (whole, large, large_bytes)):
            print("%-10s %9d %12d %14.2f" % (kind, size, count, took / count * 1e9))
        print("%-10s %37s %7.2f" % (kind, "", (large / large_bytes) / (small / small_bytes)))


main()
