#!/usr/bin/env python3
"""Measures page tables: the time of a look-up and of a page that is mapped and unmapped, with 16 and with 16,000 pages.

Builds crates/time_tables and prints for the table of three levels and for the sorted list the processor time a look-up and a page, and
that with 16,000 pages over that with 16. It stops if the two tables come to different checksums.
"""
import sys

import programs

FEW, MANY = 16, 16000
# How often each work goes over its pages, so that a run takes some tenths of a second.
ROUNDS = {
    ("levels", "look"): (2000000, 2000),
    ("levels", "map"): (200000, 1000),
    ("list", "look"): (500000, 100),
    ("list", "map"): (200000, 4),
}


def run(program, table, work, pages, rounds):
    """The processor seconds of a run, and its checksum."""
    return programs.run(program, table, work, str(pages), str(rounds))


def nanoseconds(program, table, work, pages, rounds, tries):
    """The nanoseconds of one look-up or of one page, without what the program takes to start."""
    none = min(run(program, table, work, pages, 0)[0] for _ in range(tries))
    whole = min(run(program, table, work, pages, rounds)[0] for _ in range(tries))
    return (whole - none) / (rounds * pages) * 1e9


def main():
    tries = int(sys.argv[1]) if len(sys.argv) > 1 else 7
    program = programs.build("time_tables", "levels", "map", "16", "3")
    for work in ("look", "map"):
        for pages in (FEW, MANY):
            if run(program, "levels", work, pages, 3)[1] != run(program, "list", work, pages, 3)[1]:
                sys.exit("%s %d: the two tables came to different checksums" % (work, pages))
    print("%-8s %-6s %14s %14s %7s" % ("table", "work", "ns at %d" % FEW, "ns at %d" % MANY, "ratio"))
    for (table, work), (few_rounds, many_rounds) in ROUNDS.items():
        few = nanoseconds(program, table, work, FEW, few_rounds, tries)
        many = nanoseconds(program, table, work, MANY, many_rounds, tries)
        print("%-8s %-6s %14.1f %14.1f %7.2f" % (table, work, few, many, many / few))


main()
