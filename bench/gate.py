#!/usr/bin/env python3
"""Processor time of the gate, by crate, split into proofs, tests and edits.

    gate.py [OUT]    samples while `rt ci` runs on this machine, and prints the table when it ends

Start it, then run `rt ci --anew` at the top of a clean clone, with nothing else running. It looks at the prover's processes once a
second, by /proc, so what lives for less than a second is missed. OUT keeps the samples as JSON, so that the table can be had again.
"""

import json
import os
import sys
import time
from collections import defaultdict
from pathlib import Path

TICKS = os.sysconf("SC_CLK_TCK")
# how long no prover may be seen before the run counts as over, in seconds
QUIET = 60


def sample(process):
    """The crate, the kind of work and the processor seconds of a prover's process, or None."""
    try:
        words = (process / "cmdline").read_bytes().decode(errors="replace").split("\0")
        fields = (process / "stat").read_text().rsplit(")", 1)[1].split()
        folder = os.readlink(process / "cwd")
    except OSError:
        return None
    if not words[0].endswith("/rattle") or "--crate-name" not in words:
        return None
    crate = words[words.index("--crate-name") + 1]
    kind = "edits" if "rt-edit" in folder else "tests" if "--test" in words else "proofs"
    return fields[19], crate, kind, sum(int(it) for it in fields[11:15]) / TICKS


def watch(out):
    """Samples until no prover was seen for a while. Returns the rows by process."""
    seen, last, began = {}, time.time(), False
    while not began or time.time() - last < QUIET:
        for process in Path("/proc").glob("[0-9]*"):
            found = sample(process)
            if found:
                start, crate, kind, seconds = found
                seen[f"{process.name}:{start}"] = (crate, kind, seconds)
                last, began = time.time(), True
        if out:
            Path(out).write_text(json.dumps(seen))
        time.sleep(1)
    return seen


def table(seen):
    """Prints minutes by crate, dearest first."""
    crates = defaultdict(lambda: defaultdict(float))
    for crate, kind, seconds in seen.values():
        crates[crate][kind] += seconds / 60
    kinds = ("proofs", "tests", "edits")
    total = {kind: sum(row[kind] for row in crates.values()) for kind in kinds}
    print("| crate | proofs | tests | edits |\n|---|---|---|---|")
    for crate, row in sorted(crates.items(), key=lambda it: -sum(it[1].values())):
        print(f"| {crate} | " + " | ".join(f"{row[kind]:.1f}" for kind in kinds) + " |")
    print("| **all** | " + " | ".join(f"{total[kind]:.1f}" for kind in kinds) + " |")
    print(f"\n{sum(total.values()):.0f} processor minutes in all")


def main():
    out = sys.argv[1] if len(sys.argv) > 1 else None
    if out and Path(out).exists():
        table(json.loads(Path(out).read_text()))
    else:
        table(watch(out))


if __name__ == "__main__":
    main()
