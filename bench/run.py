#!/usr/bin/env python3
"""Compares `run`, on threads, with `walk`, on one thread, over the same jobs: wall time, the least and the median of so
many tries, taken in turn.

    run.py [TRIES]

Runs crates/mcexec/out/mcexec (which `rt run` builds in crates/mcexec). It stops where a run doesn't end as it should,
and prints the load of the machine beside the times.
"""

import os
import statistics
import subprocess
import sys
import time
from pathlib import Path

sys.path.insert(0, str(Path(__file__).resolve().parent))
from walks import Job, PROGRAM, spinner, writer  # noqa: E402


def wall(job, *words):
    before = time.perf_counter()
    ran = subprocess.run([PROGRAM, *words], cwd=job.folder, capture_output=True)
    after = time.perf_counter()
    if ran.returncode:
        sys.exit(f"{' '.join(words)} ended with status {ran.returncode}: {ran.stderr.decode().strip()}")
    return after - before


def jobs():
    """Of each job: its name, and the job."""
    spins = 3_600_000
    for guests, cores in ((1, 1), (2, 2), (4, 4), (4, 1)):
        each = [spinner(spins // guests) for _ in range(guests)]
        name = f"computing, {guests} guests, {cores} cores"
        yield name, Job(each, frames=32 * guests, limit=4_000_000, cores=cores)
    for guests, cores, workers in ((1, 1, 1), (2, 2, 1), (4, 4, 4), (16, 8, 4)):
        times = 4_000 // guests
        each = [writer(times + k) for k in range(guests)]
        name = f"writes, {guests} guests, {cores} cores, {workers} workers"
        yield name, Job(each, frames=32 * guests, limit=4_000_000, cores=cores, workers=workers)


def main():
    tries = int(sys.argv[1]) if len(sys.argv) > 1 else 7
    if not os.access(PROGRAM, os.X_OK):
        print("skipped: the proved program isn't built (rt run in crates/mcexec builds it)")
        sys.exit(77)
    print(f"load {os.getloadavg()[0]:.1f}, {os.cpu_count()} processors, {tries} tries, ms: least and median")
    print(f"{'':40} {'walk':>8} {'':>8} {'run':>8} {'':>8} {'walk/run':>9}")
    for name, job in jobs():
        walks, runs = [], []
        for _ in range(tries):
            walks.append(wall(job, "walk", "job") * 1e3)
            runs.append(wall(job, "run", "job") * 1e3)
        middles = [statistics.median(walks), statistics.median(runs)]
        ratio = min(walks) / min(runs)
        print(f"{name:40} {min(walks):8.1f} {middles[0]:8.1f} {min(runs):8.1f} {middles[1]:8.1f} {ratio:9.2f}", flush=True)


if __name__ == "__main__":
    main()
