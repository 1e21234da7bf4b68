#!/usr/bin/env python3
"""Compares the program with a translator: the same guests by `walk`, by `run` and by qemu-riscv64, in turn.

    peers.py [TRIES]

Compiles the guests of peers/ by guest/cc: a checksum, a sort and a matrix product of some 3 million instructions each,
and 10,000 writes of one byte. Prints of each the wall time (the least of so many tries, 7 where none are named), that
without the start-up (which a guest that ends at once shows), instructions a second, the most memory, and the ratio of
`walk`'s and `run`'s whole wall time to qemu-riscv64's. Runs crates/mcexec/out/mcexec, which `rt run` builds in
crates/mcexec. Ends with 77 where the program, the compiler or qemu-riscv64 is missing.
"""

import os
import shutil
import subprocess
import sys
import tempfile
import time
from pathlib import Path

HERE = Path(__file__).resolve().parent
PROGRAM = HERE.parent / "crates" / "mcexec" / "out" / "mcexec"
QEMU = shutil.which("qemu-riscv64") or shutil.which("qemu-riscv64-static")
NAMES = ("checksum", "sort", "matrix", "writes")
NOTHING = "#include <guest.h>\nint main(void) { return 0; }\n"


def skip(why):
    print(f"skipped: {why}")
    sys.exit(77)


def compile_guests(folder):
    """Compiles all guests, and one that ends at once, as `nothing`; writes a job for each."""
    (folder / "nothing.c").write_text(NOTHING)
    sources = [folder / "nothing.c"] + [HERE / "peers" / f"{name}.c" for name in NAMES]
    for source in sources:
        words = [HERE.parent / "guest" / "cc", "-plain", "-O2", "-o", folder / source.stem, source]
        done = subprocess.run(words, capture_output=True, text=True)
        if done.returncode == 77:
            skip(done.stderr.strip())
        if done.returncode:
            sys.exit(done.stderr)
        (folder / f"{source.stem}.job").write_text(f"frames 400\nlimit 4000000\nguest {source.stem}\n")


def timed(words, folder):
    """The wall seconds of one run, its status, and what it wrote."""
    before = time.perf_counter()
    done = subprocess.run(words, cwd=folder, stdout=subprocess.PIPE, stderr=subprocess.DEVNULL)
    return time.perf_counter() - before, done.returncode, done.stdout


def peak(words, folder):
    """The most memory of one run in KiB, as it was last seen while it ran."""
    child = subprocess.Popen(words, cwd=folder, stdout=subprocess.DEVNULL, stderr=subprocess.DEVNULL)
    most = 0
    while child.poll() is None:
        try:
            told = Path(f"/proc/{child.pid}/status").read_text()
        except OSError:
            continue
        if "VmHWM:" in told and f"Name:\t{Path(words[0]).name[:15]}" in told:
            most = max(most, int(told.split("VmHWM:")[1].split()[0]))
        time.sleep(0.0002)
    return most


def ways(name):
    return {
        "walk": [PROGRAM, "walk", f"{name}.job"],
        "run": [PROGRAM, "run", f"{name}.job"],
        "qemu": [QEMU, f"./{name}"],
    }


def measure(name, folder, tries):
    """Of each way the least wall seconds, taken in turn, and the most memory; and the instructions that a walk counts."""
    least, count = {}, 0
    memory = {way: peak(words, folder) for way, words in ways(name).items()}
    for _ in range(tries):
        for way, words in ways(name).items():
            seconds, status, told = timed(words, folder)
            if status < 0 or status == 127 or (status and way != "qemu"):
                sys.exit(f"{name} by {way} ended with status {status}")
            if way != "qemu":
                count = int(told.split(b"count instructions ")[1].split()[0]) if b"count instructions " in told else count
            least[way] = min(seconds, least.get(way, seconds))
    return least, memory, count


def main():
    tries = int(sys.argv[1]) if len(sys.argv) > 1 else 7
    if not os.access(PROGRAM, os.X_OK):
        skip("the proved program isn't built (rt run in crates/mcexec builds it)")
    if QEMU is None:
        skip("qemu-riscv64 isn't installed")
    with tempfile.TemporaryDirectory() as room:
        folder = Path(room)
        compile_guests(folder)
        start, _, _ = measure("nothing", folder, tries)
        print(f"load {os.getloadavg()[0]:.1f}, {os.cpu_count()} processors, {tries} tries; start-up in ms: "
              + ", ".join(f"{way} {seconds * 1e3:.1f}" for way, seconds in start.items()))
        print(f"{'':10} {'':5} {'ms':>8} {'without':>8} {'M/s':>8} {'KiB':>8} {'to qemu':>8}")
        for name in NAMES:
            least, memory, count = measure(name, folder, tries)
            for way, seconds in least.items():
                own = max(seconds - start[way], 1e-6)
                print(f"{name:10} {way:5} {seconds * 1e3:8.1f} {own * 1e3:8.1f} {count / own / 1e6:8.0f} {memory[way]:8}"
                      f" {seconds / least['qemu']:8.2f}", flush=True)


if __name__ == "__main__":
    main()
