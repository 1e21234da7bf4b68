#!/usr/bin/env python3
"""Tells what stands behind a status of mcexec, and what would be right: explain.py STATUS PROGRAM WORD..

The words are the command's, and standard input has what the program wrote on standard error. It looks at the files that
the words and the job name, and where a run wasn't done at its trace: the one of the words, or that of a walk, which it
makes once more. tools/start.sh, which calls it, indents nothing and adds nothing: all that is told is printed here.
"""

import os
import re
import stat
import subprocess
import sys
from pathlib import Path

HERE = Path(__file__).resolve().parent
sys.dont_write_bytecode = True
sys.path.insert(0, str(HERE.parent / "trace_view"))
from events import RULES, Followed  # noqa: E402
from images import OF_BOOT, Image, told_of_image  # noqa: E402
from jobs import HEADS, Job, told_of_job  # noqa: E402
from traces import BadTrace, event_of, why_no_entry  # noqa: E402

MOST_OF_HOST, MOST_OF_LINE = 67_108_864, 1_048_576
SECONDS = 20  # how long a second walk may take


def bytes_of(name):
    """The bytes of a regular file, or None: a pipe was read by the program already."""
    try:
        if not stat.S_ISREG(os.stat(name).st_mode) or os.stat(name).st_size > MOST_OF_HOST:
            return None
        return Path(name).read_bytes()
    except OSError:
        return None


def unread(name, where):
    """Why the host can't read a file, or None. Only a regular file is opened, since another may wait or lose bytes."""
    told = f'cannot read "{name}"{where}: '
    try:
        it = os.stat(name)
        if stat.S_ISDIR(it.st_mode):
            return told + "it is a folder"
        if not stat.S_ISREG(it.st_mode):
            return f"{told}it has no end within {MOST_OF_HOST:,} bytes" if stat.S_ISCHR(it.st_mode) else None
        with open(name, "rb"):
            pass
    except (OSError, ValueError) as error:
        return told + (getattr(error, "strerror", None) or str(error))
    return f"{told}it has over {MOST_OF_HOST:,} bytes" if it.st_size > MOST_OF_HOST else None


class Told:
    """What is told of one call: its status, its words, and what the program said."""

    def __init__(self, status, program, words, said):
        self.status, self.program, self.words, self.said = status, program, words, said
        self.name = words[1] if len(words) > 1 and words[0] != "grow" else None
        data = bytes_of(self.name) if self.name else None
        self.data, self.job = data, Job(data) if data is not None else None

    def lines(self):
        names = {1: "stalled", 3: "job", 4: "elf", 5: "frames", 6: "limit", 7: "host", 8: "sink", 9: "memory"}
        names |= {10: "trace", 11: "unfinished", 12: "long"}
        return getattr(self, f"of_{names[self.status]}")()

    def at(self, line):
        return f"{self.name}:{line}"

    # ---- refusals

    def of_job(self):
        return told_of_job(self.name, self.data, self.said) if self.job else []

    def of_elf(self):
        found = re.search(r"guest (\d+) elf (\w+)(.*)", self.said)
        if not found or not self.job:
            return []
        name, line = self.job.guests()[int(found[1]) - 1]
        data = bytes_of(name)
        if data is None:
            return []
        return [f'{self.at(line)}: guest {found[1]} "{name}": {told_of_image(data, found[2], found[3].split())}']

    def of_frames(self):
        if not self.job:
            return []
        images = [bytes_of(name) for name, _ in self.job.guests()]
        if None in images:
            return []
        need = sum(Image(data).pages() + OF_BOOT for data in images)
        line = self.job.numbers("frames")[0]
        told = f"frames {self.job.value('frames', 0)} are too few: the guests need {need} for their boot"
        return [f"{self.at(line)}: {told}, of at most 16000"]

    def of_host(self):
        names = [(self.name, "")]
        if self.job:
            names += [(name, f" (job line {n})") for name, n in self.job.sources()]
        if self.words[0] in ("replay", "audit"):
            names.append((self.words[2], ""))
        told = next(filter(None, (unread(name, where) for name, where in names)), None)
        if told is None:
            return ["each file can be read now, so one could not be read then"]
        folder = os.path.dirname(self.name)
        if any(not os.path.exists(name) and os.path.exists(os.path.join(folder, name)) for name, _ in names[1:]):
            return [told, f'names are looked up in the working folder and not beside the job: begin in "{folder}"']
        return [told]

    def of_long(self):
        found = re.search(r"file line (\d+) too long", self.said)
        if not found or not self.job:
            return []
        name = dict((n, name) for name, n in self.job.sources())[int(found[1])]
        size = os.stat(name).st_size
        return [f'{self.at(found[1])}: "{name}" has {size:,} bytes: at most {MOST_OF_LINE:,}']

    def of_sink(self):
        return ["standard output took the front of the text alone: a full disk, or a pipe whose reader has ended"]

    def of_memory(self):
        frames = self.job.value("frames", 0) if self.job else 0
        return [f"the job's {frames:,} frames of 4,096 bytes have to fit, and its files and images: see ulimit -v"]

    # ---- traces

    def of_trace(self):
        found, data = re.search(r"trace line (\d+)", self.said), bytes_of(self.words[2])
        if not found or data is None:
            return []
        number, name = int(found[1]), self.words[2]
        lines = data.decode("latin-1").split("\n")
        kind = next((kind for head, kind in HEADS.items() if data.startswith(head)), "")
        if number == 1:
            told = f"this is {kind}, and no trace" if kind not in ("", "a trace") else "a trace begins with mctrace 2"
            return [f"{name}:1: {told}"]
        if number == len(lines):
            return [f"{name}:{number}: no line feed ends the last line: the trace was cut off"]
        text, version = lines[number - 1], 1 if lines[0] == "mctrace 1" else 2
        why = why_no_entry(text, version)
        if why:
            return [f"{name}:{number}: no entry: {why}"]
        event = event_of(text, number - 2, version)
        told = [f"{name}:{number}: {text} may not happen behind the {number - 2} events before it"]
        known = self.followed(lines[: number - 1], version).refusal(event)
        if known:
            told.append(known)
        told.append(f"{event.word} may happen where {RULES[event.word]}")
        return told

    def followed(self, lines, version=2):
        followed = Followed(self.job)
        for place, line in enumerate(lines[1:]):
            followed.take(event_of(line, place, version))
        return followed

    # ---- runs that aren't done

    def trace(self):
        """The lines of the trace of the run, or None."""
        if self.words[0] in ("replay", "audit"):
            data = bytes_of(self.words[2])
        elif self.words[0] == "walk":
            order = [word for word in self.words[2:] if word != "trace"]
            whole = [self.program, "walk", self.name, *order, "trace"]
            try:
                ran = subprocess.run(whole, stdout=subprocess.PIPE, stderr=subprocess.DEVNULL, timeout=SECONDS)
            except subprocess.TimeoutExpired:
                return None
            data = ran.stdout
        else:
            data = None
        lines = data.decode("latin-1").split("\n")[:-1] if data else None
        return lines if lines and lines[0].startswith("mctrace") else None

    def waiting(self):
        lines = self.trace()
        if lines is None and self.words[0] == "run":
            return [f"what each thread waits for: mcexec run {self.name} trace >T, then mcexec replay {self.name} T"]
        if lines is None:
            return [f"what each thread waits for isn't told: another walk takes over {SECONDS} seconds"]
        version = 1 if lines[0] == "mctrace 1" else 2
        return self.followed(lines, version).waiting()

    def of_stalled(self):
        return ["stalled: no event may happen any more, and processes live that wait for one another", *self.waiting()]

    def of_limit(self):
        if not self.job:
            return []
        lines = self.job.numbers("limit")
        where = f"{self.at(lines[0])}: " if lines else ""
        limit = self.job.value("limit", 1_000_000)
        more = "" if limit == 4_000_000 else ": a line limit N gives up to 4000000"
        return [f"{where}the {limit:,} instructions of the limit are used up{more}", *self.waiting()]

    def of_unfinished(self):
        return ["the trace ends where events may still happen", *self.waiting()]


def main(words):
    if len(words) < 3 or not words[0].isdecimal():
        print(__doc__, file=sys.stderr)
        return 2
    told = Told(int(words[0]), words[1], words[2:], sys.stdin.buffer.read().decode(errors="replace"))
    try:
        lines = told.lines()
    except (OSError, ValueError, LookupError, BadTrace) as error:
        lines = [f"more can't be told: {error!r}"]
    for line in lines:
        print("  " + line)
    return 0


if __name__ == "__main__":
    sys.exit(main(sys.argv[1:]))
