#!/usr/bin/env python3
"""Takes a report apart (docs/FORMATS.md, Report), as `mcexec walk`, `replay` and `audit` write it.

    report.py json [REPORT]             the report as JSON: bytes as `text` where they are UTF-8, else as `base64`
    report.py files FOLDER [REPORT]     consoles into FOLDER/console-K, and the tree of files into FOLDER/files;
                                        FOLDER is made, or is empty
    report.py console K [REPORT]        the console output of process K, byte for byte, on standard output

Without REPORT, or with `-`, the report is standard input. One option may follow:

    --status K      ends as process K ended: with its exit code's low 8 bits, with 128 + S where signal S killed it, and
                    with 126 where it still runs

Else it ends with 0. What fails here is told in one line on standard error, and ends with 125.

    mcexec walk hello.job | tools/report.py console 1 --status 1
"""

import base64
import json
import os
import re
import sys
from pathlib import Path

ENDS = (b"done", b"stalled", b"limit", b"unfinished")


class Broken(Exception):
    pass


class Reader:
    def __init__(self, data):
        self.data, self.at = data, 0

    def line(self):
        """The next line without its line feed, or None at the end."""
        if self.at == len(self.data):
            return None
        end = self.data.find(b"\n", self.at)
        if end < 0:
            raise Broken(f"byte {self.at}: no line feed ends the last line")
        found, self.at = self.data[self.at : end], end + 1
        return found

    def bytes(self, count):
        """So many bytes and the line feed behind them."""
        found, self.at = self.data[self.at : self.at + count], self.at + count + 1
        if len(found) < count or self.data[self.at - 1 : self.at] != b"\n":
            raise Broken(f"byte {self.at}: the {count} bytes that a line tells of aren't there")
        return found


def path_of(word):
    """The bytes of a path, in which a backslash begins two hexadecimal digits."""
    return re.sub(rb"\\x([0-9a-f]{2})", lambda found: bytes.fromhex(found[1].decode()), word)


def end_of(words):
    if words[1:] == [b"running"]:
        return {"running": True}
    if len(words) == 3 and words[1] == b"exit":
        return {"exit": int(words[2])}
    if len(words) == 3 and words[1] == b"killed":
        return {"killed": int(words[2])}
    raise ValueError


def read_line(words, reader, told):
    kind, *rest = words
    if kind == b"end" and rest[0] in ENDS:
        (told["end"],) = (word.decode() for word in rest)
    elif kind == b"guest":
        told["guests"][int(rest[0])] = end_of(rest)
    elif kind == b"output":
        guest, count = map(int, rest)
        told["consoles"][guest] = reader.bytes(count)
    elif kind == b"dir":
        (path,) = rest
        told["files"][path_of(path)] = None
    elif kind == b"file":
        path, count = rest
        told["files"][path_of(path)] = reader.bytes(int(count))
    elif kind == b"unsent":
        told["unsent"].append(int(*rest))
    elif kind == b"count":
        name, number = rest
        told["counts"][name.decode()] = int(number)
    else:
        raise ValueError


def report_of(data):
    """The report: its ending, guests, consoles, files (None: a directory), unsent lines and counts."""
    reader = Reader(data)
    if reader.line() != b"mcreport 1":
        raise Broken("line 1 isn't `mcreport 1`, so this is no report")
    told = {"end": None, "guests": {}, "consoles": {}, "files": {}, "unsent": [], "counts": {}}
    while (line := reader.line()) is not None:
        try:
            read_line(line.split(b" "), reader, told)
        except (ValueError, IndexError):
            raise Broken(f"no line of a report: {line[:60]!r}") from None
    if told["end"] is None or "free" not in told["counts"]:
        raise Broken("the report is cut short")
    return told


def plain(data):
    try:
        return {"text": data.decode()}
    except UnicodeDecodeError:
        return {"base64": base64.b64encode(data).decode()}


def json_of(told):
    files = []
    for path, data in told["files"].items():
        kind = {"dir": True} if data is None else {"length": len(data)} | plain(data)
        files.append({"path": path.decode(errors="backslashreplace")} | kind)
    consoles = {guest: {"length": len(data)} | plain(data) for guest, data in told["consoles"].items()}
    whole = told | {"files": files, "consoles": consoles}
    return json.dumps(whole, indent=1) + "\n"


def write_files(told, folder):
    """The consoles and the files of a report into a folder that is new or empty."""
    folder = Path(folder)
    folder.mkdir(parents=True, exist_ok=True)
    if any(folder.iterdir()):
        raise Broken(f"{folder} isn't empty")
    for guest, data in told["consoles"].items():
        (folder / f"console-{guest}").write_bytes(data)
    root = os.fsencode(folder / "files")
    os.mkdir(root)
    for path, data in told["files"].items():
        names = path.split(b"/")[1:]
        if path == b"/":
            continue
        if not path.startswith(b"/") or any(name in (b"", b".", b"..") for name in names) or b"\0" in path:
            raise Broken(f"no path of a tree: {path[:60]!r}")
        place = os.path.join(root, *names)
        os.makedirs(os.path.dirname(place) if data is not None else place, exist_ok=True)
        if data is not None:
            with open(place, "wb") as file:
                file.write(data)


def status_of(told, guest):
    end = told["guests"].get(guest)
    if end is None:
        raise Broken(f"the report has no process {guest}")
    if "running" in end:
        return 126
    return end["exit"] & 255 if "exit" in end else 128 + end["killed"]


def taken_status(words):
    """The words without `--status K`, and K or None."""
    if "--status" not in words:
        return words, None
    at = words.index("--status")
    if not re.fullmatch(r"[0-9]+", "".join(words[at + 1 : at + 2])):
        raise Broken("--status takes the number of a process")
    return words[:at] + words[at + 2 :], int(words[at + 1])


def run(words):
    words, guest = taken_status(words)
    counts = {"json": 1, "files": 2, "console": 2}
    own = counts.get(words[0] if words else "", 0)
    if not own or not own <= len(words) <= own + 1 or words[0] == "console" and not words[1].isdecimal():
        raise Broken("the words fit nothing; report.py --help tells which do")
    name = words[own] if len(words) > own else "-"
    data = sys.stdin.buffer.read() if name == "-" else Path(name).read_bytes()
    told = report_of(data)
    if words[0] == "json":
        sys.stdout.write(json_of(told))
    elif words[0] == "files":
        write_files(told, words[1])
    elif int(words[1]) not in told["consoles"]:
        raise Broken(f"the report has no console of {words[1]}")
    else:
        sys.stdout.buffer.write(told["consoles"][int(words[1])])
    sys.stdout.flush()
    return 0 if guest is None else status_of(told, guest)


def main(words):
    if words in (["-h"], ["--help"]):
        print(__doc__)
        return 0
    try:
        return run(words)
    except (Broken, OSError) as bad:
        print(f"report.py: {bad}", file=sys.stderr)
        return 125


if __name__ == "__main__":
    sys.exit(main(sys.argv[1:]))
