"""Reads the report of a run (docs/FORMATS.md, Report).

As a program, report.py FOLDER <REPORT writes each guest's console output to FOLDER/K.out and how it ended to
FOLDER/K.end.
"""
import os
import re
import sys


class Report:
    """How a run ended: `end`, the guests' ends, outputs and the files that are left, and the counts, by their names."""

    def __init__(self, data):
        self.data, self.at = data, 0
        self.ends, self.outputs, self.files, self.folders, self.counts = {}, {}, {}, [], {}
        if self.line() != [b"mcreport", b"1"]:
            raise ValueError("no report")
        self.end = self.line()[1].decode()
        while self.at < len(data):
            words = self.line()
            if words[0] == b"guest":
                self.ends[int(words[1])] = b" ".join(words[2:]).decode()
            elif words[0] == b"output":
                self.outputs[int(words[1])] = self.bytes(int(words[2]))
            elif words[0] == b"dir":
                self.folders.append(path_of(words[1]))
            elif words[0] == b"file":
                self.files[path_of(words[1])] = self.bytes(int(words[2]))
            elif words[0] == b"count":
                self.counts[words[1].decode()] = int(words[2])

    def line(self):
        end = self.data.index(b"\n", self.at)
        words = self.data[self.at : end].split(b" ")
        self.at = end + 1
        return words

    def bytes(self, size):
        found = self.data[self.at : self.at + size]
        self.at += size + 1
        return found


def path_of(word):
    """The path of a word, in which some bytes are written as hexadecimal numbers."""
    return os.fsdecode(re.sub(rb"\\x([0-9a-f]{2})", lambda it: bytes([int(it[1], 16)]), word))


def main():
    report = Report(sys.stdin.buffer.read())
    for guest, end in report.ends.items():
        with open(f"{sys.argv[1]}/{guest}.end", "w") as file:
            file.write(end + "\n")
        with open(f"{sys.argv[1]}/{guest}.out", "wb") as file:
            file.write(report.outputs.get(guest, b""))


if __name__ == "__main__":
    main()
