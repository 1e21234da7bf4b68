#!/usr/bin/env python3
"""Tries report.py on the reports of examples/ and on one with all kinds of lines."""

import json
import subprocess
import sys
import tempfile
import unittest
from pathlib import Path

HERE = Path(__file__).resolve().parent
EXAMPLES = HERE.parent / "examples"
WHOLE = (
    b"mcreport 1\nend stalled\nguest 1 exit 263\nguest 2 killed 9\nguest 17 running\n"
    b"output 1 9\nend done\n\noutput 2 2\n\xff\x00\ndir /d\nfile /d/a\\x20b\\x5c 3\n\nx\n\nfile /e 0\n\n"
    b"unsent 4\nunsent 6\ncount instructions 9\ncount requests 1\ncount faults 1\ncount rounds 0\ncount free 18\n"
)


def run(*words, data=WHOLE):
    whole = [sys.executable, HERE / "report.py", *map(str, words)]
    return subprocess.run(whole, input=data, capture_output=True)


class Report(unittest.TestCase):
    def test_json(self):
        told = json.loads(run("json").stdout)
        self.assertEqual(told["end"], "stalled")
        self.assertEqual(told["guests"], {"1": {"exit": 263}, "2": {"killed": 9}, "17": {"running": True}})
        self.assertEqual(told["consoles"]["1"], {"length": 9, "text": "end done\n"})
        self.assertEqual(told["consoles"]["2"], {"length": 2, "base64": "/wA="})
        self.assertEqual([f["path"] for f in told["files"]], ["/d", "/d/a b\\", "/e"])
        self.assertEqual((told["files"][0], told["files"][1]["text"]), ({"path": "/d", "dir": True}, "\nx\n"))
        self.assertEqual((told["unsent"], told["counts"]["free"]), ([4, 6], 18))

    def test_examples(self):
        for file in EXAMPLES.glob("*.report"):
            told = json.loads(run("json", file).stdout)
            self.assertEqual(told["end"], "done", file)
        self.assertEqual(run("console", 1, EXAMPLES / "hello.report", "--status", 1).stdout, b"hello")
        self.assertEqual(run("json", EXAMPLES / "exit_seven.report", "--status", 1).returncode, 7)

    def test_files(self):
        with tempfile.TemporaryDirectory() as room:
            folder = Path(room) / "new" / "told"
            self.assertEqual(run("files", folder).returncode, 0)
            found = {str(p.relative_to(folder)): p.read_bytes() for p in folder.rglob("*") if p.is_file()}
            wanted = {"console-1": b"end done\n", "console-2": b"\xff\0", "files/d/a b\\": b"\nx\n", "files/e": b""}
            self.assertEqual(found, wanted)
            self.assertEqual(run("files", folder).returncode, 125)

    def test_no_way_out_of_the_folder(self):
        with tempfile.TemporaryDirectory() as room:
            for path in (b"/../out", b"out", b"//out", b"/a\\x00b"):
                data = WHOLE.replace(b"/e", path)
                self.assertEqual(run("files", f"{room}/{path.hex()}", data=data).returncode, 125, path)
            self.assertEqual(list(Path(room).glob("out")), [])

    def test_statuses(self):
        for guest, status in ((1, 7), (2, 137), (17, 126), (3, 125)):
            self.assertEqual(run("json", "--status", guest).returncode, status)

    def test_refusals(self):
        broken = [b"", b"mctrace 2\n", WHOLE[:-3], WHOLE[:60], WHOLE.replace(b"unsent", b"sent")]
        for data in [*broken, WHOLE.replace(b"output 1 9\n", b"output 1 8\n")]:
            done = run("json", data=data)
            self.assertEqual((done.returncode, done.stdout), (125, b""), data)
            self.assertRegex(done.stderr, rb"^report\.py: .+\n$")
        wrong = [(), ("xml",), ("json", "--status"), ("json", "--status", "x"), ("json", "absent"), ("console", "x")]
        for words in wrong:
            self.assertEqual(run(*words).returncode, 125, words)


if __name__ == "__main__":
    unittest.main()
