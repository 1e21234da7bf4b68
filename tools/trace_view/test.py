#!/usr/bin/env python3
"""Tries convert.py on hello.trace, on made traces and on broken ones. browser_test.py tries its page in a browser."""

import json
import re
import subprocess
import sys
import unittest
import xml.etree.ElementTree as xml
from pathlib import Path

HERE = Path(__file__).resolve().parent
sys.dont_write_bytecode = True
sys.path.insert(0, str(HERE))
import traces  # noqa: E402
from differ import difference_of  # noqa: E402
from made import long_trace  # noqa: E402
from pictures import KIND_OF, Picture  # noqa: E402

HELLO = (HERE / "hello.trace").read_text()
SVG = "{http://www.w3.org/2000/svg}"
ROUND = "mctrace 2\nrun 0 1 8\ntrap 1\nbegin 1\nfetch 1\nmiss 1 0\nack 1\nintake 1\nintake 1\n"


def run(*words, text=None):
    whole = [sys.executable, HERE / "convert.py", *words]
    return subprocess.run(whole, input=text, capture_output=True, text=True)


def picture(text, guests=()):
    return Picture(traces.events_of(text), guests)


class Reading(unittest.TestCase):
    def test_events(self):
        events = traces.events_of(HELLO)
        self.assertEqual(len(events), 17)
        self.assertEqual((events[0].word, events[0].numbers), ("run", (0, 1, 64)))
        self.assertEqual("mctrace 2\n" + "".join(traces.line_of(e) + "\n" for e in events), HELLO)
        self.assertEqual(traces.named(events[0]), {"core": 0, "thread": 1, "steps": 64})

    def test_every_word_has_a_kind(self):
        self.assertEqual(set(KIND_OF), set(traces.NUMBERS))

    def test_words_are_those_of_the_formats(self):
        formats = (HERE.parent.parent / "docs" / "FORMATS.md").read_text().split("\n## Trace\n")[1].split("\n## ")[0]
        told = re.findall(r"`([a-z]+) [A-Z]", formats)
        self.assertEqual(set(told), set(traces.NUMBERS))

    def test_no_events(self):
        self.assertEqual(traces.events_of("mctrace 2\n"), [])
        for form in ("html", "json", "svg"):
            self.assertEqual(run(form, "-", text="mctrace 2\n").returncode, 0)

    def test_broken(self):
        broken = [
            ("", 1), ("mctrace 3\n", 1), ("mctrace 2", 1), ("mctrace 2\ntrap 1", 2), ("mctrace 2\n\n", 2),
            ("mctrace 2\ntrap 01\n", 2), ("mctrace 2\ntrap 1\ntrap\n", 3), ("mctrace 2\ntrap 1 2\n", 2),
            ("mctrace 2\nfetch 1 0\n", 2), ("mctrace 2\ntrap 4294967296\n", 2), ("mctrace 1\nwait 1\n", 2),
            ("mctrace 1\nfetch 1 1\n", 2), ("mctrace 2\ntrap  1\n", 2), ("mctrace 2\nstop 1\n", 2),
        ]  # fmt: skip
        for text, line in broken:
            with self.subTest(text=text), self.assertRaises(traces.BadTrace) as caught:
                traces.events_of(text)
            self.assertEqual(caught.exception.args, (line,))


class Pictures(unittest.TestCase):
    def test_rows(self):
        told = picture("mctrace 2\nrun 1 17 8\ntrap 17\ntrap 2\nwait 17\nwait 2\nfetch 2 1\ncopy 2 3\nscript 0\n")
        wanted = ["core 1", "core 1", "core 0", "kernel of thread 17", "kernel 2", "proxy 2", "worker 2.3", "script"]
        self.assertEqual([row.name for row in told.rows], wanted)

    def test_arrows(self):
        found = [(a.kind, a.first, a.last) for a in picture(HELLO).arrows]
        wanted = [("request", 1, 3), ("request", 3, 4), ("fault", 5, 6), ("fault", 6, 7)]
        wanted += [("row", 7, 9), ("reply", 12, 13)]
        self.assertEqual(found, wanted)

    def test_no_sure_request(self):
        told = picture("mctrace 2\nrun 0 1 8\ntrap 1\nrun 0 17 8\ntrap 17\nfetch 1\nassign 1 0\nact 1 0\n")
        self.assertEqual([(a.first, a.last) for a in told.arrows], [(5, 6)])

    def test_spans(self):
        found = [(s.kind, s.row.name, s.first, s.last, s.ended) for s in picture(HELLO).spans]
        self.assertEqual(found, [("request", "worker 1.0", 3, 12, True), ("pin", "worker 1.0", 9, 11, True)])
        found = [(s.kind, s.row.name, s.first, s.last, s.ended) for s in picture(ROUND).spans]
        self.assertEqual(found, [("round", "kernel 1", 2, 7, True)])  # the first intake takes the fault
        cut = picture("mctrace 2\nassign 1 0\npin 1 0\nbegin 1\n").spans
        self.assertEqual({(s.kind, s.last, s.ended) for s in cut}, {(k, 2, False) for k in ("request", "pin", "round")})

    def test_a_round_of_a_later_thread(self):
        one = picture("mctrace 2\nbegin 20\nfetch 1\nack 1\nintake 1\n")
        self.assertEqual([(s.row.name, s.first, s.last) for s in one.spans], [("kernel 1", 0, 3)])
        two = picture("mctrace 2\nbegin 20\nbegin 21\nack 1\nintake 1\n")
        self.assertEqual(two.spans, [])

    def test_names(self):
        told = picture(HELLO, ("hello",))
        self.assertEqual(told.thread_name(1), "thread 1 (hello)")
        self.assertEqual(told.told(told.events[1]), {"thread": 1, "guest": "hello", "call": "delegated call"})
        self.assertNotIn("call", told.told(told.events[15]))


class Forms(unittest.TestCase):
    def test_json(self):
        done = run("json", HERE / "hello.trace")
        self.assertEqual((done.returncode, done.stderr), (0, ""))
        items = json.loads(done.stdout)["traceEvents"]
        slices = [i for i in items if i["ph"] == "X"]
        events = [i for i in slices if i["cat"] != "span"]
        self.assertEqual([i["name"] for i in events], [line.split(" ")[0] for line in HELLO.split("\n")[1:-1]])
        self.assertEqual(events[0]["args"], {"core": 0, "thread": 1, "steps": 64, "line": 2})
        spans = [(i["name"], i["ts"], i["dur"]) for i in slices if i["cat"] == "span"]
        self.assertEqual(spans, [("request", 3, 10), ("pin", 9, 3)])
        rows = {i["args"]["name"] for i in items if i["ph"] == "M" and i["name"] == "thread_name"}
        self.assertEqual(rows, {"core 0", "kernel 1", "proxy 1", "worker 1.0"})
        begun, ended = (sorted(i["id"] for i in items if i["ph"] == end) for end in "sf")
        self.assertEqual(begun, ended)

    def test_slices_are_nested(self):
        items = json.loads(run("json", "-", text=long_trace(2000)).stdout)["traceEvents"]
        for row in {(i["pid"], i["tid"]) for i in items}:
            ends = []
            slices = [(i["ts"], i["dur"]) for i in items if i["ph"] == "X" and (i["pid"], i["tid"]) == row]
            for ts, dur in sorted(slices, key=lambda s: (s[0], -s[1])):
                while ends and ends[-1] <= ts:
                    ends.pop()
                self.assertLessEqual(ts + dur, ends[-1] if ends else ts + dur)
                ends.append(ts + dur)

    def test_svg(self):
        done = run("svg", "-", text=HELLO)
        self.assertEqual((done.returncode, done.stderr), (0, ""))
        drawn = xml.fromstring(done.stdout)
        titles = [t.text for t in drawn.findall(f"{SVG}rect/{SVG}title")]
        self.assertEqual(titles, [f"line {n + 2}: {line}" for n, line in enumerate(HELLO.split("\n")[1:-1])])
        self.assertEqual(len(drawn.findall(f"{SVG}path")), 6)
        spans = [t.text for t in drawn.findall(f"{SVG}g/{SVG}title")]
        self.assertEqual(spans, ["request, lines 5 to 14", "pin, lines 11 to 13"])
        self.assertNotIn("href", done.stdout)

    def test_windows(self):
        cut = run("svg", HERE / "hello.trace", "--lines", "5..8")
        titles = [t.text for t in xml.fromstring(cut.stdout).findall(f"{SVG}rect/{SVG}title")]
        self.assertEqual(titles, ["line 5: assign 1 0", "line 6: act 1 0", "line 7: miss 1 0", "line 8: intake 1"])
        cut = json.loads(run("json", HERE / "hello.trace", "--lines", "12..").stdout)["traceEvents"]
        spans = [(i["name"], i["ts"], i["dur"]) for i in cut if i["ph"] == "X" and i["cat"] == "span"]
        self.assertEqual(spans, [("request", 10, 3), ("pin", 10, 2)])
        self.assertEqual(run("json", HERE / "hello.trace", "--lines", "x").returncode, 2)
        self.assertEqual(run("json", HERE / "hello.trace", "--job").returncode, 2)

    def test_html(self):
        done = run("html", HERE / "hello.trace", "--job", HERE.parent.parent / "examples" / "hello.job")
        self.assertEqual((done.returncode, done.stderr), (0, ""))
        self.assertNotRegex(done.stdout, r"(src|href)=|https?:|@[A-Z]+@")
        data = json.loads(re.search(r'type="application/json">(.*?)</script>', done.stdout, re.S)[1])
        self.assertEqual((len(data["events"]), data["guests"], data["line"]), (17, ["hello"], 2))
        self.assertEqual([s[0] for s in data["spans"]], ["request", "pin"])
        self.assertEqual(data["rows"], [["core 0", 0], ["kernel 1", 1], ["proxy 1", 1], ["worker 1.0", 1]])

    def test_ends(self):
        self.assertEqual(run("png", "x").returncode, 2)
        self.assertEqual(run("json", HERE / "no.trace").returncode, 1)
        bad = run("json", "-", text="mctrace 2\ntrap\n")
        self.assertEqual((bad.returncode, bad.stdout, bad.stderr), (1, "", "convert.py: trace line 2\n"))


class Differing(unittest.TestCase):
    def test_same(self):
        done = run("diff", HERE / "hello.trace", HERE / "hello.trace")
        self.assertEqual((done.returncode, done.stdout), (0, "the same 17 events\n"))

    def test_first_difference(self):
        lines = HELLO.split("\n")
        other = "\n".join([*lines[:11], "unpin 1 0", *lines[12:]])
        text, same = difference_of(traces.events_of(HELLO), traces.events_of(other), ("a", "b"))
        self.assertFalse(same)
        wanted = [
            "the first 10 events are the same; the first difference is in line 12",
            "< copy 1 0    (worker 1.0, of a)",
            "    before it in that row: line 11: pin 1 0",
            "    within a request from line 5",
            "    within a pin from line 11",
            "> unpin 1 0    (worker 1.0, of b)",
        ]
        self.assertEqual(text.split("\n")[:6], wanted)
        self.assertEqual(text.split("\n")[-2], "  line 11: pin 1 0")

    def test_one_ends(self):
        events = traces.events_of(HELLO)
        text, same = difference_of(events[:3], events, ("a", "b"))
        self.assertEqual((text.split("\n")[1], same), ("< a ends before it", False))
        self.assertEqual(run("diff", HERE / "hello.trace", "-", text="mctrace 2\n").returncode, 1)


if __name__ == "__main__":
    unittest.main()
