#!/usr/bin/env python3
"""Tries install.sh with a false program, the completion of words, and that manual, formats and launcher agree."""

import os
import re
import shutil
import subprocess
import tempfile
import unittest
from pathlib import Path

TOP = Path(__file__).resolve().parent.parent
MANUAL = (TOP / "docs" / "mcexec.1").read_text()
FORMATS = (TOP / "docs" / "FORMATS.md").read_text()
COMPLETED = 'source "$1"; shift; COMP_WORDS=("$@"); COMP_CWORD=$(($# - 1)); _mcexec; printf "%s\\n" "${COMPREPLY[@]}"'


def section(name):
    return FORMATS.split(f"\n## {name}\n")[1].split("\n## ")[0]


class Install(unittest.TestCase):
    def setUp(self):
        room = tempfile.TemporaryDirectory()
        self.addCleanup(room.cleanup)
        self.room = Path(room.name)
        self.top = self.room / "clone"
        for name in ("tools", "docs"):
            shutil.copytree(TOP / name, self.top / name)
        (self.top / "crates").mkdir()
        (self.top / "crates.txt").write_text("")

    def install(self, *words, **env):
        whole = [self.top / "tools" / "install.sh", *words]
        env = {**os.environ, "PATH": "/usr/bin:/bin", **env}
        return subprocess.run(whole, cwd=self.room, env=env, capture_output=True, text=True)

    def built(self, does="echo $#"):
        program = self.top / "crates" / "mcexec" / "out" / "mcexec"
        program.parent.mkdir(parents=True)
        program.write_text(f"#!/bin/sh\n{does}\n")
        program.chmod(0o755)

    def test_no_program(self):
        done = self.install(self.room / "to")
        self.assertEqual((done.returncode, done.stdout), (125, ""))
        self.assertFalse((self.room / "to").exists())

    def test_words(self):
        for words in ((), ("--unproved",), ("to", "x"), ("to", "--unproved", "x")):
            self.assertEqual(self.install(*words).returncode, 125, words)

    def test_all_is_installed(self):
        self.built()
        for to, env in ((self.room / "to", {}), (self.room / "stage" / "usr", {"DESTDIR": str(self.room / "stage")})):
            done = self.install("/usr" if env else "to", **env)
            self.assertEqual((done.returncode, done.stderr), (0, ""))
            found = {str(p.relative_to(to)) for p in to.rglob("*") if p.is_file()}
            wanted = {"bin/mcexec", "lib/mcexec/mcexec", "share/man/man1/mcexec.1", "share/doc/mcexec/FORMATS.md"}
            self.assertLessEqual(wanted | {"share/bash-completion/completions/mcexec"}, found)
            self.assertEqual(set(done.stdout.split()), {str(to / name) for name in found})
            ran = subprocess.run([to / "bin" / "mcexec", "a", "b"], capture_output=True, text=True)
            self.assertEqual((ran.returncode, ran.stdout, ran.stderr), (0, "2\n", ""))

    def test_what_is_installed_stands_alone(self):
        self.built('echo "mcexec: trace line 3" >&2; exit 10')
        to = self.room / "to"
        self.install("to")
        shutil.rmtree(self.top)
        (self.room / "job").write_text("frames 18\nguest hello\n")
        (self.room / "trace").write_text("mctrace 2\nrun 0 1 64\ntrap 01\n")

        def run(*words):
            return subprocess.run(words, cwd=self.room, capture_output=True, text=True)

        ran = run(to / "bin" / "mcexec", "replay", "job", "trace")
        why = 'no entry: the thread is a decimal number without sign or leading zero, here "01"'
        self.assertEqual((ran.returncode, ran.stderr), (10, f"mcexec: trace line 3\n  trace:3: {why}\n"))
        self.assertRegex(run(to / "bin" / "mcexec", "--version").stdout, r"^mcexec .+, proved, built by .+\n$")
        self.assertIn("mcexec walk JOB", run(to / "bin" / "mcexec", "--help").stdout)
        tools = to / "lib" / "mcexec" / "tools"
        for form in ("html", "svg", "json"):
            drawn = run(tools / "trace_view" / "convert.py", form, TOP / "examples" / "hello.trace")
            self.assertEqual((drawn.returncode, drawn.stderr), (0, ""))
        told = run(tools / "report.py", "console", "1", TOP / "examples" / "hello.report")
        self.assertEqual((told.returncode, told.stdout), (0, "hello"))


class Completion(unittest.TestCase):
    def completed(self, *words, folder="/"):
        whole = ["bash", "-c", COMPLETED, "bash", TOP / "tools" / "mcexec.bash", "mcexec", *words]
        return set(subprocess.run(whole, cwd=folder, capture_output=True, text=True).stdout.split("\n")) - {""}

    def test_words(self):
        self.assertEqual(self.completed("w"), {"walk"})
        self.assertEqual(self.completed("grow", "1"), {"1", "16"})
        self.assertEqual(self.completed("walk", "job", "t"), {"trace"})
        self.assertEqual(self.completed("walk", "job", "7", ""), {"trace"})

    def test_files(self):
        with tempfile.TemporaryDirectory() as room:
            (Path(room) / "a job").write_text("# one\nframes 18\nguest a\n")
            (Path(room) / "a image").write_bytes(b"\x7fELF\0")
            (Path(room) / "a folder").mkdir()
            self.assertEqual(self.completed("walk", "a", folder=room), {"a job", "a folder/"})
            self.assertEqual(self.completed("replay", "a job", "a", folder=room), {"a job", "a image", "a folder"})

    def test_all_commands(self):
        commands = set(re.findall(r"^\\fBmcexec (\w+)", MANUAL, re.M))
        self.assertEqual({word for word in self.completed("") if word[0] != "-"}, commands)
        self.assertEqual(set(re.findall(r"^\| `(\w+)", section("Commands"), re.M)), commands)


class Manual(unittest.TestCase):
    def test_it_is_laid_out(self):
        if not shutil.which("groff"):
            self.skipTest("there is no groff to lay the manual out with")
        done = subprocess.run(["groff", "-man", "-ww", "-z", TOP / "docs" / "mcexec.1"], capture_output=True, text=True)
        self.assertEqual((done.returncode, done.stderr), (0, ""))

    def test_keywords_of_a_job(self):
        told = set(re.findall(r"^\| `(\w+)", section("Job"), re.M))
        self.assertEqual(set(re.findall(r'^\.BI (\w+) "', MANUAL, re.M)), told)

    def test_statuses(self):
        rows = re.findall(r"^\| ([0-9][^|]*) \|", section("Statuses"), re.M)
        told = {int(n) for row in rows for n in re.findall(r"\d+", row)} | {77, 125}
        self.assertEqual({int(n) for n in re.findall(r"^\.B (\d+)$", MANUAL, re.M)}, told)

    def test_each_command_has_an_example(self):
        body = MANUAL.split(".SH COMMANDS")[1].split(".SH")[0]
        for command in re.findall(r"^\\fBmcexec (\w+)", MANUAL, re.M):
            self.assertRegex(body, rf"\.B {command}\n(?s:.*?)\.EX\nmcexec {command} ")


if __name__ == "__main__":
    unittest.main()
