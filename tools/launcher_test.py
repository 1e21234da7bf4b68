#!/usr/bin/env python3
"""Tries the launcher ./mcexec, in a copy with a false program or a false rt: what it builds, keeps, passes on."""

import os
import shutil
import subprocess
import sys
import tempfile
import unittest
from pathlib import Path

TOP = Path(__file__).resolve().parent.parent
# a program that tells its words and its folder, and reads the job where it is a pipe; no status of mcexec's is 40
PROGRAM = '#!/bin/sh\necho "$#: $*"\npwd\n[ "$1" != check ] || cat "$2"\nexit 40\n'
# an rt that "builds" that program and runs it, as rt try does, in a folder below TMPDIR
RT = """#!/bin/sh
[ "$1" != version ] || {{ echo a tool-kit; exit; }}
echo "$*" >>"{top}/rt-words"
[ ! -e "{top}/broken" ] || {{ echo "rt: refused" >&2; exit 1; }}
mkdir -p "$TMPDIR/rt-try/run"
cp "{top}/source" "$TMPDIR/rt-try/run/program"
chmod +x "$TMPDIR/rt-try/run/program"
shift 2
"$TMPDIR/rt-try/run/program" "$@"
"""


class Launcher(unittest.TestCase):
    def setUp(self):
        self.room = tempfile.TemporaryDirectory()
        self.addCleanup(self.room.cleanup)
        self.top = Path(self.room.name) / "a clone"
        self.crate = self.top / "crates" / "mcexec"
        (self.crate / "src").mkdir(parents=True)
        (self.crate / "src" / "main.rt").write_text("one\n")
        (self.top / "crates.txt").write_text("mcexec:\n")
        (self.top / "tools").mkdir()
        for name in ("mcexec", "tools/program.sh", "tools/start.sh", "tools/words.sh"):
            shutil.copy(TOP / name, self.top / name)
        for name in ("explain", "trace_view"):
            shutil.copytree(TOP / "tools" / name, self.top / "tools" / name)
        (self.top / "source").write_text(PROGRAM)
        self.here = Path(self.room.name) / "here"
        (self.here / "sub").mkdir(parents=True)
        (self.here / "sub" / "job").write_text("frames 18\n")
        (self.here / "a=b").write_text("")

    def add(self, file, text):
        file.parent.mkdir(parents=True, exist_ok=True)
        file.write_text(text)
        file.chmod(0o755)

    def run_it(self, *words, rt=True, given=""):
        binaries = Path(self.room.name) / "bin"
        if rt:
            self.add(binaries / "rt", RT.format(top=self.top))
        else:
            shutil.rmtree(binaries, ignore_errors=True)
        path = os.pathsep.join([str(binaries), "/usr/bin", "/bin"])
        whole = [self.top / "mcexec", *words]
        env = {**os.environ, "PATH": path, "TMPDIR": self.room.name}
        return subprocess.run(whole, cwd=self.here, env=env, input=given, capture_output=True, text=True, timeout=60)

    def builds(self):
        file = self.top / "rt-words"
        return len(file.read_text().splitlines()) if file.exists() else 0

    def test_the_proved_program_gets_all_words(self):
        self.add(self.crate / "out" / "mcexec", PROGRAM)
        for words in (("walk", "a b", ""), ("--help", "x"), ()):
            ran = self.run_it(*words)
            self.assertEqual((ran.returncode, ran.stderr), (40, ""))
            self.assertEqual(ran.stdout, f"{len(words)}: {' '.join(words)}\n{self.here}\n")
        self.assertEqual(self.builds(), 0)

    def test_help_and_version(self):
        for word, told in (("-h", "mcexec walk JOB"), ("--help", "mcexec grow N"), ("--version", "not built yet")):
            ran = self.run_it(word)
            self.assertEqual((ran.returncode, ran.stderr), (0, ""))
            self.assertIn(told, ran.stdout)
        self.assertEqual(self.builds(), 0)
        self.run_it("walk", "sub/job")
        self.assertRegex(self.run_it("--version").stdout, "^mcexec .*, unproved, built by a tool-kit\n$")
        self.add(self.crate / "out" / "mcexec", PROGRAM)
        self.assertRegex(self.run_it("--version").stdout, "^mcexec .*, proved, built by a tool-kit\n$")

    def test_streams_and_statuses_are_the_programs(self):
        text = '#!/bin/sh\ncat\necho out\necho "mcexec: one\n\ntwo" >&2\n[ "$1" != kill ] || kill -9 $$\nexit "$1"\n'
        self.add(self.crate / "out" / "mcexec", text)
        for word, status in (("0", 0), ("8", 8), ("125", 125), ("kill", 137)):
            ran = self.run_it(word, given="in\n")
            self.assertEqual((ran.returncode, ran.stdout), (status, "in\nout\n"))
            more = "  standard output took the front" if word == "8" else "$"
            self.assertRegex(ran.stderr, f"^mcexec: one\n\ntwo\n{more}")

    def test_a_status_is_told_of(self):
        self.add(self.crate / "out" / "mcexec", '#!/bin/sh\necho "mcexec: no memory" >&2\nexit 9\n')
        told = "  the job's 18 frames of 4,096 bytes have to fit, and its files and images: see ulimit -v\n"
        self.assertEqual(self.run_it("walk", "sub/job").stderr, f"mcexec: no memory\n{told}")

    def test_without_setpriv(self):
        self.add(Path(self.room.name) / "bin" / "setpriv", "#!/bin/sh\nexit 1\n")
        self.add(self.crate / "out" / "mcexec", '#!/bin/sh\necho "mcexec: no memory" >&2\nexit 9\n')
        ran = self.run_it("walk", "sub/job")
        self.assertEqual((ran.returncode, ran.stderr), (9, "mcexec: no memory\n"))

    def test_the_program_ends_with_the_launcher(self):
        self.add(self.crate / "out" / "mcexec", "#!/bin/sh\necho $$\nexec sleep 100\n")
        whole = subprocess.Popen([self.top / "mcexec", "walk", "sub/job"], cwd=self.here, stdout=subprocess.PIPE)
        with whole.stdout as output:
            self.assertNotEqual(output.readline(), b"")
            whole.kill()
            whole.wait()
            self.assertEqual(output.read(), b"")  # until nobody has it open any more

    def test_one_build_is_kept_and_named(self):
        first = self.run_it("walk", "sub/job")
        self.assertEqual((first.returncode, first.stdout), (40, f"2: walk sub/job\n{self.here}\n"))
        self.assertIn("mcexec: builds the program without its proof", first.stderr)
        second = self.run_it("walk", "sub/job", "7")
        self.assertEqual((second.returncode, second.stdout), (40, f"3: walk sub/job 7\n{self.here}\n"))
        self.assertEqual(second.stderr.count("\n"), 1)
        self.assertIn("an unproved build", second.stderr)
        self.assertEqual(self.builds(), 1)
        self.assertEqual(list(Path(self.room.name).glob("tmp.*")), [])
        (self.crate / "src" / "main.rt").write_text("two\n")
        self.assertEqual(self.run_it("walk", "sub/job").returncode, 40)
        self.assertEqual(self.builds(), 2)
        self.add(self.crate / "out" / "mcexec", PROGRAM)
        self.assertEqual(self.run_it("walk", "sub/job").stderr, "")

    def test_words_are_looked_at_before_a_build(self):
        wrong = [(), ("walk",), ("walk", "sub/job", "x"), ("walk", "sub/job", "01"), ("walk", "sub/job", "trace", "1")]
        wrong += [("grow",), ("grow", "0"), ("grow", "17"), ("replay", "sub/job"), ("check", "sub/job", "x"), ("frob",)]
        wrong.append(("walk", "absent"))
        for words in [*wrong, ("audit", "sub/job", "absent")]:
            with self.subTest(words=words):
                ran = self.run_it(*words)
                self.assertEqual((ran.returncode, ran.stdout), (125, ""))
                self.assertIn("nothing was built", ran.stderr)
        self.assertEqual(self.builds(), 0)

    def test_failures_end_with_125(self):
        ran = self.run_it("walk", "sub/job", rt=False)
        self.assertEqual((ran.returncode, ran.stdout), (125, ""))
        self.assertIn("no rt", ran.stderr)
        (self.top / "broken").write_text("")
        ran = self.run_it("walk", "sub/job")
        self.assertEqual((ran.returncode, ran.stdout), (125, ""))
        self.assertIn("rt: refused\nmcexec: the program wasn't built: rt try ended with status 1", ran.stderr)
        self.assertEqual(list(Path(self.room.name).glob("tmp.*")), [])

    def test_the_commands_are_those_of_the_manual(self):
        (self.here / "trace").write_text("")
        for line in (TOP / "docs" / "mcexec.1").read_text().split(".SH SYNOPSIS")[1].split(".SH")[0].splitlines():
            words = line.replace("\\fB", "").replace("\\fI", "").replace("\\fR", "").split()
            if len(words) > 1 and words[1].isalpha() and words[1].islower():
                given = {"JOB": "sub/job", "TRACE": "trace", "N": "3", "[ORDER]": "7", "[trace]": "trace"}
                ran = self.run_it(*[given.get(word, word) for word in words[1:]])
                self.assertEqual(ran.returncode, 40, line)


class Scripts(unittest.TestCase):
    def test_skipped_is_77(self):
        """Without a program and an rt, each script that needs one says so, and ends with 77."""
        with tempfile.TemporaryDirectory() as room:
            for name in ("examples", "tools", "mcexec"):
                copy = shutil.copytree if (TOP / name).is_dir() else shutil.copy
                copy(TOP / name, f"{room}/{name}")
            env = {**os.environ, "PATH": f"{Path(sys.executable).parent}:/usr/bin:/bin"}
            if shutil.which("rt", path=env["PATH"]):
                self.skipTest("rt stands among the system's programs")
            for words in (["examples/try.sh"], [sys.executable, "tools/worked_rows/run.py"],
                          [sys.executable, "tools/worked_rows/commands.py"], ["examples/make_images.sh"]):  # fmt: skip
                ran = subprocess.run(words, cwd=room, env=env, capture_output=True, text=True, timeout=60)
                self.assertEqual(ran.returncode, 77, words)
                self.assertIn("skipped", ran.stdout)
            for words in ([], ["absent"], ["hello"]):
                whole = ["examples/walk.sh", *words]
                ran = subprocess.run(whole, cwd=room, env=env, capture_output=True, text=True, timeout=60)
                self.assertEqual((ran.returncode, ran.stdout), (125, ""))
                self.assertRegex(ran.stderr, "usage: walk.sh NAME|no rt to build it with")


if __name__ == "__main__":
    unittest.main()
