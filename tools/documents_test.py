#!/usr/bin/env python3
"""Runs the commands that stand in README.md (Start, One run), in docs/GUESTS.md (From a C file to a trace) and in the
manual's examples, in a copy of the repository, in their order: each has to end with 0, and what they leave has to be
what .gitignore has. `rt ci` and the packages' installation are left out.

It ends with 77 where there is no program, or where one of the commands was skipped since a tool is missing.
"""

import os
import re
import shutil
import subprocess
import sys
import tempfile
from pathlib import Path

sys.dont_write_bytecode = True
sys.path.insert(0, str(Path(__file__).resolve().parent))
import programs  # noqa: E402

TOP = programs.TOP
BEGIN = ("(cd ", "./", "examples/", "guest/", "tools/", "python3 ")


def section(document, title):
    return (TOP / document).read_text().split(f"\n## {title}\n")[1].split("\n## ")[0]


def commands(text):
    """The lines of its blocks, which stand four spaces to the right, that are commands."""
    lines = [line[4:].split("  #")[0].strip() for line in text.split("\n") if line.startswith("    ")]
    return [line for line in lines if line.startswith(BEGIN)]


def c_file():
    block = re.search(r"Write `sum.c`:\n\n((?:    .*\n|\n)+)", section("docs/GUESTS.md", "From a C file to a trace"))[1]
    return "".join(line[4:] + "\n" for line in block.rstrip().split("\n"))


def of_manual():
    """The commands of the manual's examples, in the order in which they stand."""
    text = (TOP / "docs" / "mcexec.1").read_text()
    blocks = re.findall(r"\.EX\n(.*?)\.EE", text, re.S) + re.findall(r"\.SH EXAMPLES\n\.nf\n(.*?)\.fi", text, re.S)
    return [line.replace("\\-", "-") for block in blocks for line in block.strip().split("\n")]


def copied(room):
    """A copy of the repository with the program in its place, as one that git knows."""
    top = room / "clone"
    leave = shutil.ignore_patterns("out", "__pycache__", ".git")
    for name in ("docs", "examples", "guest", "tools"):
        shutil.copytree(TOP / name, top / name, ignore=leave)
    for name in ("README.md", "mcexec", "crates.txt", ".gitignore"):
        shutil.copy(TOP / name, top / name)
    for name in ("crates/mcexec/stdout", "crates/guest_image/out/guest_image"):
        if (TOP / name).exists():
            (top / name).parent.mkdir(parents=True, exist_ok=True)
            shutil.copy(TOP / name, top / name)
    (top / "crates" / "mcexec" / "out").mkdir(parents=True)
    (top / "crates" / "mcexec" / "out" / "mcexec").symlink_to(programs.mcexec())
    (top / "sum.c").write_text(c_file())
    git = ["git", "-c", "user.name=one", "-c", "user.email=one", "-c", "commit.gpgsign=false"]
    for words in (["init", "-q"], ["add", "-A"], ["commit", "-q", "-m", "one"]):
        subprocess.run([*git, *words], cwd=top, check=True)
    return top


def tried(command, folder, env):
    """What is wrong with a command, or nothing; and whether it was skipped."""
    ran = subprocess.run(["sh", "-c", command], cwd=folder, env=env, capture_output=True, timeout=programs.seconds())
    said = (ran.stdout + ran.stderr).decode(errors="replace")
    if ran.returncode == 77 and "skipped" in said:
        return "", True
    return (f"status {ran.returncode}: {said.strip()[-300:]}" if ran.returncode else ""), False


def main():
    programs.mcexec()
    wrong = skipped = count = 0
    with tempfile.TemporaryDirectory() as name:
        room = Path(name)
        top = copied(room)
        env = {**os.environ, "PATH": f"{room}/bin:{os.environ['PATH']}", "PYTHONDONTWRITEBYTECODE": "1"}
        (room / "bin").mkdir()
        (room / "bin" / "mcexec").symlink_to(top / "mcexec")
        manual = room / "manual"
        manual.mkdir()
        (manual / "tools").symlink_to(top / "tools")
        shutil.copy(top / "examples" / "hello.job", manual)
        blocks = [section("README.md", it) for it in ("Start", "One run")]
        blocks.append(section("docs/GUESTS.md", "From a C file to a trace"))
        rows = [(command, top) for block in blocks for command in commands(block)]
        rows += [("cp ../clone/examples/hello .", manual), *((command, manual) for command in of_manual())]
        for command, folder in rows:
            said, is_skipped = tried(command.replace("PREFIX", f"{room}/prefix"), folder, env)
            count, wrong, skipped = count + 1, wrong + bool(said), skipped + is_skipped
            print(f"{command}: {said or ('skipped' if is_skipped else 'as it should be')}", flush=True)
        left = subprocess.run(["git", "status", "--short"], cwd=top, capture_output=True, text=True).stdout
        if left:
            wrong += 1
            print(f"left, and not in .gitignore:\n{left}", end="")
    print(f"{count} commands of the documents, {wrong} wrong, {skipped} skipped")
    return 1 if wrong else 77 if skipped else 0


if __name__ == "__main__":
    sys.exit(main())
