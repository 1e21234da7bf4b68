#!/usr/bin/env python3
"""Tries wrong variants of the definitions: under each, a law of hybrid_laws has to fail.

    run.py              all variants
    run.py NAME..       these (the names of the files beside this script, without .txt)
    run.py --some N     N of them, others for each day: the gate's script tries a few in turn
    run.py --unchanged  the files of those laws under the definitions as they are: all have to be proved

Each variant is checked in one crate, made for it: the definitions that it changes and those above them, the law's file, and the files that this uses. The crates below are
those of this checkout, with the libraries that earlier checks built there.
"""

import re
import shutil
import subprocess
import sys
import tempfile
from dataclasses import dataclass
from datetime import date
from pathlib import Path

HERE = Path(__file__).resolve().parent
TOP = HERE.parent.parent
LAWS = "hybrid_laws"
# crates of definitions, each above the one before it
DEFINITIONS = ["kernel_model", "hybrid_model"]
ROOT = """//! One law of the two kernels, and the laws that it uses.
#![tactic(auto)]

ghost use Rattle.std.specs.Prelude.{◌≡◌};

/// The number of laws that are tried.
pub fn laws() -> u32
    ensures { result ≡ 1 }
{
    1
}
"""


@dataclass
class Variant:
    title: str
    what: str
    file: str
    law: str
    pairs: list


@dataclass
class Error:
    file: str
    line: int
    text: str


def read_variant(path):
    """The variant that a text tells: lines `word: rest`, where each `old` is followed by its `new`."""
    lines = [line.split(": ", 1) for line in path.read_text().splitlines()]
    words = dict(lines)
    old = [rest for word, rest in lines if word == "old"]
    new = [rest for word, rest in lines if word == "new"]
    return Variant(words["name"], words["what"], words["file"], words["law"], list(zip(old, new, strict=True)))


def variants():
    return {path.stem: read_variant(path) for path in sorted(HERE.glob("*.txt"))}


def dependencies():
    """The crates of the repository that hybrid_laws stands on, with their lines of crates.txt."""
    lines = {line.split(":")[0].split()[0]: line for line in (TOP / "crates.txt").read_text().splitlines() if ":" in line}
    found, open_names = {}, [LAWS]
    while open_names:
        name = open_names.pop()
        if name in lines and name not in found:
            found[name] = lines[name]
            open_names += lines[name].split(":", 1)[1].split()
    return found


def files_used(law):
    """The law's file and those of its crate that it uses, as paths in the crate without their endings, each folder's in the order of their names."""
    crate = TOP / "crates" / LAWS
    found, open_names = set(), [f"proofs/{law}"]
    while open_names:
        name = open_names.pop()
        if name not in found:
            found.add(name)
            used = re.findall(rf"^(?:pub )?use Rattle\.{LAWS}\.((?:specs|proofs)(?:\.\w+)+)", (crate / f"{name}.antt").read_text(), re.M)
            open_names += [path.replace(".", "/") for path in used]
    return sorted(found)


def make_workspace(top):
    """A copy of the definitions, with the libraries that earlier checks of this checkout built, and a crate of laws that has no file yet."""
    lines = dependencies()
    for name in lines:
        if name != LAWS:
            shutil.copytree(TOP / "crates" / name, top / "crates" / name, ignore=shutil.ignore_patterns("must-fail", "incremental", "*.log"))
    for folder in ("src", "specs", "proofs"):
        (top / "crates" / LAWS / folder).mkdir(parents=True)
    (top / "crates" / LAWS / "src" / "lib.rt").write_text(ROOT)
    (top / "crates.txt").write_text("".join(line + "\n" for line in lines.values()))
    shutil.copy(TOP / "HANDLES", top / "HANDLES")


def definitions_from(crate):
    """The crates of definitions that a change of this one concerns."""
    return DEFINITIONS[DEFINITIONS.index(crate):]


def module(crate, name):
    """The name that a file of definitions has in the one crate."""
    return "".join(word.title() for word in crate.split("_")) + name


def moved(text, crates):
    """The text, where the definitions of these crates stand in the one crate."""
    for crate in crates:
        text = re.sub(rf"Rattle\.{crate}\.specs\.(?!declared)(\w+)", lambda found: f"Rattle.{LAWS}.specs.{module(crate, found[1])}", text)
    return text


def put_files(top, crates, names, wrong):
    """Puts the definitions of these crates and the files of these laws into the one crate; `wrong` has the texts that are changed, by path."""
    crate_of_laws = top / "crates" / LAWS
    for file in [*crate_of_laws.rglob("*.antt")]:
        file.unlink()
    lists = {}
    for crate in crates:
        for name in re.findall(r"^pub mod (\w+)", (TOP / "crates" / crate / "specs" / "Lib.antt").read_text(), re.M):
            path = f"{crate}/specs/{name}.antt"
            put_file(crate_of_laws, lists, f"specs/{module(crate, name)}", moved(wrong.get(path) or (TOP / "crates" / path).read_text(), crates))
    for name in names:
        put_file(crate_of_laws, lists, name, moved((TOP / "crates" / LAWS / f"{name}.antt").read_text(), crates))
    for path, modules in lists.items():
        (crate_of_laws / path).write_text("".join(f"pub mod {name}\n" for name in modules))


def put_file(crate, lists, name, text):
    """Writes a file of a crate, and notes it in the list of its folder, and that folder in the list above."""
    file = crate / f"{name}.antt"
    file.parent.mkdir(parents=True, exist_ok=True)
    file.write_text(text)
    parts = name.split("/")
    for at in range(1, len(parts)):
        path = f"{parts[0]}/Lib.antt" if at == 1 else "/".join(parts[:at]) + ".antt"
        listed = lists.setdefault(path, [])
        if parts[at] not in listed:
            listed.append(parts[at])


def check(top):
    """What the checker says of the crate of laws: its errors in this crate, whether all is proved, and the whole output."""
    done = subprocess.run(["rt", "check"], cwd=top / "crates" / LAWS, capture_output=True, text=True)
    output = done.stdout + done.stderr
    errors = [Error(file, int(line), text) for file, line, text in re.findall(r"^\./([\w/]+)\.antt:(\d+):\d+: error: (.*)$", output, re.M)]
    return errors, "logic=proved" in output, output


def stood_at(error):
    return (TOP / "crates" / LAWS / f"{error.file}.antt").read_text().splitlines()[error.line - 1].strip()


def changed(text, pairs):
    """The text with each edit made, or None where one doesn't stand there exactly once."""
    for old, new in pairs:
        if text.count(old) != 1:
            return None
        text = text.replace(old, new)
    return text


def try_variant(top, name, variant):
    """Whether the law refuses the variant."""
    crate = variant.file.split("/")[0]
    wrong = changed((TOP / "crates" / variant.file).read_text(), variant.pairs)
    if wrong is None:
        print(f"NOT THERE    {variant.title}: an edit of {name}.txt doesn't stand once in {variant.file}")
        return False
    put_files(top, definitions_from(crate), files_used(variant.law), {variant.file: wrong})
    errors, proved, output = check(top)
    law = f"proofs/{variant.law}"
    of_law = [error for error in errors if error.file == law and "not checked" not in error.text]
    others = {error.file for error in errors} - {law}
    if of_law and not any(other.startswith(f"specs/{module(crate, '')}") for other in others):
        print(f"refused      {variant.title}: {variant.what}")
        for error in of_law:
            print(f"             {LAWS}/{error.file}.antt:{error.line}: {stood_at(error)[:120]}")
        return True
    print(f"{'NOT REFUSED' if proved else 'FAILED     '}  {variant.title}, by {variant.law}")
    if not proved:
        print(output[-3000:])
    return False


def try_unchanged(top, found):
    """Whether the files of all these laws are proved under the definitions as they are."""
    names = sorted(set().union(*(files_used(variant.law) for variant in found.values())))
    put_files(top, DEFINITIONS, names, {})
    errors, proved, output = check(top)
    print(f"{'proved' if proved else 'FAILED'}  {len(names)} files of laws under the definitions as they are")
    if not proved:
        print(output[-3000:])
    return proved


def some_of(names, count):
    """So many of the names, from the place on that today names."""
    first = date.today().toordinal() * count
    return [names[(first + k) % len(names)] for k in range(min(count, len(names)))]


def main(arguments):
    sys.stdout.reconfigure(line_buffering=True)
    found = variants()
    if len(arguments) == 2 and arguments[0] == "--some" and arguments[1].isdigit():
        arguments = some_of(list(found), int(arguments[1]))
    unknown = [name for name in arguments if name not in found and name != "--unchanged"]
    if unknown:
        print(f"no such variant: {' '.join(unknown)}")
        return 2
    with tempfile.TemporaryDirectory() as folder:
        top = Path(folder)
        make_workspace(top)
        if arguments == ["--unchanged"]:
            good = try_unchanged(top, found)
        else:
            good = all([try_variant(top, name, found[name]) for name in arguments or found])
    return 0 if good else 1


if __name__ == "__main__":
    sys.exit(main(sys.argv[1:]))
