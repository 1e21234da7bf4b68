#!/usr/bin/env python3
"""Computes the worked rows in the checker, over the definitions with finite maps as rising lists, since those compute.

    check.py              all rows
    check.py NAME..       these rows
    check.py --wrong      the wrong variants of definitions, each of which a row has to refuse
"""

import re
import shutil
import subprocess
import sys
import tempfile
from pathlib import Path

HERE = Path(__file__).resolve().parent
sys.path.insert(0, str(HERE))
from rows import ROWS, WRONG  # noqa: E402

TOP = HERE.parent.parent
LAWS = ("MapLaws", "EachLaws", "Slots")
CONTAINERS = "ikc_ring page_pins clear_rounds request_book".split()
BELOW = "mck_word mck_flags job_model system_calls isa_model file_model kernel_model".split()
CRATES = [*BELOW, *CONTAINERS, "hybrid_model", "run_model"]
HEAD = """use Rattle.hybrid_model.specs.Boot.{boot, shortage}
use Rattle.hybrid_model.specs.Events.{may, after}
use Rattle.hybrid_model.specs.Journals.{may_all, state, ending}
use Rattle.hybrid_model.specs.OneProcess.{memory_here}
use Rattle.hybrid_model.specs.Pairs.{Pair, here, side_of}
use Rattle.hybrid_model.specs.Rings.{ring}
use Rattle.hybrid_model.specs.declared.events.Ending.TheVariants.{Done, Limit, Stalled}
use Rattle.hybrid_model.specs.declared.events.Event.{Event}
use Rattle.hybrid_model.specs.declared.events.Event.TheVariants.{Run, Trap, Deliver, Intake, Answer, BeginVm, Interrupt, Wait, Reap, Script, Fetch, Assign, Miss, Pin, Copy, Unpin, Act, Park, Unpark, Finish, AckClear}
use Rattle.isa_model.specs.Memory.{read_bytes}
use Rattle.isa_model.specs.Registers.{reg}
use Rattle.job_model.specs.declared.image.Image.{Image}
use Rattle.job_model.specs.declared.job.Job.{Job}
use Rattle.kernel_model.specs.Nodes.{process_of, thread_of}
use Rattle.kernel_model.specs.Progress.{interrupted_answer, no_progress}
use Rattle.kernel_model.specs.declared.Life.TheVariants.{Ended}
use Rattle.mck_word.specs.Identifiers.{pid, tid, req}
use Rattle.mck_word.specs.Words.{number_of}
use Rattle.mck_word.specs.declared.End.TheVariants.{Exit}
use Rattle.run_model.specs.Reports.{report_of}
use Rattle.run_model.specs.Texts.{Text, Number, Line, Block}
use Rattle.run_model.specs.Traces.{trace_parts}
use Rattle.run_model.specs.Walks.{walk_for, start}
use Rattle.std.proofs.Common.{refl}
use Rattle.std.specs.Prelude.{ℕ, ◌≡◌, ◌+◌, ◌*◌, List, [], ◌∷◌, ◌++◌, length, true, false, Bool, codes, replicate, take, drop, Option, Some, None, pos, negsuc}
use Rattle.worked_rows.specs.Additions.{doubleword_of}
use Rattle.worked_rows.specs.Checks.{additions, first_wrong, only_additions, stall_is_shown}
use Rattle.worked_rows.specs.Images.{small_image, small_job}

"""
BOOK_USES = """use Rattle.ikc_ring.specs.declared.CallRequest.{CallRequest}
use Rattle.mck_word.specs.Maps.{Map}
use Rattle.request_book.specs.declared.ReqState.{ReqState}
use Rattle.std.specs.Prelude.{List, ℕ}

"""
ROOT = """//! The worked rows.
#![tactic(auto)]

ghost use Rattle.std.specs.Prelude.{◌≡◌};

/// How many rows there are at least.
pub fn rows() -> u32
    ensures { result ≡ 1 }
{
    1
}
"""


def plain_types(source):
    """Of a container's root file the plain types that the definitions speak of."""
    types = re.findall(r"(#\[derive\([^\]]*\bCopy\b[^\]]*\)\]\npub (?:enum|struct) \w+ \{\n.*?\n\}\n)", source, re.S)
    used = set(re.findall(r"\w+", "".join(types)))
    uses = []
    for crate, names in re.findall(r"^use (mck_\w+|system_calls)::\{?([^;{}]*)\}?;$", source, re.M):
        wanted = [name for name in map(str.strip, names.split(",")) if name in used]
        if wanted:
            uses.append(f"use {crate}::{{{', '.join(wanted)}}};\n")
    return "//! Plain types.\n#![tactic(auto)]\n\n" + "".join(uses) + "\n" + "\n".join(types)


def make_workspace(top):
    """A copy of the definitions in which maps are rising lists and every definition unfolds."""
    for crate in CRATES:
        for part in ("src", "specs", "proofs"):
            source = TOP / "crates" / crate / part
            if source.is_dir():
                shutil.copytree(source, top / "crates" / crate / part)
    for crate in CONTAINERS:
        root = top / "crates" / crate / "src" / "lib.rt"
        root.write_text(plain_types(root.read_text()))
        for part in ("specs", "proofs"):
            shutil.rmtree(top / "crates" / crate / part, ignore_errors=True)
        (top / "crates" / crate / "specs").mkdir()
        (top / "crates" / crate / "specs" / "Lib.antt").write_text("")
    book = re.search(r"pub record Requests .*?\n\n", (TOP / "crates/request_book/specs/Requests.antt").read_text(), re.S).group(0)
    specs = top / "crates" / "request_book" / "specs"
    (specs / "Requests.antt").write_text(BOOK_USES + book.replace("Live", "Map (ReqState × CallRequest)"))
    (specs / "Lib.antt").write_text("pub mod Requests\n")
    wanted = set(CRATES)
    lines = [l for l in (TOP / "crates.txt").read_text().splitlines() if l.split(":")[0] in wanted and l.split(":")[0] not in CONTAINERS]
    lines += [f"{c}: mck_word mck_flags system_calls" + (" ikc_ring" if c == "request_book" else "") for c in CONTAINERS]
    lines.append("worked_rows: " + " ".join(CRATES))
    (top / "crates.txt").write_text("\n".join(lines) + "\n")
    shutil.copy(TOP / "HANDLES", top / "HANDLES")
    words = top / "crates" / "mck_word" / "specs"
    shutil.copy(HERE / "Maps.txt", words / "Maps.antt")
    for name in LAWS:
        (words / f"{name}.antt").unlink()
    library = words / "Lib.antt"
    library.write_text("".join(l for l in library.read_text().splitlines(True) if not any(name in l for name in LAWS)))
    for file in (top / "crates").glob("*/specs/*.antt"):
        file.write_text(file.read_text().replace("unfoldable pub", "abbrev pub"))
    rows = top / "crates" / "worked_rows"
    for folder in ("src", "specs", "proofs"):
        (rows / folder).mkdir(parents=True)
    (rows / "src" / "lib.rt").write_text(ROOT)
    for name in ("Checks", "Images"):
        shutil.copy(HERE / f"{name}.txt", rows / "specs" / f"{name}.antt")
    shutil.copy(TOP / "crates" / "atomic_laws" / "specs" / "Additions.antt", rows / "specs" / "Additions.antt")
    (rows / "specs" / "Lib.antt").write_text("pub mod Images\npub mod Additions\npub mod Checks\n")
    return rows


def write_rows(crate, names):
    for name in names:
        row = ROWS[name]
        (crate / "proofs" / f"{name}.antt").write_text(f"-- {row.title}\n" + HEAD + "\n".join(row.terms))
    (crate / "proofs" / "Lib.antt").write_text("".join(f"pub mod {name}\n" for name in names))


def check(crate):
    return subprocess.run(["rt", "check"], cwd=crate, capture_output=True, text=True).stdout


def refused(output):
    """The rows in whose files the checker found an error."""
    return sorted(set(re.findall(r"proofs/(\w+)\.antt:\d+:\d+: error", output)))


def run_rows(names):
    with tempfile.TemporaryDirectory() as folder:
        crate = make_workspace(Path(folder))
        write_rows(crate, names)
        output = check(crate)
    wrong = refused(output)
    for name in names:
        print(f"{'REFUSED' if name in wrong else 'computed'}  {ROWS[name].title}")
    done = "logic=proved" in output.splitlines()[-1] if output else False
    if wrong or not done:
        print(output[-6000:])
        return 1
    return 0


def run_wrong():
    failed = 0
    for title, (crate_name, file_name, changes, row) in WRONG.items():
        with tempfile.TemporaryDirectory() as folder:
            crate = make_workspace(Path(folder))
            write_rows(crate, [row])
            file = Path(folder) / "crates" / crate_name / "specs" / f"{file_name}.antt"
            content = file.read_text()
            if any(content.count(right) != 1 for right, _ in changes):
                print(f"NOT THERE {title}")
                failed = 1
                continue
            for right, wrong in changes:
                content = content.replace(right, wrong)
            file.write_text(content)
            output = check(crate)
        found = row in refused(output)
        failed |= not found
        print(f"{'refused' if found else 'NOT REFUSED'}  {title}, by {ROWS[row].title}")
        if not found:
            print(output[-3000:])
    return failed


if __name__ == "__main__":
    arguments = sys.argv[1:]
    sys.exit(run_wrong() if arguments == ["--wrong"] else run_rows(arguments or list(ROWS)))
