#!/usr/bin/env python3
"""Lists the files that a reader has to believe, with how many of their lines the promises reach.

    trusted.py             the files, by crate in reading order, and the totals
    trusted.py --names     the same, with the names that are reached in each file
    trusted.py --check N   the same, and ends with 1 where more than N lines are reached

It begins with `Headline` and with the clauses of the public functions of the top crates and the crates of laws, and follows each name that a clause or a definition cites to
where it is defined, as the file's `use` lines say. A definition counts with the comment above it, a plain type of the code with its `impl Model`, a function with its clauses and
without its body. What the tool-kit's own libraries define isn't listed. A name is taken for what it stands for at the top of its file, so a bound variable of the same name counts
as that: the list may be too long, and misses nothing.
"""

import re
import sys
from pathlib import Path

CRATES = Path(__file__).resolve().parent.parent / "crates"
HEADLINE = ("hybrid_model", "specs/Claims.antt", "Headline")
# quiet_laws is not among them: only the walker stands on it, and no clause of the program cites it
LAWS = ["hybrid_laws", "guest_laws", "offer_laws", "reached_laws", "thread_laws", "work_laws"]
LAWS += ["atomic_laws", "told_states"]
TOP = ["mcexec_run", "mcexec"]
NAME = r"[^\s(){}\[\],;]+"
ANTT_WORDS = r"(?:(?:abbrev|unfoldable|pub|private|record|data|syntax|irrelevant)\s+)*"
RUST_TYPE = re.compile(r"^(?:pub(?:\([a-z]+\))? )?(?:struct|enum|trait|type) (\w+)")
RUST_FUNCTION = re.compile(r"^(?:pub(?:\([a-z]+\))? )?(?:const |unsafe )*fn (\w+)")


class Item:
    """A definition: the names that it gives, the lines where it stands, and the text that a reader follows."""

    def __init__(self, names, first, lines):
        self.names, self.first, self.lines = names, first, lines
        self.text = "\n".join(line for line in lines if not line.lstrip().startswith(("--", "//")))


class File:
    """A file of definitions (.antt) or of code (.rt): its items by name, what its names stand for, and names of whole modules."""

    def __init__(self, crate, path):
        self.crate, self.path = crate, path
        self.lines = (CRATES / crate / path).read_text().splitlines()
        self.items, self.imports, self.modules = {}, {}, {}
        self.read_imports()
        for item in (antt_items if path.endswith(".antt") else rust_items)(self.lines):
            for name in item.names:
                self.items.setdefault(name, []).append(item)

    def read_imports(self):
        for line in self.lines:
            found = re.match(r"^\s*(?:pub )?(?:ghost )?use ([\w.:]+?)(?:(?:\.|::)\{(.*)\})?(?: as (\S+?))?;?$", line)
            if found:
                path = re.split(r"\.|::", found[1])
                if found[2] is not None:
                    for part in split_names(found[2]):
                        name, _, other = part.partition(" as ")
                        self.imports[(other or name).strip()] = (path, name.strip())
                elif "::" in found[1] or len(path) == 1:
                    self.imports[found[3] or path[-1]] = (path[:-1], path[-1])
                else:
                    self.modules[found[3] or path[-1]] = path


def split_names(text):
    return [part.strip().strip("{}").strip() for part in text.split(",") if part.strip()]


def with_comment(lines, at, mark):
    """Where the comment (and, in code, the attributes) above a line begins."""
    while at > 0 and lines[at - 1].startswith(mark):
        at -= 1
    return at


def antt_items(lines):
    """The definitions of an .antt file; a block `module _ .. where` is one, with all the names in it."""
    starts, last = [], None
    for at, line in enumerate(lines):
        if not line or line[0] in " -})]" or re.match(r"(pub )?use |(pub )?mod |unfolding\b", line):
            continue
        found = re.match(ANTT_WORDS + f"({NAME})", line)
        if found and (found[1] == "module" or found[1] != last):
            starts.append(at)
            last = found[1]
    for at, end in zip(starts, starts[1:] + [len(lines)]):
        begin = with_comment(lines, at, "--")
        end = with_comment(lines, end, "--") if end < len(lines) else end
        body = lines[begin:end]
        while len(body) > at - begin + 1 and (not body[-1].strip() or body[-1].startswith("--")):
            body.pop()
        name = re.match(ANTT_WORDS + f"({NAME})", lines[at])[1]
        names = [name]
        if name == "module":
            names = [found[1] for found in (re.match(rf"\s+(?:abbrev |unfoldable )?pub (?:record |data )?({NAME})", line) for line in body) if found]
        elif re.match(r"(pub )?data ", lines[at]):
            for line in lines[at + 1:end]:
                names += re.match(r"([^:]*)", line)[1].split() if " : " in line and not line.lstrip().startswith("--") else []
        yield Item(names, begin, body)


def rust_items(lines):
    """The types and functions at the top of an .rt file; a function ends before its body, and an `impl Model` belongs to its type."""
    at = 0
    while at < len(lines):
        line = lines[at]
        of_type, of_function, model = RUST_TYPE.match(line), RUST_FUNCTION.match(line), re.match(r"impl.* Model for (\w+)", line)
        end = at + 1
        if of_type or model:
            while not re.search(r"[;}]$", line) or line.startswith(" "):
                line, end = lines[end], end + 1
        elif of_function:
            while not line.endswith("{") and line != "{}" and not re.match(r"\{\}?$", line) and end < len(lines):
                line, end = lines[end], end + 1
            end -= 1 if line in ("{", "{}") else 0
        if of_type or of_function or model:
            begin = with_comment(lines, at, ("///", "//", "#["))
            yield Item([(of_type or of_function or model)[1]], begin, lines[begin:end])
        at = max(end, at + 1)


class Reader:
    """Follows names from file to file, and keeps the items that it reached."""

    def __init__(self):
        self.files, self.reached, self.rust = {}, {}, {}

    def file(self, crate, path):
        if (crate, path) not in self.files:
            self.files[crate, path] = File(crate, path) if (CRATES / crate / path).is_file() else None
        return self.files[crate, path]

    def rust_files(self, crate):
        if crate not in self.rust:
            found = sorted((CRATES / crate / "src").rglob("*.rt"))
            self.rust[crate] = [self.file(crate, str(path.relative_to(CRATES / crate))) for path in found]
        return self.rust[crate]

    def reach(self, file, name):
        """Reaches the definition of a name, and all that it cites."""
        waiting = [(file, name)]
        while waiting:
            file, name = waiting.pop()
            for item in file.items.get(name, []):
                items = self.reached.setdefault((file.crate, file.path), {})
                if item.first not in items:
                    items[item.first] = item
                    waiting += self.cited(file, item)

    def cited(self, file, item):
        for word in set(re.findall(NAME, item.text)):
            head, _, rest = word.strip(".:&").partition("::" if "::" in word else ".")
            if head in file.items:
                yield file, head
            elif head in file.imports:
                path, name = file.imports[head]
                yield from self.definers(file, path, name)
            if head in file.modules and rest:
                yield from self.definers(file, file.modules[head], re.split(r"\.|::", rest)[0])

    def definers(self, file, path, name):
        """The files where a name that is imported from a path is defined; none where that is in the tool-kit."""
        crate = path[1] if path[0] == "Rattle" and len(path) > 1 else file.crate if path[0] in ("crate", "self", "super") else path[0] if path else ""
        if len(path) > 2 and path[0] == "Rattle" and path[2] == "specs" and path[3] not in ("declared", "contracts"):
            found = self.file(crate, "specs/" + "/".join(path[3:]) + ".antt")
            if found:
                yield found, name
        elif (CRATES / crate / "src").is_dir():
            kinds = [part for part in path[3:] if part[0].isupper() and part != "TheVariants"] or [name]
            for found in self.rust_files(crate):
                if kinds[-1] in found.items:
                    yield found, kinds[-1]


def public_functions(reader, crate):
    """The functions that a crate's users can call: those of the public modules and those that the root passes on; of a program each one with a clause."""
    files = reader.rust_files(crate)
    root = next(file for file in files if file.path in ("src/lib.rt", "src/main.rt"))
    modules = {found[1] for found in (re.match(r"pub mod (\w+);", line) for line in root.lines) if found}
    for file in files:
        shown = file is root or Path(file.path).stem in modules
        for name, items in file.items.items():
            for item in items:
                public = re.search(rf"^pub (?:const |unsafe )*fn {name}\b", item.text, re.M)
                clauses = re.search(r"^    (ensures|requires)\b", item.text, re.M)
                passed_on = name in root.imports and Path(file.path).stem == root.imports[name][0][-1]
                if public and (shown or passed_on) or root.path == "src/main.rt" and clauses and RUST_FUNCTION.search(item.text.split("\n")[0]):
                    yield file, name


def order_of(crate):
    """The files of a crate in reading order: code with its types first, then the definitions as the crate lists them."""
    listed = CRATES / crate / "specs" / "Lib.antt"
    names = re.findall(r"^pub mod (\w+)", listed.read_text(), re.M) if listed.is_file() else []
    return {f"specs/{name}.antt": at for at, name in enumerate(names)}


def main(arguments):
    reader = Reader()
    reader.reach(reader.file(*HEADLINE[:2]), HEADLINE[2])
    for crate in LAWS + TOP:
        for file, name in list(public_functions(reader, crate)):
            reader.reach(file, name)
    total = whole = count = 0
    for crate in re.findall(r"^(\w+)[^:\n]*:", (CRATES.parent / "crates.txt").read_text(), re.M):
        order = order_of(crate)
        paths = sorted((path for of, path in reader.reached if of == crate), key=lambda path: (order.get(path, -1), path))
        if paths:
            print(f"\n{crate}")
        for path in paths:
            items = reader.reached[crate, path].values()
            lines, all_lines = sum(len(item.lines) for item in items), len(reader.file(crate, path).lines)
            total, whole, count = total + lines, whole + all_lines, count + 1
            print(f"  {lines:5} of {all_lines:5}  {path}")
            if "--names" in arguments:
                print("                 " + " ".join(sorted({item.names[0] for item in items if item.names})))
    print(f"\n{count} files; {total} lines are reached of the {whole} that they have")
    if "--check" in arguments:
        limit = int(arguments[arguments.index("--check") + 1])
        if total > limit:
            print(f"more than {limit}")
            return 1
    return 0


if __name__ == "__main__":
    sys.exit(main(sys.argv[1:]))
