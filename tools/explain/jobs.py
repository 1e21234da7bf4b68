"""What is wrong with a line of a job: the rules of docs/FORMATS.md, with what stands there and what would be right.

The program says which rule of which line is the first that is broken. Here that line is looked at for that rule alone,
and where the rule isn't broken nothing is said.
"""

import difflib
import re

RANGES = {"frames": 16_000, "cores": 8, "workers": 4, "rings": 8, "limit": 4_000_000}
FORMS = {key: f"{key} N" for key in RANGES} | {
    "guest": "guest NAME ARG..",
    "signal": "signal G SIG N",
    "file": "file PATH NAME",
    "input": "input G NAME",
}
MOST = {"guest": 16, "signal": 64, "file": 64}
LONGEST, MOST_WORDS = 1_024, 63
NO_SIGNALS = range(19, 23)
HEADS = {b"\x7fELF": "an image", b"mctrace": "a trace", b"mcreport": "a report"}


def is_decimal(word):
    return bool(re.fullmatch(r"0|[1-9][0-9]*", word))


class Job:
    """The lines of a job's text, from 1 on."""

    def __init__(self, data):
        self.data = data
        self.lines = data.split(b"\n")
        self.is_whole = self.lines[-1] == b""
        if self.is_whole:
            self.lines.pop()

    def line(self, number):
        return self.lines[number - 1]

    def words(self, number):
        return self.line(number).decode("latin-1").split(" ")

    def numbers(self, *keys, below=None):
        """The numbers of the lines that begin with one of these words, above a line or all of them."""
        last = len(self.lines) if below is None else below - 1
        return [n for n in range(1, last + 1) if self.words(n)[0] in keys]

    def guests(self):
        """The name and the line of each guest."""
        return [(self.words(n)[1], n) for n in self.numbers("guest") if len(self.words(n)) > 1]

    def sources(self):
        """The names of the host that the job asks for, each with its line, in their order."""
        found = []
        for n in self.numbers("guest", "file", "input"):
            words, place = self.words(n), 1 if self.words(n)[0] == "guest" else 2
            if len(words) > place:
                found.append((words[place], n))
        return found

    def value(self, key, otherwise):
        found = [self.words(n)[1] for n in self.numbers(key) if len(self.words(n)) == 2]
        return int(found[0]) if found and is_decimal(found[0]) else otherwise


def of_length(job, number):
    if number == len(job.lines) and not job.is_whole:
        return "no line feed ends the last line: put one behind it"
    count = len(job.line(number))
    if count > LONGEST:
        return f"the line has {count:,} bytes: at most {LONGEST:,}"


def of_byte(job, number):
    line = job.line(number)
    place = next((k for k, b in enumerate(line) if not 0x20 <= b <= 0x7E), None)
    if place is None:
        return None
    here = f"column {place + 1} is {line[place]:#04x}"
    if line[place] == 0x0D and place == len(line) - 1:
        return f"{here}: use LF line ends"
    if line[place] == 0x09:
        return f"{here}, a tab: use one space"
    if number == 1 and line.startswith(b"\xef\xbb\xbf"):
        return f"{here}, of a byte order mark: save the text without one"
    return f"{here}: use bytes from 0x20 to 0x7e alone"


def of_keyword(job, number):
    word = job.words(number)[0]
    if word in FORMS:
        return None
    if word == "":
        return "the line begins with a space: begin it with its word"
    near = difflib.get_close_matches(word.lower(), FORMS, 1)
    return f'"{word}" begins no line: use {near[0] if near else ", ".join(FORMS)}'


def of_count(job, number):
    words = job.words(number)
    key, rest = words[0], words[1:]
    if key not in FORMS:
        return None
    form = f'the form is "{FORMS[key]}"'
    if any(word.startswith("#") for word in rest):
        form += ", and a comment has a line of its own"
    if words[-1] == "" and len(words) > 1:
        return "a space ends the line: take it away"
    if "" in words:
        column = 1 + len(" ".join(words[: words.index("")])) + 1
        return f"column {column} is a second space: use one between words"
    if key == "guest" and len(rest) > 1 + MOST_WORDS:
        return f"{len(rest) - 1} words stand behind the guest's name: at most {MOST_WORDS}"
    if key == "guest" and rest or key != "guest" and len(rest) == FORMS[key].count(" "):
        return None
    words = "word stands" if len(rest) == 1 else "words stand"
    return f'{form}, here {len(rest)} {words} behind "{key}"'


def of_repeat(job, number):
    words = job.words(number)
    for n in job.numbers(words[0], below=number):
        if words[0] in RANGES:
            return f"{words[0]} stands in line {n} already: use one of them"
        if words[0] == "input" and job.words(n)[1] == words[1]:
            return f"guest {words[1]} has an input in line {n} already: use one of them"


def of_many(job, number):
    key = job.words(number)[0]
    count = len(job.numbers(key, below=number + 1))
    if key in MOST and count > MOST[key]:
        return f"this is {key} line {count}: at most {MOST[key]}"


def number_of(what, least, most, word):
    if not is_decimal(word):
        return f'{what} is a decimal number without sign or leading zero, here "{word}"'
    if not least <= int(word) <= most:
        return f'{what} takes {least} to {most}, here "{word}"'


def of_number(job, number):
    words = job.words(number)
    key, rest = words[0], words[1:]
    if key in RANGES and len(rest) == 1:
        return number_of(key, 1, RANGES[key], rest[0])
    if key == "input" and len(rest) == 2 and not is_decimal(rest[0]):
        return number_of("the guest of an input", 1, MOST["guest"], rest[0])
    if key != "signal" or len(rest) != 3:
        return None
    if not is_decimal(rest[0]):
        return number_of("the guest of a signal", 1, MOST["guest"], rest[0])
    if is_decimal(rest[1]) and int(rest[1]) in NO_SIGNALS:
        return f'a signal is 1 to 64 without 19 to 22, here "{rest[1]}"'
    wrong = number_of("a signal", 1, 64, rest[1])
    return wrong or number_of("the instructions of a signal", 0, RANGES["limit"], rest[2])


def of_guest(job, number):
    word = job.words(number)[1]
    above, all_lines = job.numbers("guest", below=number), job.numbers("guest")
    count = len(above)
    if is_decimal(word) and 1 <= int(word) <= count:
        return None
    told = f"there is no guest {word} among the {count} guest lines above"
    if count < 2:
        told = f"there is no guest {word}: one guest line stands above" if count else "there is no guest line above"
    if is_decimal(word) and count < int(word) <= len(all_lines):
        return f"{told}, and the line of guest {word} is {all_lines[int(word) - 1]}: put this line below it"
    return told


def of_path(job, number):
    path = job.words(number)[1]
    names = path.split("/")[1:]
    if not path.startswith("/"):
        return f'a path begins with /, here "{path}"'
    if len(names) > 8:
        return f"the path has {len(names)} names: at most 8"
    for name in names:
        if name == "":
            return f'the path "{path}" has an empty name'
        if name in (".", ".."):
            return f'the path "{path}" has the name "{name}"'
        if len(name) > 255:
            return f"a name of the path has {len(name)} bytes: at most 255"
    for n in job.numbers("file", below=number):
        other = job.words(n)[1]
        if path == other:
            return f'"{path}" is the path of line {n} already'
        if path.startswith(other + "/"):
            return f'"{path}" lies below "{other}" of line {n}, which is a file'
        if other.startswith(path + "/"):
            return f'"{path}" is a directory of "{other}" in line {n}'


RULES = {
    "length": of_length, "byte": of_byte, "keyword": of_keyword, "count": of_count, "repeat": of_repeat,
    "toomany": of_many, "number": of_number, "guest": of_guest, "path": of_path,
}  # fmt: skip


def told_of_job(name, data, said):
    """The lines behind the program's line `job line L RULE` or `job lacks KEY`."""
    job = Job(data)
    kind = next((kind for head, kind in HEADS.items() if data.startswith(head)), None)
    if kind:
        return [f'"{name}" is {kind}, and no job']
    lacks = re.search(r"job lacks (\w+)", said)
    if lacks:
        key = lacks[1]
        more = ", N from 1 to 16000: check tells how many the guests need" if key == "frames" else ""
        return [f'{name}: no line begins with {key}: add "{FORMS[key]}"{more}']
    found = re.search(r"job line (\d+) (\w+)", said)
    if not found or int(found[1]) > len(job.lines) or found[2] not in RULES:
        return []
    told = RULES[found[2]](job, int(found[1]))
    return [f"{name}:{found[1]}: {told}"] if told else []
