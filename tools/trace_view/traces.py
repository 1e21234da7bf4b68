"""Reading traces: texts of `mctrace 2` or `mctrace 1` (docs/FORMATS.md)."""

import re
from typing import NamedTuple

# what the numbers behind each word are; `fetch` of ring 0 has no second number
NUMBERS = {
    "run": ("core", "thread", "steps"),
    **dict.fromkeys(("trap", "deliver", "begin", "interrupt", "wait"), ("thread",)),
    **dict.fromkeys(("intake", "reap", "ack"), ("process",)),
    **dict.fromkeys(("answer", "assign", "miss", "pin", "copy"), ("process", "worker")),
    **dict.fromkeys(("unpin", "act", "park", "finish"), ("process", "worker")),
    "fetch": ("process", "ring"),
    "unpark": ("process", "request"),
    "script": ("signal",),
}
NUMBER = re.compile(r"0|[1-9][0-9]{0,19}")
MOST_NUMBER, MOST_REQUEST = 2**32 - 1, 2**64 - 1


class BadTrace(Exception):
    """The line of that number, counted from 1, is no entry."""


class Event(NamedTuple):
    place: int  # from 0; its line is place + 2
    word: str
    numbers: tuple


def why_no_entry(line, version):
    """Why a line is no entry, or None."""
    word, *rest = line.split(" ")
    names = NUMBERS.get(word)
    if names is None:
        return f'"{word}" is no event' if word else "the line is empty" if not rest else "the line begins with a space"
    if len(rest) not in ((1, 2) if word == "fetch" else (len(names),)):
        return f"behind {word} stand {' and '.join(names)}, here {len(rest)} words"
    for name, text in zip(names, rest):
        if not NUMBER.fullmatch(text):
            return f'the {name} is a decimal number without sign or leading zero, here "{text}"'
        if int(text) > (MOST_REQUEST if name == "request" else MOST_NUMBER):
            return f"the {name} {text} is too large"
    if word == "fetch" and rest[1:] == ["0"]:
        return "ring 0 is left out: fetch and the process alone"
    if version == 1 and (word == "wait" or word == "fetch" and len(rest) == 2):
        return "a trace of mctrace 1 has no such line"
    return None


def event_of(line, place, version):
    if why_no_entry(line, version):
        raise BadTrace(place + 2)
    word, *rest = line.split(" ")
    return Event(place, word, tuple(map(int, rest)))


def events_of(text):
    """The events of a trace."""
    head, *lines = text.split("\n")
    if head not in ("mctrace 1", "mctrace 2") or not lines:
        raise BadTrace(1)
    if lines.pop() != "":
        raise BadTrace(len(lines) + 2)
    version = int(head[-1])
    return [event_of(line, place, version) for place, line in enumerate(lines)]


def line_of(event):
    return " ".join([event.word, *map(str, event.numbers)])


def named(event):
    """The numbers of an event by their names."""
    return dict(zip(NUMBERS[event.word], event.numbers))


def guests_of(job):
    """The names of a job's guests, in order."""
    return [line.split(" ")[1] for line in job.split("\n") if line.startswith("guest ")]
