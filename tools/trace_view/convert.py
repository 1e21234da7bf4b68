#!/usr/bin/env python3
"""Draws a trace, or compares two.

    convert.py html TRACE     one HTML page, which fetches nothing: zoom, filter, window; for traces of any length
    convert.py json TRACE     trace-event JSON, which Perfetto and chrome://tracing show
    convert.py svg TRACE      one SVG, for short traces
    convert.py diff T1 T2     the first event in which they differ, and what stood before it

TRACE is a text of `mctrace 2` or `mctrace 1` (docs/FORMATS.md), `-` is standard input. The picture is written to
standard output. Of `html`, `json` and `svg` two options may follow:

    --lines A..B              only the events of these lines of the trace; a side that is left out is the trace's end
    --job JOB                 names processes and threads after the guests of this job

A trace has an order and no clock, so an event's place is its number, and each is as wide as any other. Rows: the
cores; for each process its kernel, its proxy and the proxy's workers; the script. Spans: a request from `assign` to
`finish` (or `park`), a pin from `pin` to `unpin`, a round from `begin` to where its acknowledgement is taken.
pictures.py says which arrows are drawn. A trace names no system call; what came of a `trap` is told where each
process has one thread.

It ends with 1 where a trace has a line that is no entry, where a file can't be read, and where two traces differ; with
2 where the words are no command.
"""

import re
import sys
from pathlib import Path

from as_html import html_of
from as_json import json_of
from as_svg import svg_of
from differ import difference_of
from pictures import Picture
from traces import BadTrace, events_of, guests_of

FORMS = {"json": json_of, "svg": svg_of}


class BadWords(Exception):
    pass


def read(name):
    if name == "-":
        return sys.stdin.buffer.read().decode("latin-1")
    with open(name, "rb") as file:
        return file.read().decode("latin-1")


def events_in(name):
    try:
        return events_of(read(name))
    except BadTrace as bad:
        raise BadTrace(f"{name}: trace line {bad}" if name != "-" else f"trace line {bad}") from None


def window_of(word, count):
    """The first and the last place of the lines A..B."""
    found = re.fullmatch(r"(\d*)\.\.(\d*)", word)
    if not found:
        raise BadWords(f"--lines takes A..B, and not {word}")
    first = max(int(found[1] or 2) - 2, 0)
    last = min(int(found[2] or count + 1) - 2, count - 1)
    return first, max(last, first - 1)


def drawn(form, name, *options):
    given = dict(zip(options[::2], options[1::2]))
    if len(options) % 2 or not given.keys() <= {"--lines", "--job"}:
        raise BadWords(f"{' '.join(options)}: the options are --lines A..B and --job JOB")
    guests = guests_of(read(given["--job"])) if "--job" in given else ()
    events = events_in(name)
    window = window_of(given.get("--lines", ".."), len(events))
    picture = Picture(events, guests)
    if form == "html":
        return html_of(picture, window, "trace" if name == "-" else Path(name).name)
    return FORMS[form](picture, window)


def main(words):
    if words in (["-h"], ["--help"]):
        print(__doc__)
        return 0
    try:
        if len(words) == 3 and words[0] == "diff":
            text, same = difference_of(events_in(words[1]), events_in(words[2]), words[1:])
            sys.stdout.write(text)
            return 0 if same else 1
        if len(words) < 2 or words[0] not in ("html", *FORMS):
            print(__doc__, file=sys.stderr)
            return 2
        sys.stdout.write(drawn(*words))
    except BadWords as bad:
        print(f"convert.py: {bad}", file=sys.stderr)
        return 2
    except (BadTrace, OSError) as bad:
        print(f"convert.py: {bad}", file=sys.stderr)
        return 1
    return 0


if __name__ == "__main__":
    sys.exit(main(sys.argv[1:]))
