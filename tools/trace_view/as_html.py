"""One self-contained HTML: page.html with its style, its script page.js and the data of a trace inside."""

import json
import re
from html import escape
from pathlib import Path

from pictures import KIND_OF, KINDS
from traces import NUMBERS

HERE = Path(__file__).resolve().parent


def data_of(picture, window, title):
    first, last = window
    rows = {row: k for k, row in enumerate(picture.shown)}
    words, kinds = list(NUMBERS), list(KINDS)
    groups = sorted({row.group for row in picture.shown})
    events = []
    for e, row in zip(picture.events[first : last + 1], picture.rows[first : last + 1]):
        events.append([words.index(e.word), rows[row], picture.process_of(e) or 0, *e.numbers])
    spans = []
    for s in picture.spans:
        if s.first <= last and s.last >= first:
            shown = [max(s.first, first) - first, min(s.last, last) - first]
            spans.append([s.kind, rows[s.row], *shown, int(s.ended), s.first + 2, s.last + 2])
    arrows = [[a.kind, a.first - first, a.last - first] for a in picture.arrows if first <= a.first and a.last <= last]
    calls = {place - first: kind for place, kind in picture.calls.items() if first <= place <= last}
    return {
        "title": title,
        "line": first + 2,
        "lines": len(picture.events) + 1,
        "words": [[word, kinds.index(KIND_OF[word]), NUMBERS[word]] for word in words],
        "kinds": [[kind, colour] for kind, (colour, _) in KINDS.items()],
        "rows": [[row.name, groups.index(row.group)] for row in picture.shown],
        "groups": [[g, next(picture.group_name(row) for row in picture.shown if row.group == g)] for g in groups],
        "guests": list(picture.guests),
        "events": events,
        "spans": spans,
        "arrows": arrows,
        "calls": calls,
    }


def html_of(picture, window, title="trace"):
    text = json.dumps(data_of(picture, window, title), separators=(",", ":")).replace("<", "\\u003c")
    page = (HERE / "page.html").read_text()
    parts = {"TITLE": escape(title), "SCRIPT": (HERE / "page.js").read_text(), "DATA": text}
    return re.sub("@([A-Z]+)@", lambda found: parts[found[1]], page)
