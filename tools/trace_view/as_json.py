"""Trace-event JSON, for Perfetto and chrome://tracing. A microsecond stands for one event."""

import json

from pictures import KIND_OF


def json_of(picture, window):
    """The name of an event is its word and its numbers are arguments, so that tables by name add up. A span is a slice
    in which its events lie. Groups of rows are shown as processes and rows as threads, counted from 1."""
    first, last = window
    groups = sorted({row.group for row in picture.shown})
    at = {row: {"pid": groups.index(row.group) + 1, "tid": number} for number, row in enumerate(picture.shown, 1)}
    out = []
    for row in picture.shown:
        for name, value in (
            ("process_name", {"name": picture.group_name(row)}),
            ("process_sort_index", {"sort_index": at[row]["pid"]}),
            ("thread_name", {"name": row.name}),
            ("thread_sort_index", {"sort_index": at[row]["tid"]}),
        ):
            out.append({"ph": "M", "name": name, "args": value} | at[row])
    for span in picture.spans:
        begin, end = max(span.first, first), min(span.last, last)
        if begin <= end:
            said = span.numbers | {"line": span.first + 2, "last line": span.last + 2, "ended": span.ended}
            both = {"name": span.kind, "cat": "span", "args": said} | at[span.row]
            out.append({"ph": "X", "ts": begin, "dur": end + 1 - begin} | both)
    for e, row in zip(picture.events[first : last + 1], picture.rows[first : last + 1]):
        said = picture.told(e) | {"line": e.place + 2}
        out.append({"ph": "X", "name": e.word, "cat": KIND_OF[e.word], "ts": e.place, "dur": 1, "args": said} | at[row])
    for number, arrow in enumerate(picture.arrows, 1):
        if first <= arrow.first and arrow.last <= last:
            both = {"id": number, "name": arrow.kind, "cat": "arrow"}
            out.append({"ph": "s", "ts": arrow.first + 0.5} | both | at[picture.rows[arrow.first]])
            out.append({"ph": "f", "bp": "e", "ts": arrow.last + 0.5} | both | at[picture.rows[arrow.last]])
    return json.dumps({"traceEvents": out}, indent=None, separators=(",", ":")).replace("},{", "},\n{") + "\n"
