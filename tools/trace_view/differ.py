"""Compares two traces: the first event in which they differ, and what stood before it."""

from pictures import Picture
from traces import line_of

BEFORE = 8  # how many of the events before are shown


def last_of_row(picture, place):
    """The event before this place in its row, or None."""
    row = picture.rows[place]
    return next((k for k in range(place - 1, -1, -1) if picture.rows[k] == row), None)


def difference_of(one, other, names):
    """What is told, and whether the traces are the same."""
    same = next((k for k, (a, b) in enumerate(zip(one, other)) if a != b), min(len(one), len(other)))
    if same == len(one) == len(other):
        return f"the same {same} events\n", True
    out = [f"the first {same} events are the same; the first difference is in line {same + 2}"]
    for sign, name, events in (("<", names[0], one), (">", names[1], other)):
        if same == len(events):
            out.append(f"{sign} {name} ends before it")
            continue
        picture = Picture(events[: same + 1])
        out.append(f"{sign} {line_of(events[same])}    ({picture.rows[same].name}, of {name})")
        before = last_of_row(picture, same)
        if before is not None:
            out.append(f"    before it in that row: line {before + 2}: {line_of(events[before])}")
        for span in picture.spans:
            if not span.ended and span.row == picture.rows[same]:
                out.append(f"    within a {span.kind} from line {span.first + 2}")
    out.append("before it in both:" if same else "no event stands before it")
    out += [f"  line {e.place + 2}: {line_of(e)}" for e in one[max(same - BEFORE, 0) : same]]
    return "\n".join(out) + "\n", False
