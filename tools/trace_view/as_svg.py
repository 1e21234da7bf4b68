"""One SVG, with nothing to be fetched: for short traces, or windows of long ones, in documents."""

from html import escape

from pictures import KIND_OF, KINDS
from traces import line_of

STEP, HEIGHT, GAP, LEFT, TOP = 18, 16, 10, 150, 44
SPANS = {"request": "#5a9367", "pin": "#8a5fa0", "round": "#d07fa0"}
STYLE = (
    "text{font:11px sans-serif;fill:#222}.row{stroke:#ddd}"
    ".arrow{stroke:#c22;stroke-width:1;fill:none;marker-end:url(#tip)}.span{fill-opacity:.35}"
)
TIP = (
    '<marker id="tip" markerWidth="6" markerHeight="6" refX="5" refY="3" orient="auto">'
    '<path d="M0 0L6 3L0 6z" fill="#c22"/></marker>'
)


def svg_of(picture, window):
    """A box an event, its line as the tooltip; behind them the spans; the arrows; a legend at the top."""
    first, last = window
    shown = sorted({picture.rows[place] for place in range(first, last + 1)})
    tops = {row: TOP + k * (HEIGHT + GAP) for k, row in enumerate(shown)}
    width = max(LEFT + STEP * (last + 1 - first) + 20, LEFT + 110 * len(KINDS))
    height = TOP + len(shown) * (HEIGHT + GAP) + 10

    def middle(place):
        return LEFT + (place - first) * STEP + STEP // 2

    out = [
        f'<svg xmlns="http://www.w3.org/2000/svg" width="{width}" height="{height}" viewBox="0 0 {width} {height}">',
        f"<style>{STYLE}</style><defs>{TIP}</defs>",
        f'<rect width="{width}" height="{height}" fill="#fff"/>',
    ]
    for number, (kind, (colour, _)) in enumerate(KINDS.items()):
        x = LEFT + 110 * number
        out.append(f'<circle cx="{x + 6}" cy="10" r="5" fill="{colour}"/><text x="{x + 16}" y="14">{kind}</text>')
    for place in range(first - first % 10, last + 1, 10):
        if place >= first:
            out.append(f'<text x="{LEFT + (place - first) * STEP}" y="34">{place + 2}</text>')
    for row, top in tops.items():
        centre = top + HEIGHT // 2
        out.append(f'<line class="row" x1="{LEFT}" x2="{width - 10}" y1="{centre}" y2="{centre}"/>')
        out.append(f'<text x="10" y="{centre + 4}">{escape(row.name)}</text>')
    for span in picture.spans:
        begin, end = max(span.first, first), min(span.last, last)
        if begin <= end and span.row in tops:
            x, length, inset = LEFT + (begin - first) * STEP, (end + 1 - begin) * STEP, 2 if span.kind == "pin" else 4
            title = f"{span.kind}, lines {span.first + 2} to {span.last + 2}"
            out.append(
                f'<g><title>{title}</title><path class="span" fill="{SPANS[span.kind]}" '
                f'd="M{x} {tops[span.row] - inset}h{length}v{HEIGHT + 2 * inset}h{-length}z"/></g>'
            )
    for e, row in zip(picture.events[first : last + 1], picture.rows[first : last + 1]):
        x, fill = LEFT + (e.place - first) * STEP + 1, KINDS[KIND_OF[e.word]][0]
        title = escape(f"line {e.place + 2}: {line_of(e)}")
        out.append(
            f'<rect x="{x}" y="{tops[row]}" width="{STEP - 2}" height="{HEIGHT}" rx="2" fill="{fill}">'
            f"<title>{title}</title></rect>"
        )
    for a in picture.arrows:
        if first <= a.first and a.last <= last:
            y1, y2 = (tops[picture.rows[place]] + HEIGHT // 2 for place in (a.first, a.last))
            line = f"M{middle(a.first)} {y1}L{middle(a.last)} {y2}"
            out.append(f'<path class="arrow" d="{line}"><title>{a.kind}</title></path>')
    return "\n".join([*out, "</svg>", ""])
