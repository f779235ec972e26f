#!/usr/bin/env python3
"""Draws a script and its output as a message sequence chart.

    python3 tools/chart.py SCRIPT OUTPUT > CHART.svg

Each node of the script and each session has a line down the page, dashed while the node is down or the session gone. A session is named by its account, once
one has bound there. A PDU is an arrow with its name, its command_status and what it is about. All other lines of the script are notes on the lines of their
nodes, and so are refusals and `unsettled`.

Which line of the script a line of the output belongs to is inferred by docs/SCRIPTS.md: a refusal comes at once; an answer as packets come, once those of a
majority of the nodes may have come back, or at the tick that ends its 30 seconds; a deliver_sm at its grant or, for a receipt, as packets come after what
ended its message, or when a session takes what waited. What could belong to several lines belongs to the first of them from which all that follows fits.
If there is none, it says which line of the output goes with none of the script, and draws nothing. Nothing but Python's library is needed.
"""
import argparse
import html
import itertools
import math
import pathlib
import sys

from chart_rows import Misfit, charted

LEFT, GAP, NARROW, TOP, STEP = 90, 330, 170, 56, 30
BLUE, GREEN, RED = "#1f4e79", "#2e6b34", "#a61c1c"
# Of an arrow: its colour, whether it is a response, and whether it goes to the node.
ARROWS = {
    "ask": (BLUE, False, True), "answer": (GREEN, True, False), "bad": (RED, True, False),
    "push": (BLUE, False, False), "told": (GREEN, True, True), "failed": (RED, True, True),
}
# Of a note: what it is filled with, its border and its text.
NOTE, REFUSAL = ("#fff6d6", "#b08f2e", "#5c4a12"), ("#fdecec", RED, RED)
STYLE = 'font-family="Helvetica, Arial, sans-serif" font-size="12"'


def tag(name, text=None, **given):
    pairs = "".join(f' {key.replace("_", "-")}="{html.escape(str(value))}"' for key, value in given.items())
    return f"<{name}{pairs}/>" if text is None else f"<{name}{pairs}>{html.escape(text)}</{name}>"


def note_width(text):
    return 8 * len(text) + 14


def text_width(text):
    """An estimate: digits have 6.7 pixels in Helvetica, and few letters more than 8."""
    return sum(8 if letter.isupper() or letter in "_→…" else 6.7 for letter in text)


class Layout:
    """Where the lines of nodes and sessions stand: the sessions of a node on its left. `gap` is between a node and its last session, where the texts are."""

    def __init__(self, chart):
        self.rows, self.accounts = chart.rows, chart.accounts
        self.nodes = sorted(chart.nodes) or [1]
        self.gap = max([GAP] + [math.ceil(text_width(row.text)) + 20 for row in self.rows if row.kind in ARROWS])
        self.edge = max([LEFT] + [note_width(row.text) // 2 + 10 for row in self.rows if row.session is None])
        self.columns, self.right = {}, 0
        for node in self.nodes:
            self.places(node)
        self.width, self.height = self.right + self.edge, TOP + STEP * (len(self.rows) + 1)

    def places(self, node):
        sessions = sorted({row.session for row in self.rows if row.session and row.nodes == (node,)})
        for session in [*sessions, None]:
            gap = self.gap if sessions and session is None else NARROW
            self.right = self.right + gap if self.columns else self.edge
            self.columns[node, session] = self.right

    def y(self, place):
        return TOP + STEP * (place + 1) - 8

    def pauses(self, node, session):
        """From where to where the line of a node is dashed, or of a session."""
        since = None
        for place, row in enumerate(self.rows):
            if row.nodes == (node,) and row.session == session:
                if since is not None and row.kind in {"restart", *ARROWS}:
                    yield since, self.y(place) - (14 if session is None else 0)
                    since = None
                if row.kind in ("crash", "gone"):
                    since = self.y(place) + (11 if session is None else -5)
        if since is not None:
            yield since, self.height - 10


def name_of(layout, node, session):
    """A session by the accounts that were bound on it."""
    if session is None:
        return f"node {node}"
    return f"{', '.join(layout.accounts.get((node, session), ['ESME']))}, session {session}"


def head(layout, node, session):
    x, name = layout.columns[node, session], name_of(layout, node, session)
    half = max(62, math.ceil(text_width(name) / 2) + 8)
    marks = [TOP - 20, *itertools.chain(*layout.pauses(node, session)), layout.height - 10]
    for start, end, dash in zip(marks, marks[1:], itertools.cycle([{}, {"stroke_dasharray": "2 3"}])):
        if start < end:
            yield tag("line", x1=x, y1=start, x2=x, y2=end, stroke="#999999", **dash)
    yield tag("rect", x=x - half, y=10, width=2 * half, height=26, rx=4, fill="#eef2f6", stroke="#667788")
    yield tag("text", name, x=x, y=27, text_anchor="middle", fill="#223344")


def cross(x, y, size):
    return tag("path", d=f"M{x - size // 2},{y} l{size},{size} m0,-{size} l-{size},{size}", stroke=RED, stroke_width=2, fill="none")


def arrow(row, session, node, gap, y):
    colour, is_answer, goes_in = ARROWS[row.kind]
    start, end = (session, node) if goes_in else (node, session)
    side = 7 if end < start else -7
    dash = {"stroke_dasharray": "6 3"} if is_answer else {}
    yield tag("line", x1=start, y1=y, x2=end, y2=y, stroke=colour, stroke_width=1.5, **dash)
    yield tag("polygon", points=f"{end},{y} {end + side},{y - 4} {end + side},{y + 4}", fill=colour)
    yield tag("text", row.text, x=node - gap / 2, y=y - 5, text_anchor="middle", fill=colour)


def neighbours(nodes):
    """The first and the last node of each group of nodes that stand side by side."""
    groups = itertools.groupby(enumerate(nodes), lambda pair: pair[1] - pair[0])
    for _, group in groups:
        members = [node for _, node in group]
        yield members[0], members[-1]


def note(row, columns, y):
    """A box for each group of nodes, and a line between them."""
    fill, border, colour = REFUSAL if row.kind == "refused" else NOTE
    if len(list(neighbours(row.nodes))) > 1:
        yield tag("line", x1=columns[row.nodes[0], None], y1=y - 4, x2=columns[row.nodes[-1], None], y2=y - 4, stroke=border)
    for first, last in neighbours(row.nodes):
        left, right, width = columns[first, None], columns[last, None], note_width(row.text)
        yield tag("rect", x=left - width / 2, y=y - 14, width=width + right - left, height=20, rx=4, fill=fill, stroke=border)
        yield tag("text", row.text, x=(left + right) // 2, y=y, text_anchor="middle", fill=colour)
    if row.kind == "crash":
        yield cross(columns[row.nodes[0], None], y + 7, 8)


def drawn(row, layout, y):
    if row.session is None:
        yield from note(row, layout.columns, y)
        return
    session, node = layout.columns[row.nodes[0], row.session], layout.columns[row.nodes[0], None]
    if row.kind == "gone":
        yield cross(session, y - 11, 12)
        yield tag("text", "gone", x=session + 12, y=y, fill=RED)
    else:
        yield from arrow(row, session, node, layout.gap, y)


def svg(chart):
    layout = Layout(chart)
    width, height = layout.width, layout.height
    out = [f'<svg xmlns="http://www.w3.org/2000/svg" width="{width}" height="{height}" viewBox="0 0 {width} {height}" {STYLE}>']
    out.append(tag("rect", width=width, height=height, fill="#ffffff"))
    for column in layout.columns:
        out += head(layout, *column)
    for place, row in enumerate(layout.rows):
        out += drawn(row, layout, layout.y(place))
    return "\n".join([*out, "</svg>", ""])


def main():
    reader = argparse.ArgumentParser(description=__doc__, formatter_class=argparse.RawDescriptionHelpFormatter)
    reader.add_argument("script", metavar="SCRIPT", type=pathlib.Path)
    reader.add_argument("output", metavar="OUTPUT", type=pathlib.Path)
    given = reader.parse_args()
    try:
        print(svg(charted(*(path.read_bytes().decode("latin-1") for path in (given.script, given.output)))), end="")
    except OSError as fault:
        sys.exit(f"{fault.filename}: {fault.strerror}")
    except Misfit as fault:
        sys.exit(str(fault))


if __name__ == "__main__":
    main()
