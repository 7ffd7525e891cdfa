#!/usr/bin/env python3
"""Draws parts.svg, the picture of the parts, from crates.txt.

    docs/pictures/draw.py            writes parts.svg beside this script
    docs/pictures/draw.py --check    exits with 1 where parts.svg is not what would be drawn

The comment lines of crates.txt group the crates; ROOMS below says where each group stands. A group that ROOMS does not have, a crate that
stands on one above it, or an arrow that would cross a room ends the script with status 2. Python's standard library is all it needs.
"""

import pathlib
import re
import sys
from html import escape

HERE = pathlib.Path(__file__).resolve().parent
TOP = HERE.parent.parent
PICTURE = HERE / "parts.svg"

# The comment in crates.txt: the band, the room's title, a line below it.
ROOMS = {
    "NAME: what it stands on. Leaves first.": ("ground", "under all", "refusals and their numbers; the bytewise order, the sorted map"),
    "slot words and wide banks": ("words", "slot words and wide banks", "which frame buffers are in use, in what order"),
    "keys": ("words", "keys", "a label's bytes, eight at a time"),
    "frame labels": ("words", "frame labels", "a label's fields as bytes, in two editions"),
    "one node": ("node", "one node", "one internode or one leaf: search, insertion, cut"),
    "lent memory, and whether it is a tree": ("memory", "lent memory and its audit", "nodes and cells, and whether they are a tree"),
    "the index": ("index", "the index", "clear, put, find, remove, k-th entry"),
    "the index, all calls": ("calls", "the index, all calls", "put behind the audit, and the six calls under one name"),
    "what it means: a sorted map": ("meaning", "what it means", "the index answers as a sorted map"),
    "lines in, lines out": ("lines", "lines in, lines out", "the program, and what it prints"),
    "the index saved to a card": ("card", "the card", "the index saved as blocks with checks, and read back; the program that does both"),
    "for the camera": ("camera", "for the camera", "56 calls for C, and how answers cross"),
    "for the auditor": ("demands", "for the auditor", "the demands as theorems"),
    "programs that replay recorded answers": ("side", "replay programs", "beside what they ask"),
}
# One comment stands over two rooms: these crates are in the second.
SHARED = {"for the camera, and for the auditor": ("for the camera", "for the auditor", {"demands"})}

# Levels from the bottom up: bands with their left and right edge. The camera and the auditor stand side by side on top of all.
LEFT, FLOOR, SIDE, RIGHT = 12, 772, 788, 948
CAMERA = 468
LEVELS = [
    [("ground", LEFT, FLOOR)],
    [("words", LEFT, FLOOR)],
    [("node", LEFT, FLOOR)],
    [("memory", LEFT, FLOOR)],
    [("index", LEFT, FLOOR)],
    [("meaning", LEFT, FLOOR)],
    [("calls", LEFT, FLOOR)],
    [("lines", LEFT, FLOOR)],
    [("card", LEFT, FLOOR)],
    [("demands", LEFT, CAMERA - 12), ("camera", CAMERA, FLOOR)],
]
FILL = {"meaning": "#e3f1e3", "demands": "#fbf0d0", "camera": "#f6e3dc", "lines": "#f6e3dc", "card": "#f6e3dc", "side": "#eeeeee"}
PAD, HEAD, BOX, ROW, GAP, LETTER = 10, 40, 24, 30, 26, 7.6

LINE = {"code": ' stroke="#666"', "none": ' stroke="#666" stroke-dasharray="4 3"', "program": ' stroke="#333" stroke-width="2.5"'}
LEGEND = {"code": "code, proved", "none": "definitions and proofs, no function", "program": "a program"}
RULES = [
    "An arrow means: stands on. A band may use every band to which arrows lead from it, step by step, and none above it.",
    "In a room a crate stands only on those to its right and in the rows below.",
]
HEADER = """<svg xmlns="http://www.w3.org/2000/svg" viewBox="0 0 {width} {height}" width="{width}" height="{height}" role="img">
<title>The parts of Cherchivola</title>
<desc>{many} crates on their floors; arrows lead down to what a floor stands on. Drawn by draw.py from crates.txt.</desc>
<style>
text {{ font-family: sans-serif; fill: #222; }}
.title {{ font-size: 15px; font-weight: bold; }}
.note {{ font-size: 12px; fill: #444; }}
.crate {{ font-family: monospace; font-size: 12px; text-anchor: middle; }}
</style>
<rect width="100%" height="100%" fill="#ffffff"/>
"""


def fail(words):
    print(f"draw.py: {words}", file=sys.stderr)
    sys.exit(2)


def read():
    """The rooms with their crates in the order of crates.txt, and what each crate stands on."""
    rooms, needs, heading = {room: [] for room in ROOMS}, {}, None
    for line in (TOP / "crates.txt").read_text().splitlines():
        if line.startswith("#"):
            heading = line[1:].strip()
            if heading not in ROOMS and heading not in SHARED:
                fail(f"crates.txt has a group '{heading}' that stands on no floor: give it one in ROOMS")
        elif line.strip():
            head, _, rest = line.partition(":")
            name = head.split()[0]
            room = heading
            if heading in SHARED:
                first, second, names = SHARED[heading]
                room = second if name in names else first
            if room is None:
                fail(f"{name} stands in no group of crates.txt")
            rooms[room].append(name)
            needs[name] = rest.split()
    known = set()
    for name, below in needs.items():
        needs[name] = [b for b in below if b in needs]
        if not set(needs[name]) <= known:
            fail(f"{name} stands on a crate that crates.txt lists after it")
        known.add(name)
    room_of = {name: room for room, names in rooms.items() for name in names}
    for name, below in needs.items():
        for b in below:
            if room_of[b] != room_of[name] and ROOMS[room_of[b]][0] == ROOMS[room_of[name]][0]:
                fail(f"{name} stands on {b}, in the room beside its own")
    return rooms, needs


def kind(name):
    """A program, a crate with no function, or any other."""
    sources = sorted((TOP / "crates" / name / "src").rglob("*.rt"))
    if not sources:
        fail(f"there is no code of {name} under crates/")
    if any(s.name == "main.rt" for s in sources):
        return "program"
    return "code" if any(re.search(r"^(?!\s*//).*\bfn \w", s.read_text(), re.M) for s in sources) else "none"


def flow(names, width):
    """Rows of (name, x, width): what is highest comes first."""
    rows, x = [[]], 0
    for name in reversed(names):
        wide = round(len(name) * LETTER + 14)
        if rows[-1] and x + wide > width:
            rows.append([])
            x = 0
        rows[-1].append((name, x, wide))
        x += wide + 8
    return rows


class Drawing:
    def __init__(self):
        self.parts = []

    def add(self, text):
        self.parts.append(text)

    def rect(self, x, y, w, h, fill, more=""):
        self.add(f'<rect x="{x}" y="{y}" width="{w}" height="{h}" rx="5" fill="{fill}"{more}/>')

    def text(self, x, y, words, more=""):
        self.add(f'<text x="{x}" y="{y}"{more}>{escape(words)}</text>')

    def boxes(self, rows, x, y):
        for row in rows:
            for name, at, wide in row:
                self.rect(x + at, y, wide, BOX, "#ffffff", LINE[kind(name)])
                self.text(x + at + wide / 2, y + 16, name, ' class="crate"')
            y += ROW

    def room(self, x, y, w, h, heading, names, fill, more=""):
        _, title, note = ROOMS[heading]
        self.rect(x, y, w, h, fill, more)
        self.text(x + PAD, y + 18, title, ' class="title"')
        self.text(x + PAD, y + 33, note, ' class="note"')
        self.boxes(flow(names, w - 2 * PAD), x + PAD, y + HEAD)

    def arrow(self, x, top, bottom):
        self.add(f'<path d="M{x} {top}V{bottom - 7}" stroke="#444" stroke-width="2"/>')
        self.add(f'<path d="M{x - 5} {bottom - 9}h10l-5 8z" fill="#444"/>')


def arrows(bands, needs, place):
    """The bands that each band stands on, without those that one of them stands on already."""
    direct = {b: set() for b in bands}
    for name, below in needs.items():
        if place[name] in direct:
            direct[place[name]] |= {place[b] for b in below} - {place[name]}
    for band, below in direct.items():
        for other in below:
            if other not in bands:
                fail(f"the band '{band}' stands on the replay programs")
            if bands[other] >= bands[band]:
                fail(f"the band '{band}' stands on '{other}', which is not below it")

    def reached(band):
        return set().union(*({o} | reached(o) for o in direct[band])) if direct[band] else set()

    return {b: sorted(o for o in direct[b] if not any(o in reached(p) for p in direct[b] - {o})) for b in bands}


def draw():
    rooms, needs = read()
    place = {name: ROOMS[heading][0] for heading, names in rooms.items() for name in names}
    level = {band: n for n, bands in enumerate(LEVELS) for band, _, _ in bands}
    inside = {band: [h for h in ROOMS if ROOMS[h][0] == band] for band in level}

    def highest(name):
        return max([level[place[b]] for b in needs[name] if place[b] in level and place[b] != "ground"], default=0)

    side = next(h for h in ROOMS if ROOMS[h][0] == "side")
    beside = {n: flow([c for c in rooms[side] if highest(c) == n], RIGHT - SIDE - 2 * PAD) for n in range(len(LEVELS))}
    beside = {n: rows for n, rows in beside.items() if rows[0]}

    def split(band, left, right):
        """The edges of a band's rooms, side by side."""
        many = len(inside[band])
        if many == 1:
            return [(left, right)]
        wide = (right - left - 2 * PAD - 12 * (many - 1)) / many
        return [(left + PAD + k * (wide + 12), left + PAD + k * (wide + 12) + wide) for k in range(many)]

    def tall(band, left, right):
        most = max(len(flow(rooms[h], r - l - 2 * PAD)) for h, (l, r) in zip(inside[band], split(band, left, right)))
        return HEAD + most * ROW + 4 + (2 * PAD if len(inside[band]) > 1 else 0)

    heights = [max([tall(*b) for b in bands] + [len(beside.get(n, [])) * ROW + 2 * PAD]) for n, bands in enumerate(LEVELS)]
    tops, y = {}, LEFT
    for n in reversed(range(len(LEVELS))):
        tops[n] = y
        y += heights[n] + GAP
    end = y - GAP

    d = Drawing()
    edges = {}
    for n, bands in enumerate(LEVELS):
        for band, left, right in bands:
            edges[band] = (left, right)
            fill, top, high = FILL.get(band, "#e2ebf6"), tops[n], heights[n]
            many = len(inside[band]) > 1
            if many:
                d.rect(left, top, right - left, high, fill)
            for h, (l, r) in zip(inside[band], split(band, left, right)):
                inner = PAD if many else 0
                d.room(round(l), top + inner, round(r - l), high - 2 * inner, h, rooms[h], "#f2f6fb" if many else fill)

    head = tops[max(beside)] - GAP - HEAD
    d.room(SIDE, head, RIGHT - SIDE, end - head, side, [], FILL["side"])
    for n, rows in beside.items():
        d.boxes(rows, SIDE + PAD, tops[n] + (heights[n] - len(rows) * ROW + ROW - BOX) // 2)

    for band, below in arrows(level, needs, place).items():
        for other in below:
            between = [b for n in range(level[other] + 1, level[band]) for b in LEVELS[n]]
            free = [x for x in range(LEFT, RIGHT) if all(edges[b][0] + 12 <= x <= edges[b][1] - 12 for b in (band, other))]
            free = [x for x in free if not any(left - 12 <= x <= right + 12 for _, left, right in between)]
            if not free:
                fail(f"no place for an arrow from '{band}' to '{other}'")
            d.arrow(free[len(free) // 2], tops[level[band]] + heights[level[band]] + 2, tops[level[other]] - 1)

    y = end + 24
    for k, (what, words) in enumerate(LEGEND.items()):
        d.rect(LEFT + k * 260, y - 14, 30, 18, "#ffffff", LINE[what])
        d.text(LEFT + k * 260 + 38, y, words, ' class="note"')
    for k, words in enumerate(RULES):
        d.text(LEFT, y + 24 + 18 * k, words, ' class="note"')
    return HEADER.format(width=RIGHT + LEFT, height=y + 24 + 18 * len(RULES), many=len(needs)) + "\n".join(d.parts) + "\n</svg>\n"


def main(words):
    if words not in ([], ["--check"]):
        fail("usage: draw.py [--check]")
    drawn = draw()
    if not words:
        PICTURE.write_text(drawn)
    elif not PICTURE.exists() or PICTURE.read_text() != drawn:
        print("draw.py: parts.svg is not current: run docs/pictures/draw.py", file=sys.stderr)
        return 1
    return 0


if __name__ == "__main__":
    sys.exit(main(sys.argv[1:]))
