"""The rooms of the house: the crates of crates.txt, what each imports and what it is, and a map of them, a band a room and a box a crate."""
import os
import re
import sys
from typing import NamedTuple

from canvas import Canvas

TOP = os.path.normpath(f"{os.path.dirname(os.path.realpath(__file__))}/../..")
sys.path.insert(0, f"{TOP}/tools")
import imports

WIDTH, LEFT, RIGHT, HEAD, BOTTOM = 1180, 24, 24, 108, 20
NAMES, LETTERS = 322, 44
BOX, GAP, PAD, LETTER = 26, 8, 12, 7.3
COLOURS = 5
STYLE = """
  .band { fill-opacity: 0.08; stroke-width: 1.2; } .box { fill-opacity: 0.14; stroke-width: 1.2; }
  .crate { font-family: ui-monospace, monospace; font-size: 12px; }
  .f0 { fill: #0b6e69; stroke: #0b6e69; } .f1 { fill: #1f6fd6; stroke: #1f6fd6; } .f2 { fill: #7a3fc4; stroke: #7a3fc4; }
  .f3 { fill: #c9480f; stroke: #c9480f; } .f4 { fill: #59636f; stroke: #59636f; }
  @media (prefers-color-scheme: dark) {
    .f0 { fill: #3ecfc5; stroke: #3ecfc5; } .f1 { fill: #6db0ff; stroke: #6db0ff; } .f2 { fill: #bd93f9; stroke: #bd93f9; }
    .f3 { fill: #ff9457; stroke: #ff9457; } .f4 { fill: #a3aebb; stroke: #a3aebb; }
  }
"""
TITLE = "The crates, room by room"
NOTES = [
    "A band is a room and a box is a crate, as in crates.txt: the lowest room comes first.",
    "No crate uses a crate of a room below its own band. Below a room's name are the rooms that it uses.",
]


class Crate(NamedTuple):
    """A crate, with the crates of the repository that it imports from, directly or through one that hands on."""

    name: str
    uses: list


class Room(NamedTuple):
    name: str
    what: str
    crates: list


def crate_of(line, crates):
    name = line.partition(":")[0].split()[0]
    return Crate(name, sorted(crates.uses(name)))


def rooms():
    """Returns the rooms of crates.txt, lowest first. Crates before the first room are in a room without a name."""
    found, crates = [Room("", "", [])], imports.Crates()
    with open(f"{TOP}/crates.txt", encoding="ascii") as file:
        lines = file.read().splitlines()
    for before, line in zip(["", *lines], lines):
        if line.startswith("#") and not before and lines[0] != line:
            name, _, what = line[1:].strip().partition(": ")
            found.append(Room(name, what, []))
        elif line and not line.startswith("#"):
            found[-1].crates.append(crate_of(line, crates))
    return [room for room in found if room.name or room.crates]


def what_is(name):
    """Returns the first sentence of the head of a crate, as a cell of a table: without the marks of links."""
    paths = [f"{TOP}/crates/{name}/src/{root}" for root in ("lib.rt", "main.rt")]
    with open(next(path for path in paths if os.path.exists(path)), encoding="utf-8") as file:
        head = [line[3:].strip() for line in file if line.startswith("//!")]
    first = " ".join(head[: head.index("")] if "" in head else head)
    return re.sub(r"\[(`[^`]*`)\](?:\([^)]*\))?", r"\1", re.match(r".*?\.(?=\s|$)|.*", first)[0]).replace("|", r"\|")


def used_by(room, house):
    """Returns the names of the other rooms that this one uses, lowest first."""
    used = {name for crate in room.crates for name in crate.uses}
    return [it.name for it in house if it is not room and any(crate.name in used for crate in it.crates)]


def width_of(crate):
    return 2 * PAD + LETTER * len(crate.name)


def shelves_of(room):
    """Returns the crates of a room in rows that fit beside the names of the rooms."""
    shelves, most = [[]], WIDTH - LEFT - NAMES - RIGHT - PAD
    for crate in room.crates:
        if sum(width_of(it) + GAP for it in shelves[-1]) + width_of(crate) > most:
            shelves.append([])
        shelves[-1].append(crate)
    return shelves


def folded(words, most):
    """Returns the words in lines of at most so many letters."""
    lines = [""]
    for word in words.split():
        if lines[-1] and len(lines[-1]) + 1 + len(word) > most:
            lines.append("")
        lines[-1] = f"{lines[-1]} {word}".strip()
    return lines


def notes_of(room, house):
    used = used_by(room, house)
    return [*folded(room.what, LETTERS), *(folded(f"uses {', '.join(used)}", LETTERS) if used else [])]


def height_of(room, house):
    boxes = len(shelves_of(room)) * (BOX + GAP) - GAP + 2 * PAD
    return max(boxes, 38 + 16 * len(notes_of(room, house)))


class Map(Canvas):
    def __init__(self, house):
        self.house = house
        heights = [height_of(room, house) + GAP for room in house]
        super().__init__(WIDTH, HEAD + sum(heights) + BOTTOM)

    def box(self, x, y, width, height, kind):
        self.put(f'<rect x="{x:.1f}" y="{y:.1f}" width="{width:.1f}" height="{height:.1f}" rx="7" class="{kind}"/>')

    def band(self, at, room, y):
        kind, height = f"f{at % COLOURS}", height_of(room, self.house)
        self.box(LEFT, y, WIDTH - LEFT - RIGHT, height, f"band {kind}")
        self.text(LEFT + PAD, y + 25, "label", room.name)
        for line, note in enumerate(notes_of(room, self.house)):
            self.text(LEFT + PAD, y + 45 + 16 * line, "note", note)
        for row, shelf in enumerate(shelves_of(room)):
            self.shelf(shelf, y + PAD + row * (BOX + GAP), f"box {kind}")
        return y + height + GAP

    def shelf(self, shelf, y, kind):
        x = LEFT + NAMES
        for crate in shelf:
            self.box(x, y, width_of(crate), BOX, kind)
            self.text(x + width_of(crate) / 2, y + 17, "crate", crate.name, "middle")
            x += width_of(crate) + GAP


def picture(title):
    house = rooms()
    drawn = Map(house)
    drawn.text(LEFT, 32, "title", title)
    for at, note in enumerate(NOTES):
        drawn.text(LEFT, 58 + 18 * at, "note", note)
    y = HEAD
    for at, room in enumerate(house):
        y = drawn.band(at, room, y)
    return drawn.svg(title, STYLE)
