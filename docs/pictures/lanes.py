"""Draws a run: time goes down, the deques are from left to right, and each period has a colour."""
import re
from typing import NamedTuple

from canvas import Canvas

ROW, LANE, GAP, CHIP = 27, 196, 34, 19
LEFT, TOP, RIGHT, BOTTOM = 68, 146, 270, 24
BAR = 64
# The least width, in which a note has room.
LEAST = 940
# Where the columns of numbers end, from the end of the deques: the prefix, the periods ahead, and the bound, if it is shown.
ENDS, ENDS_WITH_BOUND = (170, 236), (198, 274, 354)
COLOURS = {
    "light": ["#0b6e69", "#1f6fd6", "#c9480f", "#7a3fc4", "#2f7d1f", "#b8286b", "#8a6100", "#59636f"],
    "dark": ["#3ecfc5", "#6db0ff", "#ff9457", "#bd93f9", "#8fd16b", "#ff8fbf", "#e0b84a", "#a3aebb"],
}
GROUNDS = {"light": "#ffffff", "dark": "#12171e"}


def colours(theme):
    lines = [f"    .on {{ fill: {GROUNDS[theme]}; }}\n"]
    for at, colour in enumerate(COLOURS[theme]):
        lines.append(f"    .p{at} {{ stroke: {colour}; fill: {colour}; }}\n")
    return "".join(lines)


STYLE = f"""
  .period {{ fill-opacity: 0.14; stroke-width: 1.4; }} .runs {{ stroke-width: 1; }} .steal {{ fill: none; stroke-width: 1.8; }}
  .free {{ fill: none; stroke: currentColor; stroke-width: 1; stroke-dasharray: 3 4; opacity: 0.6; }}
  .waits {{ fill: none; stroke: currentColor; stroke-width: 1; opacity: 0.55; }}
  .thread, .event {{ font-size: 12px; }} .words {{ fill: currentColor; opacity: 0.4; }}
{colours("light")}  @media (prefers-color-scheme: dark) {{
{colours("dark")}  }}
"""


class Deque(NamedTuple):
    number: int
    is_owned: bool
    threads: list


class Event(NamedTuple):
    """What happened, with the deques from left to right after it. The threads of a deque are from the top."""

    worker: int
    period: int
    deque: int
    thread: str
    action: str
    words: int
    prefix: int
    ahead: int
    deques: list


def deque_of(text):
    number, owner, threads = text.split(":")
    return Deque(int(number), owner != "-", re.findall(r"\[[\d,]*\]", threads))


def events_of(lines):
    """The events of a trace, whose first line names the columns."""
    events = []
    for line in lines[1:]:
        what, bar, deques = line.partition(" |")
        if not bar:
            break
        _, worker, period, deque, thread, action, words, prefix, ahead = what.split()
        shown = [deque_of(it) for it in deques.split()]
        numbers = int(words), int(prefix), int(ahead)
        events.append(Event(int(worker), int(period), int(deque), thread, action, *numbers, shown))
    return events


class Column:
    """A place from left to right. A deque that is no more leaves it to another one."""

    deque = None


def columns_of(events):
    """How many columns there are, and the one of each deque."""
    columns, of = [], {}
    for event in events:
        live = [deque.number for deque in event.deques]
        for column in columns:
            column.deque = column.deque if column.deque in live else None
        for at, number in enumerate(live):
            if number not in of:
                right = columns.index(of[live[at - 1]]) + 1 if at else 0
                if right == len(columns) or columns[right].deque is not None:
                    columns.insert(right, Column())
                of[number] = columns[right]
                of[number].deque = number
    return len(columns), {number: columns.index(column) for number, column in of.items()}


class Lanes(Canvas):
    """A row for each event. With bounds, one for each event, there is a column for them."""

    def __init__(self, events, bounds=None):
        self.events, self.bounds = events, bounds
        self.ends = ENDS_WITH_BOUND if bounds else ENDS
        count, self.columns = columns_of(events)
        self.end = LEFT + count * (LANE + GAP) - GAP
        super().__init__(max(LEAST, self.end + RIGHT + self.ends[-1] - ENDS[-1]), TOP + len(events) * ROW + BOTTOM)

    def x(self, deque):
        return LEFT + self.columns[deque] * (LANE + GAP)

    def head(self, title, notes):
        self.text(24, 28, "title", title)
        for at, note in enumerate(notes):
            self.text(24, 52 + 18 * at, "note", note)
        self.text(LEFT - 16, TOP - 14, "note", "event", "end")
        self.text(LEFT, TOP - 14, "note", "the deques, from left to right")
        self.text(self.end + 26, TOP - 14, "note", "words in use")
        for at, name in zip(self.ends, ("prefix", "ahead(t)", "bound")):
            self.text(self.end + at, TOP - 14, "note", name, "end")

    def rows(self):
        most = max(1, *(event.words for event in self.events))
        for row, event in enumerate(self.events):
            y = TOP + row * ROW
            self.straight(LEFT - 38, y, self.end + self.ends[-1], y, "grid")
            self.text(LEFT - 16, y + 18, "tick", row + 1, "end")
            length = BAR * event.words / most
            self.put(f'<rect x="{self.end + 26}" y="{y + 8}" width="{length:.1f}" height="11" class="words"/>')
            self.text(self.end + 32 + length, y + 18, "tick", event.words)
            numbers = (event.prefix, event.ahead, self.bounds[row] if self.bounds else 0)
            for at, number in zip(self.ends, numbers):
                self.text(self.end + at, y + 18, "tick", number, "end")

    def periods(self):
        """A bar for each period, from its steal to its last event."""
        rows = {}
        for row, event in enumerate(self.events):
            rows.setdefault((event.period, event.deque), []).append(row)
        for (period, deque), of_period in rows.items():
            self.frame(deque, of_period[0], of_period[-1], f"period p{self.colour(period)}")

    def frame(self, deque, first, last, kind):
        place = f'x="{self.x(deque)}" y="{TOP + first * ROW + 2}" width="{LANE}" height="{(last - first + 1) * ROW - 4}"'
        self.put(f'<rect {place} rx="7" class="{kind}"/>')

    def colour(self, period):
        return (period - 1) % len(COLOURS["light"])

    def free_deques(self):
        """A dashed frame while a deque has no owner."""
        for number in self.columns:
            since = None
            for row, event in enumerate([*self.events, None]):
                is_free = event is not None and any(it.number == number and not it.is_owned for it in event.deques)
                if is_free and since is None:
                    since = row + 1
                elif not is_free and since is not None:
                    if since < row:
                        self.frame(number, since, row - 1, "free")
                    since = None

    def threads(self):
        """A chip for each thread in a deque; the one that runs has the colour of its period."""
        periods = {}
        for row, event in enumerate(self.events):
            periods[event.deque] = event.period
            for deque in event.deques:
                x = self.x(deque.number) + 8
                # A Dummy ends its period, so after it the deque has no owner, but it was the top thread that ran.
                was_left = event.action == "dummy" and deque.number == event.deque
                for at, thread in enumerate(deque.threads):
                    runs = at == 0 and (deque.is_owned or was_left)
                    x = self.chip(x, row, thread, self.colour(periods[deque.number]) if runs else None)

    def chip(self, x, row, thread, colour):
        width, y = 14 + 7 * len(thread), TOP + row * ROW + 4
        kind = "waits" if colour is None else f"runs p{colour}"
        self.put(f'<rect x="{x}" y="{y}" width="{width}" height="{CHIP}" rx="9" class="{kind}"/>')
        self.text(x + width / 2, y + 14, "thread" if colour is None else "thread on", thread, "middle")
        return x + width + 5

    def actions(self):
        for row, event in enumerate(self.events):
            action, _, detail = event.action.partition(":")
            y = TOP + row * ROW + ROW / 2
            x = self.x(event.deque)
            self.text(x + LANE - 9, y + 4.5, "event", self.words_of(event, action, detail), "end")
            if action == "steal" and int(detail) != event.deque:
                start = self.x(int(detail)) + LANE
                kind = f'class="steal p{self.colour(event.period)}" style="fill: none"'
                self.put(f'<path d="M {start + 2} {y} H {x - 4} m -7 -5 l 7 5 l -7 5" {kind}/>')

    def words_of(self, event, action, detail):
        if action == "steal":
            return f"worker {event.worker} steals"
        if action in ("end", "suspend", "give-up", "dummy"):
            return f"{action.replace('-', ' ')} {event.thread}"
        return f"{action} {detail}".strip()


def picture(lines, title, notes, bounds=None):
    lanes = Lanes(events_of(lines), bounds)
    lanes.head(title, notes)
    lanes.rows()
    lanes.free_deques()
    lanes.periods()
    lanes.threads()
    lanes.actions()
    return lanes.svg(title, STYLE)
