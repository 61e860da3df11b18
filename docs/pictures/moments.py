"""Draws one run: the words in use after each event, the peak of the depth-first run, and the bound of each moment."""
import textwrap

from canvas import Canvas
from curves import step_of

WIDTH, HEIGHT = 860, 446
LEFT, RIGHT, TOP, BOTTOM = 88, 196, 86, 58
# How many characters a line of the note may have, so that it is not cut where letters are wide, and how far its lines are apart.
NOTE_COLUMNS, NOTE_LINE = 80, 17
STYLE = """
  .area { fill: #0b6e69; opacity: 0.22; } .slack { fill: #c9480f; opacity: 0.07; }
  @media (prefers-color-scheme: dark) { .area { fill: #3ecfc5; } .slack { fill: #ff9457; } }
"""


def moments_of(lines):
    """The words in use and the bound after each event. The first line names the columns."""
    moments = []
    for line in lines[1:]:
        if line == "--":
            break
        _, words, _, _, bound = line.split()
        moments.append((int(words), int(bound)))
    return moments


def columns_of(moments, count):
    """The events cut into so many columns: of each the most words in use and the least bound, so that no event looks better than it was."""
    cut = [moments[len(moments) * at // count : len(moments) * (at + 1) // count] for at in range(count)]
    return [(max(words for words, _ in part), min(bound for _, bound in part)) for part in cut if part]


class Moments(Canvas):
    def __init__(self, moments, peak):
        super().__init__(WIDTH, HEIGHT)
        self.events, self.peak = len(moments), peak
        self.columns = columns_of(moments, min(len(moments), WIDTH - LEFT - RIGHT))
        self.high = max(words for words, _ in moments)
        self.at_high = next(at for at, (words, _) in enumerate(moments) if words == self.high)
        self.bound_then = moments[self.at_high][1]
        top = max(bound for _, bound in moments)
        self.step = step_of(top)
        self.top = -(-top // self.step) * self.step

    def x(self, column):
        return LEFT + column * (WIDTH - LEFT - RIGHT) / max(1, len(self.columns) - 1)

    def y(self, words):
        return HEIGHT - BOTTOM - words * (HEIGHT - TOP - BOTTOM) / self.top

    def axes(self, title, note):
        end = WIDTH - RIGHT
        for words in range(0, self.top + 1, self.step):
            self.straight(LEFT, self.y(words), end, self.y(words), "grid" if words else "axis")
            self.text(LEFT - 10, self.y(words) + 4, "tick", f"{words:,}", "end")
        step = step_of(self.events)
        for event in range(0, self.events + 1, step):
            x = LEFT + event * (end - LEFT) / self.events
            self.straight(x, self.y(0), x, self.y(0) + 5, "axis")
            self.text(x, self.y(0) + 21, "tick", f"{event:,}", "middle")
        self.text((LEFT + end) / 2, HEIGHT - 12, "name", "events of the run", "middle")
        middle = (TOP + HEIGHT - BOTTOM) / 2
        self.text(20, middle, "name", "words", "middle", f' transform="rotate(-90 20 {middle:.1f})"')
        self.text(LEFT, 26, "title", title)
        for at, line in enumerate(textwrap.wrap(note, NOTE_COLUMNS)):
            self.text(LEFT, 48 + at * NOTE_LINE, "note", line)

    def path(self, column):
        return " ".join(f"{self.x(at):.1f},{self.y(it[column]):.1f}" for at, it in enumerate(self.columns))

    def draw(self):
        words, bound = self.path(0), self.path(1)
        back = " ".join(reversed(words.split()))
        floor = f"{WIDTH - RIGHT:.1f},{self.y(0):.1f} {LEFT:.1f},{self.y(0):.1f}"
        self.put(f'<polygon points="{bound} {back}" class="slack"/>')
        self.put(f'<polygon points="{words} {floor}" class="area"/>')
        self.put(f'<polyline points="{bound}" class="line s3"/>')
        self.put(f'<polyline points="{words}" class="line s0"/>')
        self.put(f'<line x1="{LEFT}" y1="{self.y(self.peak):.1f}" x2="{WIDTH - RIGHT}" y2="{self.y(self.peak):.1f}" class="line dashed s4"/>')

    def labels(self):
        """The names of the lines, at the right of the picture."""
        end = WIDTH - RIGHT + 14
        top = max(bound for _, bound in self.columns)
        self.text(end, self.y(top) + 12, "label t3", "bound at that moment:")
        self.text(end, self.y(top) + 30, "label t3", "peak + 2K × ahead(t)")
        self.text(end, self.y(self.high) + 4.5, "label t0", "words in use: live(t)")
        self.text(end, self.y(self.peak) + 4.5, "label t4", "depth-first peak")
        self.text(end, self.y(self.peak) + 22, "note", f"{self.peak:,}")

    def mark(self):
        """The moment of the high-water mark: the words in use then, and the bound."""
        x = LEFT + self.at_high * (WIDTH - LEFT - RIGHT) / self.events
        self.put(f'<line x1="{x:.1f}" y1="{self.y(self.high):.1f}" x2="{x:.1f}" y2="{self.y(self.bound_then):.1f}" class="line dashed s4"/>')
        times = self.bound_then / self.high
        words = f"high-water mark: {self.high:,} words in use, bound {self.bound_then:,} ({times:.1f} times)"
        self.put(f'<circle cx="{x:.1f}" cy="{self.y(self.high):.1f}" r="4" class="t0"/>')
        self.put(f'<circle cx="{x:.1f}" cy="{self.y(self.bound_then):.1f}" r="4" class="t3"/>')
        self.text(x + 12, self.y(self.bound_then) - 2, "note", words)


def picture(lines, peak, title, note):
    moments = Moments(moments_of(lines), peak)
    moments.axes(title, note)
    moments.draw()
    moments.labels()
    moments.mark()
    return moments.svg(title, STYLE)
