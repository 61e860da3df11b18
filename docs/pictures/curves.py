"""Draws the most words in use at once against the number of workers, a line for each way to run the program."""
from canvas import Canvas

WIDTH, HEIGHT = 860, 500
LEFT, RIGHT, TOP, BOTTOM = 88, 166, 64, 66
TICKS = (1, 8, 16, 24, 32, 40, 48, 56, 64)


def step_of(top):
    """A round step that cuts the axis into at most seven parts."""
    step = 1
    while True:
        for factor in (1, 2, 5):
            if top / (step * factor) <= 7:
                return step * factor
        step *= 10


class Curves(Canvas):
    """The high-water marks of a program. `lines` has one for each number of workers, by the name of the line."""

    def __init__(self, workers, lines):
        super().__init__(WIDTH, HEIGHT)
        self.workers = workers
        top = max(max(marks) for marks in lines.values())
        self.step = step_of(top)
        self.top = -(-top // self.step) * self.step

    def x(self, p):
        return LEFT + (p - 1) * (WIDTH - LEFT - RIGHT) / (self.workers[-1] - 1)

    def y(self, words):
        return HEIGHT - BOTTOM - words * (HEIGHT - TOP - BOTTOM) / self.top

    def axes(self, title, seeds):
        end = WIDTH - RIGHT
        for words in range(0, self.top + 1, self.step):
            self.straight(LEFT, self.y(words), end, self.y(words), "grid" if words else "axis")
            self.text(LEFT - 10, self.y(words) + 4, "tick", f"{words:,}", "end")
        for p in TICKS:
            self.straight(self.x(p), self.y(0), self.x(p), self.y(0) + 5, "axis")
            self.text(self.x(p), self.y(0) + 21, "tick", p, "middle")
        self.text((LEFT + end) / 2, HEIGHT - 20, "name", "workers p", "middle")
        middle = (TOP + HEIGHT - BOTTOM) / 2
        self.text(20, middle, "name", "high-water mark in words", "middle", f' transform="rotate(-90 20 {middle:.1f})"')
        self.text(LEFT, 26, "title", title)
        note = f"The most words in use at once, the greatest of {seeds} seeds; the record blocks of forked threads count."
        self.text(LEFT, 46, "note", note)

    def draw(self, lines, dashed):
        for at, (name, marks) in enumerate(lines.items()):
            points = " ".join(f"{self.x(p):.1f},{self.y(words):.1f}" for p, words in zip(self.workers, marks))
            self.put(f'<polyline points="{points}" class="line s{at}{" dashed" if name == dashed else ""}"/>')
        self.labels([(marks[-1], at, name) for at, (name, marks) in enumerate(lines.items())])

    def labels(self, ends):
        """Names each line at its right end; names that would lie on one another are moved apart."""
        below = HEIGHT
        for words, at, name in sorted(ends):
            place = min(self.y(words), below - 20)
            below = place
            end = WIDTH - RIGHT
            self.put(f'<path d="M {end + 4} {self.y(words):.1f} L {end + 18} {place:.1f}" class="lead s{at}"/>')
            self.text(end + 23, place + 4.5, f"label t{at}", name)


def picture(workers, lines, title, seeds, dashed):
    curves = Curves(workers, lines)
    curves.axes(title, seeds)
    curves.draw(lines, dashed)
    return curves.svg(f"High-water mark against workers: {title}")
