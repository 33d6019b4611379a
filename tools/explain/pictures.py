"""Pictures as SVG: of the first loop that conflicts, and of the events of a replay.

A picture has a ground of its own, and its marks are shapes too, so that it can be read in one colour, and on light and
dark pages. Positions are pixels from the upper left corner.
"""

from __future__ import annotations

from collections.abc import Iterable, Sequence

from .loops import Loops
from .records import Cell, Facts, Pair

LEFT, TOP = 70, 88  # the width of the rows' numbers; the height of the title and of the columns' numbers
LEGEND_HEIGHT, LEAST_WIDTH, MARGIN = 44, 560, 48
MOST = 64  # rows and columns of a picture
CELLS_WIDTH, LEAST_CELL, MOST_CELL = 680, 10, 24
LEGEND_REACH = 5

SIZE = '<svg xmlns="http://www.w3.org/2000/svg" role="img" width="{0}" height="{1}" viewBox="0 0 {0} {1}">\n'
STYLE = """\
<style>
text{font:10px Verdana,Arial,sans-serif;fill:#333}
.t{font-size:13px;font-weight:bold}
.e{text-anchor:end}
.l{font-size:11px}
.g{stroke:#ddd;stroke-width:1}
.d{stroke:#666;stroke-width:1;stroke-dasharray:2 3}
.k{stroke:#333;stroke-width:2;stroke-dasharray:6 3}
.r{fill:#fff;stroke:#0b62a8;stroke-width:2}
.w{fill:#c05a00}
.b{fill:#6b3fa0}
.h{fill:#fff}
.s{fill:none;stroke:#1a7f37;stroke-width:2}
.c{fill:none;stroke:#d1242f;stroke-width:2}
</style>
"""
END = "</svg>\n"
ESCAPES = str.maketrans({"&": "&amp;", "<": "&lt;", ">": "&gt;", '"': "&quot;"})
# Shapes of marks, by their middle and how far they reach from there.
RING, BOX, FRAME, PLUS, PEAK, BAR = "ring", "box", "frame", "plus", "peak", "bar"
SHAPES = {
    RING: '<circle class="r" cx="{x}" cy="{y}" r="{reach}"/>\n',
    BOX: '<rect class="w" x="{left}" y="{top}" width="{side}" height="{side}"/>\n',
    FRAME: '<rect class="b" x="{left}" y="{top}" width="{side}" height="{side}"/>\n'
    '<circle class="h" cx="{x}" cy="{y}" r="{half}"/>\n',
    PLUS: '<path class="s" d="M{left} {y}H{right}M{x} {top}V{lower}"/>\n',
    PEAK: '<path class="b" d="M{x} {top}L{right} {lower}H{left}Z"/>\n',
    BAR: '<path class="c" d="M{x} {top}V{lower}"/>\n',
}

LOOP_LEGEND = (
    (RING, 20, "reads"),
    (BOX, 90, "writes"),
    (FRAME, 164, "reads, then writes"),
    (PLUS, 310, "reduces"),
)
PAIR_SIDE, PAIR_X, PAIR_WORDS_X, PAIR_WORDS = 14, 391, 412, "a pair that conflicts"
EVENT_LEGEND = {
    "c": (PEAK, 20, "takes a block"),
    "l": (RING, 130, "looks"),
    "t": (BOX, 194, "does an iteration"),
    "p": (PLUS, 326, "posts a break"),
    "s": (BAR, 438, "stops"),
}
WORKERS = 16


class Picture:
    """A picture in the making, of columns and rows that have numbers."""

    def __init__(self, columns: Iterable[int], rows: Iterable[int]) -> None:
        self.parts: list[str] = []
        self.columns = {number: column for column, number in enumerate(columns)}
        self.rows = {number: row for row, number in enumerate(rows)}
        cell = min(max(CELLS_WIDTH // max(len(self.columns), len(self.rows), 1), LEAST_CELL), MOST_CELL)
        self.cell = cell - cell % 2  # the width and height of a cell, even
        self.half = self.cell // 2
        self.right = LEFT + len(self.columns) * self.cell  # the right and the lower edge of the cells
        self.bottom = TOP + len(self.rows) * self.cell
        self.legend_y = self.bottom + LEGEND_HEIGHT - 20  # the middle of the legend's marks

    def x(self, column: int) -> int:
        """The middle of the column of a number."""
        return LEFT + self.columns[column] * self.cell + self.half

    def y(self, row: int) -> int:
        """The middle of the row of a number."""
        return TOP + self.rows[row] * self.cell + self.half

    def head(self, title: str, columns: str, rows: str) -> None:
        """The beginning: the size, title and ground, what columns and rows are, and the columns' numbers, upright, each
        with a line through the column."""
        size = max(self.right + MARGIN, LEAST_WIDTH), self.bottom + LEGEND_HEIGHT
        title = title.translate(ESCAPES)
        self.parts += [SIZE.format(*size), f"<title>{title}</title>\n", STYLE]
        self.parts.append('<rect width="{}" height="{}" rx="6" fill="#fff"/>\n'.format(*size))
        self.words(12, 20, title, "t")
        self.words(LEFT, 38, columns)
        self.words(LEFT - 8, TOP - 8, rows, "e")
        for column in self.columns:
            x = self.x(column)
            self.down("g", x, TOP, self.bottom)
            self.parts.append(f'<text transform="translate({x + 3} {TOP - 6}) rotate(-90)">{column}</text>\n')

    def row_number(self, row: int) -> None:
        """The number of a row, with a line through the row."""
        self.across("g", self.y(row))
        self.words(LEFT - 8, self.y(row) + 3, row, "e")

    def mark(self, shape: str, column: int, row: int) -> None:
        """The mark of a cell."""
        self._draw(shape, self.x(column), self.y(row), self.half * 3 // 5)

    def legend(self, entries: Iterable[tuple[str, int, str]]) -> None:
        """The legend below the cells: of each mark its shape, where its middle is, and its words."""
        for shape, x, words in entries:
            self._draw(shape, x, self.legend_y, LEGEND_REACH)
            self.words(x + 12, self.legend_y + 4, words, "l")

    def words(self, x: int, y: int, words: object, style: str = "") -> None:
        """Words of a class of the style."""
        kind = f' class="{style}"' if style else ""
        self.parts.append(f'<text{kind} x="{x}" y="{y}">{words}</text>\n')

    def down(self, style: str, x: int, y: int, end: int) -> None:
        """A line down."""
        self.parts.append(f'<path class="{style}" d="M{x} {y}V{end}"/>\n')

    def across(self, style: str, y: int) -> None:
        """A line through all columns."""
        self.parts.append(f'<path class="{style}" d="M{LEFT} {y}H{self.right}"/>\n')

    def square(self, x: int, y: int, side: int) -> None:
        """A frame of a pair of cells, by its upper left corner."""
        self.parts.append(f'<rect class="c" x="{x}" y="{y}" width="{side}" height="{side}"/>\n')

    def _draw(self, shape: str, x: int, y: int, reach: int) -> None:
        """A shape around its middle."""
        ends = {"left": x - reach, "right": x + reach, "top": y - reach, "lower": y + reach}
        self.parts.append(SHAPES[shape].format(x=x, y=y, reach=reach, half=reach // 2, side=reach * 2, **ends))


def draw_loop(facts: Facts, loops: Loops) -> str | None:
    """The first loop that conflicts, with iterations down and elements across: a mark where an iteration reads, writes
    or reduces an element, and frames around the pairs of iterations that conflict. None if no loop conflicts."""
    grid = facts.grid
    if grid is None:
        return None
    loop = facts.loops[grid.loop]
    iterations = [*range(grid.lower, grid.lower_past), *range(grid.upper, grid.upper_past)]
    picture = Picture(sorted({loops.element(cell) for cell in loop.cells}), iterations)
    title = f"loop at {loop.slot}: {loop.iterations} iterations, {loops.verdict(loop)}"
    picture.head(title, columns="elements", rows="iterations")
    for iteration, row in picture.rows.items():
        picture.row_number(iteration)
        if row and iteration - 1 not in picture.rows:  # it doesn't follow on the one before it
            picture.across("d", picture.y(iteration) - picture.half)
    for pair in loop.pairs:
        _draw_pair(picture, pair, loops.element(pair))
    for cell in loop.cells:
        shape = _shape_of(cell)
        if cell.iteration in picture.rows and shape is not None:
            picture.mark(shape, loops.element(cell), cell.iteration)
    if loop.break_iteration is not None and loop.break_iteration in picture.rows:
        y = picture.y(loop.break_iteration) + picture.half
        picture.across("k", y)
        picture.words(picture.right + 4, y + 3, "breaks")
    picture.legend(LOOP_LEGEND)
    picture.square(PAIR_X, picture.legend_y - PAIR_SIDE // 2, PAIR_SIDE)
    picture.words(PAIR_WORDS_X, picture.legend_y + 4, PAIR_WORDS, "l")
    return "".join(picture.parts) + END


def _draw_pair(picture: Picture, pair: Pair, element: int) -> None:
    """Frames around two cells of a column and the line between them, if both are shown."""
    if element not in picture.columns or not {pair.writer, pair.reader} <= picture.rows.keys():
        return
    x, half = picture.x(element), picture.half
    upper, lower = sorted((picture.y(pair.writer), picture.y(pair.reader)))
    for y in (upper, lower):
        picture.square(x - half, y - half, picture.cell)
    picture.down("c", x, upper + half, lower - half)


def _shape_of(cell: Cell) -> str | None:
    """The mark of what an iteration does at an element: it reduces it, or reads it before it writes it, or does one."""
    if cell.read is None:
        return None if cell.write is None else BOX
    if cell.write is None:
        return RING
    return FRAME if cell.reduce is None else PLUS


def draw_events(events: Sequence[tuple[str, int]]) -> str:
    """The first 64 events, each a letter and the number of a worker: workers down, events across, a mark where a worker
    does something.

    They are drawn as they are, whether they are a schedule of a loop or not; of workers above 15, whom no loop has,
    nothing is drawn."""
    shown = events[:MOST]
    picture = Picture(range(len(shown)), sorted({worker for _, worker in shown if worker < WORKERS}))
    count = len(events)
    front = f"the first {MOST} of " if count > MOST else ""
    picture.head(f"replay: {front}{count} events", columns="events", rows="workers")
    for worker in picture.rows:
        picture.row_number(worker)
    for column, (letter, worker) in enumerate(shown):
        if worker in picture.rows:
            picture.mark(EVENT_LEGEND[letter][0], column, worker)
    picture.legend(EVENT_LEGEND.values())
    return "".join(picture.parts) + END
