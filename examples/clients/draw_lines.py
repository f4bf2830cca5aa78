"""The lines of a picture's channels. Between two rows a line is a curve. Where it goes into a lane beside the blocks, or comes out of one,
it runs level, and each of those that do so between the same rows has a height of its own."""

from draw_style import register_width

# From a row's middle to the next, and what two blocks have between them; the height of a box, the room in a frame below its last row, the
# room for level parts between two frames, and the distance of two.
ROW, TOP, BETWEEN, HIGH, FRAME, LEVELS, STEP = 62, 132, 54, 26, 20, 24, 5


class Rows:
    """The heights of the rows' middles, of the frames' ends, and of the level parts of lines. `segments` has for each level part its key,
    its kind, the row below which (or, of kind `above`, above which) it runs, and the column of its lane: `below` and `above` where a
    loop's line leaves its first box and comes to its last, `in` and `out` where another comes out of a lane and goes into one."""

    def __init__(self, group_of_row, segments):
        self.places = {}
        for key, kind, row, lane in segments:
            place = ("gap" if kind in ("in", "out") else kind, row)
            self.places.setdefault(place, []).append((kind != "in", lane if kind == "in" else -lane, key))
        count = len(group_of_row)
        self.over, self.under = ([self.more(kind, row, 12) for row in range(count)] for kind in ("above", "below"))
        self.y = [TOP + self.over[0]]
        for row in range(1, count):
            between = BETWEEN + self.more("gap", row - 1, LEVELS) if group_of_row[row] != group_of_row[row - 1] else 0
            self.y.append(self.y[-1] + ROW + self.under[row - 1] + self.over[row] + between)

    def more(self, kind, row, room):
        """The room that the level parts at a place need beyond what there is."""
        return max(0, STEP * (len(self.places.get((kind, row), [])) - 1) - room)

    def frame(self, rows):
        """The upper and the lower end of a frame round these rows."""
        return self.y[rows[0]] - HIGH / 2 - 34 - self.over[rows[0]], self.y[rows[-1]] + HIGH / 2 + FRAME + self.under[rows[-1]]

    def levels(self):
        """The height of each level part: those that lie further out run so that they cross no lane that lies further in."""
        found = {}
        for (kind, row), here in self.places.items():
            low = self.y[row] + HIGH / 2
            first, step = {"gap": (low + FRAME + self.under[row] + 4, STEP), "below": (low + 8, STEP),
                           "above": (low - HIGH - 10, -STEP)}[kind]
            found.update((key, first + step * rank) for rank, (_, _, key) in enumerate(sorted(here)))
        return found


def curve(start, end):
    """A curve from a point to another below it that leaves and comes in vertically."""
    (x0, y0), (x1, y1) = start, end
    middle = (y0 + y1) / 2
    return f"C{x0:.1f},{middle:.1f} {x1:.1f},{middle:.1f} {x1:.1f},{y1:.1f}"


def on_curve(start, end, part):
    """The point of such a curve at a part of its way."""
    (x0, y0), (x1, y1) = start, end
    near = (1 - part) ** 3 + 3 * (1 - part) ** 2 * part
    middle = (y0 + y1) / 2
    y = (1 - part) ** 3 * y0 + 3 * (1 - part) * part * middle + part ** 3 * y1
    return near * x0 + (1 - near) * x1, y


def level_line(start, end, level):
    """A line that goes up or down to a level, runs there, and goes up or down to its end, with round corners."""
    (x0, y0), (x1, y1) = start, end
    side = 1 if x1 > x0 else -1
    wide = min(8, abs(x1 - x0) / 2)
    first, last = (min(8, abs(level - y)) * (1 if y > level else -1) for y in (y0, y1))
    return (f"L{x0:.1f},{level + first:.1f} Q{x0:.1f},{level:.1f} {x0 + side * wide:.1f},{level:.1f} "
            f"L{x1 - side * wide:.1f},{level:.1f} Q{x1:.1f},{level:.1f} {x1:.1f},{level + last:.1f} L{x1:.1f},{y1:.1f}")


def spots(start, end, points, is_marked):
    """Where on a line a register may be, the best place first: further from a first end that has a mark beside it."""
    if not points:
        return [on_curve(start, end, part) for part in ((0.62, 0.5, 0.7) if is_marked else (0.5, 0.62, 0.38, 0.7, 0.3))]
    middle = sorted(points, key=lambda point: abs(points.index(point) - len(points) // 2))[:5]
    return middle + [(x, y + step) for x, y in middle for step in (10, -10)]


class Registers:
    """The registers of a picture; each is put where it hides no other, if there is such a place."""

    def __init__(self):
        self.taken = []

    def place(self, found, delay):
        """The first of these places that is free, or the first."""
        wide = register_width(delay)
        spot = next((it for it in found if not any(self.over(it, wide, other) for other in self.taken)), found[0])
        self.taken.append((*spot, wide))
        return spot

    @staticmethod
    def over(spot, wide, other):
        """Whether a register at a spot lies over another."""
        return abs(spot[0] - other[0]) < (wide + other[2]) / 2 + 1 and abs(spot[1] - other[1]) < 13


def segments_of(number, path, rows):
    """The level parts of a line: `path` has the (row, column, side) points between its two ends, and `rows` the rows of these. A part's
    key is the line's number and how many points are before it."""
    if path and rows[1] <= rows[0]:
        return [((number, 0), "below", rows[0], path[0][1]), ((number, len(path)), "above", rows[1], path[-1][1])]
    found, ends = [], [(rows[0], 0, 0), *path, (rows[1], 0, 0)]
    for at, (one, other) in enumerate(zip(ends, ends[1:])):
        if one[2] != other[2]:
            found.append(((number, at), "out" if other[2] else "in", one[0], other[1] if other[2] else one[1]))
    return found


def path_of(number, start, end, points, heights):
    """The path of a line from a point over others (column, height of the row's middle) to the last."""
    back = end[1] <= start[1]
    words, at = [f"M{start[0]:.1f},{start[1]:.1f}"], start
    for count, (x, y) in enumerate(points):
        enter, leave = (y + HIGH / 2, y - HIGH / 2) if back else (y - HIGH / 2, y + HIGH / 2)
        words += [part(at, (x, enter), heights.get((number, count))), f"L{x:.1f},{leave:.1f}"]
        at = (x, leave)
    words.append(part(at, end, heights.get((number, len(points)))))
    return " ".join(words)


def part(start, end, level):
    """A part of a line, level where it has a level."""
    return curve(start, end) if level is None else level_line(start, end, level)
