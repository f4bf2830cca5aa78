"""The picture of a net, as an SVG."""
from html import escape

import draw_layout
from draw_blocks import Blocks
from draw_boxes import boxes_of, loop_channels
from draw_lines import HIGH, Registers, Rows, path_of, segments_of, spots
from draw_style import FRAME_TITLE, HOT, STYLE, TIP, channel_line, legend, text_width

MARGIN = 28
# What stands at places: at units that steer the condition or the number at `?`, and which input or output is which; at a queue the number.
INPUT_TEXTS = {"mux": lambda place: str(place - 1) if place else "?", "cmerge": str, "select": ("?", "yes", "no").__getitem__,
               "branch": "? ".__getitem__, "lsq": str}
OUTPUT_TEXTS = {"branch": ("yes", "no").__getitem__, "lsq": str}
SLANTS = {"mux": (0, 9), "branch": (9, 0)}


class Picture:
    """The places of a net's boxes, lines and frames."""

    def __init__(self, net, names):
        self.net = net
        self.boxes, into, out_of = boxes_of(net, names)
        self.ends = [(out_of[channel.source], into[channel.target]) for channel in net.channels]
        loops = loop_channels(net, into, out_of)
        self.blocks = Blocks(net, self.boxes, into, out_of, loops)
        self.groups, self.titles = groups_of(self.blocks, self.ends, loops)
        late = {at for at, box in enumerate(self.boxes) if box.style == "value" or box.shape == "sink"}
        last = {at for at, box in enumerate(self.boxes) if box.shape == "branch"}
        least = [text_width(title, 10) + 72 if title else 0 for title in self.titles]
        layout = draw_layout.placed(draw_layout.Graph([width_of(box) for box in self.boxes], self.ends, self.groups, least, loops, late, last))
        self.layout = layout
        segments = [it for at, path in enumerate(layout.paths)
                    for it in segments_of(at, path, [layout.rows[end] for end in self.ends[at]])]
        self.rows, self.registers = Rows(layout.group_of_row, segments), Registers()
        self.heights = self.rows.levels()
        sides = list(layout.ends.values()) + [(x, x) for path in layout.paths for _, x, _ in path]
        left, right = min(low for low, _ in sides), max(high for _, high in sides)
        self.width = max(right - left + 2 * MARGIN, 760)
        self.shift = (self.width - left - right) / 2
        self.height = self.rows.frame([len(self.rows.y) - 1])[1] + MARGIN

    def middle(self, at):
        """The middle of a box."""
        return self.layout.columns[at] + self.shift, self.rows.y[self.layout.rows[at]]

    def points(self, channel):
        """The points that a channel passes between its boxes."""
        return [(x + self.shift, self.rows.y[row]) for row, x, _ in self.layout.paths[channel]]

    def frames(self):
        """The frames of the blocks, and their titles, which are put over the lines."""
        frames, titles = [], []
        for group, title in enumerate(self.titles):
            rows = [row for row, of in enumerate(self.layout.group_of_row) if of == group]
            left, right = (x + self.shift for x in self.layout.ends[group])
            top, low = self.rows.frame(rows)
            if title:
                frames.append(f'<rect class="frame" x="{left:.1f}" y="{top:.1f}" width="{right - left:.1f}" height="{low - top:.1f}" rx="6"/>')
                titles.append(FRAME_TITLE.format(x=self.title_x(rows[0], left, right, title), y=top + 13, title=escape(title)))
        return frames, titles

    def title_x(self, row, left, right, title):
        """Where a title begins: at the left of its frame, or at the right where lines come in at the left and none at the right."""
        coming = [self.middle(at)[0] for at, place in enumerate(self.layout.rows) if place == row]
        coming += [x + self.shift for path in self.layout.paths for place, x, side in path if place == row and not side]
        wide = text_width(title, 10) + 6
        starts = [left + 8, right - wide - 4]
        return min(starts, key=lambda start: sum(start - 4 < x < start + wide for x in coming))


def groups_of(blocks, ends, loops):
    """For each box the number of its group, and the title of each group, "" of one without a frame. The groups are the blocks, and each
    box in no block; each comes after those that lead to it, and of others first the one with the least unit."""
    groups = {}
    for at, number in enumerate(blocks.of):
        groups.setdefault(number if number is not None else ("single", at), []).append(at)
    of = {at: key for key, boxes in groups.items() for at in boxes}
    first = {key: min((blocks.kind(at) in ("lsq", "sink"), blocks.boxes[at].unit) for at in boxes) for key, boxes in groups.items()}
    before = {key: set() for key in groups}
    for at, (above, below) in enumerate(ends):
        if at not in loops and of[above] != of[below]:
            before[of[below]].add(of[above])
    order = []
    while before:
        ready = [key for key, others in before.items() if not others & before.keys()] or list(before)
        order.append(min(ready, key=first.get))
        del before[order[-1]]
    number = {key: at for at, key in enumerate(order)}
    return [number[of[at]] for at in range(len(blocks.boxes))], ["" if isinstance(key, tuple) else blocks.titles[key] for key in order]


def svg(net, heat=None, names=None):
    """The text of the picture; `heat` has the cycles of the critical path on channels and in units, which are coloured by them, and
    `names` variables, as of draw_boxes.boxes_of."""
    picture = Picture(net, names)
    width, height = f"{picture.width:.0f}", f"{picture.height:.0f}"
    title = f"kernel {net.name}: {len(net.units)} units, {len(net.channels)} channels"
    frames, titles = picture.frames()
    middles = [picture.middle(at) for at in range(len(picture.boxes))]
    lines = [channel_svg(picture, at, *warmth(heat, 0, at)) for at in range(len(net.channels))]
    boxes = [box_svg(net, box, *middle, warmth(heat, 1, box.unit)[0]) for box, middle in zip(picture.boxes, middles)]
    return "\n".join([
        f'<svg xmlns="http://www.w3.org/2000/svg" width="{width}" height="{height}" viewBox="0 0 {width} {height}" '
        'style="background: #ffffff; color-scheme: light">',
        f"<title>{escape(title)}</title>", f"<style>{STYLE}{HOT if heat else ''}</style>", TIP,
        f'<rect width="{width}" height="{height}" fill="#ffffff"/>',
        f'<text class="title" x="{picture.width / 2:.0f}" y="26">{escape(title)}</text>', *legend(picture.width / 2, 46),
        *frames, *lines, *titles, *boxes, "</svg>", ""])


def warmth(heat, which, number):
    """The class that a channel (0) or a unit (1) is coloured by, and its cycles in words."""
    if not heat or not heat[which][number]:
        return "", ""
    cycles, total = heat[which][number], sum(heat[0].values()) + sum(heat[1].values())
    return (" hot" if 10 * cycles >= total else " warm"), f", {cycles} of the {total} cycles of the critical path"


def width_of(box):
    """How wide a box is; a point has its number beside it."""
    if box.shape in ("fork", "sink"):
        return 12 + 2 * text_width(str(box.unit), 8)
    slant = max(SLANTS.get(box.shape, (0, 0)))
    return max(16 + 2 * slant + sum(width for _, _, width in words_of(box)), pitch_of(box) * max(len(box.ins), len(box.outs)) + 2 * slant)


def words_of(box):
    """The words of a box, from left to right: class, text, and width with the space behind."""
    words = [("number", str(box.unit), 8), ("", box.text, 12), ("unit", box.small, 9), ("name", box.name, 11)]
    return [(kind, text, text_width(text, size) + 5) for kind, text, size in words if text]


def pitch_of(box):
    """The distance of two places on a side of a box."""
    return {"fork": 0, "sink": 0}.get(box.shape, 32 if box.text == "select" else 24)


def place_x(box, x, place, places):
    """Where a place lies on its side of the box."""
    return x + (places.index(place) - (len(places) - 1) / 2) * pitch_of(box)


def channel_svg(picture, number, warm="", cycles=""):
    """The line of a channel: down from row to row, or, where it leads back up, round below its first box and above its last."""
    channel, ends = picture.net.channels[number], picture.ends[number]
    (source, target), ((x0, y0), (x1, y1)) = (picture.boxes[end] for end in ends), (picture.middle(end) for end in ends)
    start = place_x(source, x0, channel.source[1], source.outs), y0 + (0 if source.shape == "fork" else HIGH / 2)
    end = place_x(target, x1, channel.target[1], target.ins), y1 - (4 if target.shape in ("fork", "sink") else HIGH / 2)
    points = picture.points(number)
    path = path_of(number, start, end, points, picture.heights)
    spot = picture.registers.place(spots(start, end, points, source.style in ("branch", "memory")), channel.delay) if channel.delay else None
    told = (f"chan {channel.source[0]}.{channel.source[1]} {channel.target[0]}.{channel.target[1]}: {channel.width} bits, "
            f"{channel.slots} slots, delay {channel.delay}{cycles}")
    return channel_line(told, (" control" if channel.control else "") + warm, path, target.shape != "fork", spot, channel.delay)


def box_svg(net, box, x, y, warm=""):
    """A box with its number, its text, and what stands at its places."""
    unit = net.units[box.unit]
    told = f"<title>unit {box.unit}: {escape(' '.join([unit.kind, *unit.words]))}{f' ({escape(box.name)})' if box.name else ''}</title>"
    if box.shape in ("fork", "sink"):
        return f"<g>{told}{point_svg(box, x, y)}</g>"
    half, high = width_of(box) / 2, HIGH / 2
    return f"<g>{told}{outline(box, x, y, half, high, warm)}{words_svg(box, x, y)}{marks(unit, box, x, y, high)}</g>"


def point_svg(box, x, y):
    """A fork, a point, or a sink, three bars; the number at its right."""
    number = f'<text class="number mark" x="{x + 7:.1f}" y="{y + (-3 if box.shape == "fork" else 6):.1f}">{box.unit}</text>'
    if box.shape == "fork":
        return f'<circle class="fork" cx="{x:.1f}" cy="{y:.1f}" r="4.5"/>{number}'
    bars = " ".join(f"M{x - wide:.1f},{y - 4 + at * 4:.1f} h{2 * wide}" for at, wide in enumerate((8, 5, 2)))
    return f'<path class="line" d="{bars}"/>{number}'


def outline(box, x, y, half, high, warm):
    """The outline of a box."""
    if box.shape not in SLANTS:
        return (f'<rect class="node {box.style}{warm}" x="{x - half:.1f}" y="{y - high:.1f}" width="{2 * half:.1f}" '
                f'height="{HIGH}" rx="{13 if box.shape == "pill" else 3}"/>')
    top, low = (half - slant for slant in SLANTS[box.shape])
    return (f'<path class="node {box.style}{warm}" d="M{x - top:.1f},{y - high:.1f} L{x + top:.1f},{y - high:.1f} '
            f'L{x + low:.1f},{y + high:.1f} L{x - low:.1f},{y + high:.1f} z"/>')


def words_svg(box, x, y):
    """The words in a box."""
    words, text = words_of(box), ""
    at = x - (sum(width for _, _, width in words) - 5) / 2
    for kind, word, width in words:
        text += f'<text class="left {kind}" x="{at:.1f}" y="{y + 4:.1f}">{escape(word)}</text>'
        at += width
    return text


def marks(unit, box, x, y, high):
    """What stands at the places of a box."""
    texts = [(place_x(box, x, place, box.ins) + 9, y - high - 3, INPUT_TEXTS[unit.kind](place))
             for place in box.ins if unit.kind in INPUT_TEXTS]
    texts += [(place_x(box, x, place, box.outs) + 10, y + high + 10, OUTPUT_TEXTS[unit.kind](place))
              for place in box.outs if unit.kind in OUTPUT_TEXTS]
    return "".join(f'<text class="small mark" x="{at:.1f}" y="{up:.1f}">{text}</text>' for at, up, text in texts if text.strip())
