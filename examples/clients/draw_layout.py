"""Places for the nodes and edges of a graph in rows, top to bottom. The nodes are in groups, which are put one below the other, each in
rows of its own; in a group a node's row is the longest path to it. In each row the order is one in which few edges cross, and columns
are such that edges are nearly straight. What passes a group goes beside all its nodes: edges that lead back up at the left, others at
the right.

    layout = draw_layout.placed(graph)

has for each node its row and its column (the middle), for each edge the points between its two nodes, each with its row, its column and
its side (0 in the row's group, -1 left, 1 right of it), for each row its group, and for each group the left and the right end of what
is in it."""
from collections import namedtuple

from graphs import topological

SWEEPS, GAP, LANE, PAD = 24, 20, 10, 14
BETWEEN_LANES = 20

# `widths` has a width for each node, `edges` pairs of nodes, `groups` the group of each node, and `least` the least width of each group;
# `back` the numbers of edges that are known to lead back up, `late` the nodes that are put as low as they can be, and `last` those of a
# group that are put into one row, the lowest that one of them needs.
Graph = namedtuple("Graph", "widths edges groups least back late last")
Layout = namedtuple("Layout", "rows columns paths group_of_row ends")


class Nodes:
    """The nodes and the points of edges: row, width, and side: 0 within the row's group, -1 or 1 left or right of it."""

    def __init__(self, graph, rows):
        self.rows, self.widths, self.sides = list(rows), list(graph.widths), [0] * len(rows)
        self.real, self.least = len(rows), graph.least
        self.group_of_row = [0] * (max(rows, default=-1) + 1)
        for node, row in enumerate(rows):
            self.group_of_row[row] = graph.groups[node]
        self.chains = [self.chain(graph, *edge, at in graph.back) for at, edge in enumerate(graph.edges)]
        self.beside = [[] for _ in self.rows]

    def chain(self, graph, above, below, back):
        """Points for an edge, one in each row that it passes, from its first node on, and whether it leads back up."""
        back = back or self.rows[below] <= self.rows[above]
        first, ends = len(self.rows), (graph.groups[above], graph.groups[below])
        rows = range(self.rows[above], self.rows[below] - 1, -1) if back else range(self.rows[above] + 1, self.rows[below])
        self.rows.extend(rows)
        self.widths.extend([LANE] * len(rows))
        self.sides.extend(-1 if back else int(self.group_of_row[row] not in ends) for row in rows)
        return list(range(first, len(self.rows)))

    def link(self, edges):
        """Notes for each node which others it is joined to."""
        for (above, below), chain in zip(edges, self.chains):
            nodes = [above, *chain, below]
            for one, other in zip(nodes, nodes[1:]):
                self.beside[one].append(other)
                self.beside[other].append(one)


def placed(graph):
    """The layout of a graph."""
    nodes = Nodes(graph, rows_of(graph))
    nodes.link(graph.edges)
    columns, ends = columns_of(ordered(nodes), nodes)
    paths = [[(nodes.rows[node], columns[node], nodes.sides[node]) for node in chain] for chain in nodes.chains]
    return Layout(nodes.rows[:nodes.real], columns[:nodes.real], paths, nodes.group_of_row, ends)


def rows_of(graph):
    """Each node's row: in its group the longest path to it; then late nodes go down."""
    count, groups = len(graph.widths), graph.groups
    inner = [edge for at, edge in enumerate(graph.edges) if at not in graph.back and groups[edge[0]] == groups[edge[1]]]
    order, out = topological(count, inner)
    rows = longest(order, out, [0] * count)
    lowest = {}
    for node in graph.last:
        lowest[groups[node]] = max(lowest.get(groups[node], 0), rows[node])
    rows = longest(order, out, [lowest[groups[node]] if node in graph.last else 0 for node in range(count)])
    for node in reversed(order):
        if node in graph.late and out[node]:
            rows[node] = min(rows[below] for below in out[node]) - 1
    first, heights = 0, {}
    for node, row in enumerate(rows):
        heights[groups[node]] = max(heights.get(groups[node], 0), row + 1)
    starts = {}
    for group in sorted(heights):
        starts[group], first = first, first + heights[group]
    return [row + starts[groups[node]] for node, row in enumerate(rows)]


def longest(order, out, least):
    """For each node the longest path to it, and no less than its least."""
    rows = list(least)
    for node in order:
        for below in out[node]:
            rows[below] = max(rows[below], rows[node] + 1)
    return rows


def ordered(nodes):
    """The nodes of each row from left to right: sweeps down and up put each node in the middle of those that it is joined to, on its side
    of the group."""
    rows = [[] for _ in nodes.group_of_row]
    for node, row in enumerate(nodes.rows):
        rows[row].append(node)
    rows = [sorted(row, key=nodes.sides.__getitem__) for row in rows]
    at = {node: place - len(row) / 2 for row in rows for place, node in enumerate(row)}
    kept = [(crossings(rows, nodes.beside), rows)]
    for sweep in range(SWEEPS):
        rows = [list(row) for row in rows]
        for row in rows if sweep % 2 == 0 else reversed(rows):
            side = 1 if sweep % 2 else -1
            seen = {node: [at[it] for it in nodes.beside[node] if (nodes.rows[it] - nodes.rows[node]) * side >= 0] or [at[node]]
                    for node in row}
            row.sort(key=lambda node: (nodes.sides[node], sum(seen[node]) / len(seen[node])))
            at.update((node, place - len(row) / 2) for place, node in enumerate(row))
        kept.append((crossings(rows, nodes.beside), rows))
    return min(kept, key=lambda it: it[0])[1]


def crossings(rows, beside):
    """How many pairs of edges between neighbouring rows cross."""
    total = 0
    for row, below in zip(rows, rows[1:]):
        place = {node: at for at, node in enumerate(below)}
        ends = [at for node in row for at in sorted(place[it] for it in beside[node] if it in place)]
        total += sum(ends[i] > ends[j] for i in range(len(ends)) for j in range(i + 1, len(ends)))
    return total


def columns_of(rows, nodes):
    """The middle of each node, and the ends of each group. A node is near those that it is joined to, in the row's order, with a gap
    between two. The points of one edge pull each other more than nodes do, so that edges are straight."""
    columns = [0.0] * len(nodes.rows)
    rows = [[node for node in row if nodes.sides[node] == 0] for row in rows]
    beside = [[it for it in others if nodes.sides[it] == 0] for others in nodes.beside]
    for sweep in range(2 * SWEEPS):
        for row in rows if sweep % 2 == 0 else reversed(rows):
            wished = [_pulled(node, beside[node], columns, nodes.real) for node in row] if sweep else [0.0] * len(row)
            _settle(row, wished, [1.0 if node < nodes.real else 3.0 for node in row], nodes.widths, columns)
    _straighten(rows, nodes, columns)
    ends = _group_ends(rows, nodes, columns)
    _lanes(nodes, ends, columns)
    return columns, ends


def _pulled(node, others, columns, real):
    pulls = [(columns[it], 8 if node >= real and it >= real else 1) for it in others] or [(columns[node], 1)]
    return sum(column * pull for column, pull in pulls) / sum(pull for _, pull in pulls)


def _settle(row, wished, weights, widths, columns):
    """Puts a row's nodes as near to the wished places as the order and the gaps allow, by least squares."""
    offset, blocks = 0.0, []
    for at, node in enumerate(row):
        if at:
            offset += (widths[row[at - 1]] + widths[node]) / 2 + GAP
        blocks.append([weights[at] * (wished[at] - offset), weights[at], [(node, offset)]])
        while len(blocks) > 1 and blocks[-2][0] / blocks[-2][1] > blocks[-1][0] / blocks[-1][1]:
            total, weight, nodes = blocks.pop()
            blocks[-1] = [blocks[-1][0] + total, blocks[-1][1] + weight, blocks[-1][2] + nodes]
    for total, weight, nodes in blocks:
        for node, offset in nodes:
            columns[node] = total / weight + offset


def _group_ends(rows, nodes, columns):
    """The left and the right end of each group, with its least width."""
    found = {}
    for number, row in enumerate(rows):
        for node in row:
            if nodes.sides[node] == 0:
                low, high = columns[node] - nodes.widths[node] / 2, columns[node] + nodes.widths[node] / 2
                left, right = found.get(nodes.group_of_row[number], (low, high))
                found[nodes.group_of_row[number]] = min(left, low), max(right, high)
    return {group: (left - PAD, max(right, left + nodes.least[group]) + PAD) for group, (left, right) in found.items()}


def _straighten(rows, nodes, columns):
    """Puts the points of an edge that follow each other into one column, as far as those beside them leave room."""
    place = {node: (row, at) for row in rows for at, node in enumerate(row)}
    for chain in nodes.chains:
        run, low, high = [], float("-inf"), float("inf")
        for node in [it for it in chain if nodes.sides[it] == 0]:
            least, most = _room(*place[node], nodes.widths, columns)
            if run and (nodes.rows[node] != nodes.rows[run[-1]] + 1 or max(low, least) > min(high, most)):
                _put(run, low, high, columns)
                run, low, high = [], float("-inf"), float("inf")
            run, low, high = [*run, node], max(low, least), min(high, most)
        _put(run, low, high, columns)


def _room(row, at, widths, columns):
    """How far left and right a node of a row can go."""
    def apart(one, other):
        return (widths[one] + widths[other]) / 2 + GAP
    low = columns[row[at - 1]] + apart(row[at - 1], row[at]) if at else float("-inf")
    high = columns[row[at + 1]] - apart(row[at], row[at + 1]) if at + 1 < len(row) else float("inf")
    return min(low, columns[row[at]]), max(high, columns[row[at]])


def _put(run, low, high, columns):
    """Puts nodes into one column between two ends, near their middle."""
    if run:
        column = min(max(sum(columns[node] for node in run) / len(run), low), high)
        for node in run:
            columns[node] = column


def _lanes(nodes, ends, columns):
    """Puts what passes groups into lanes left or right of them, each one straight, the shorter ones nearer."""
    runs = []
    for chain in nodes.chains:
        for side in (-1, 1):
            run = [node for node in chain if nodes.sides[node] == side]
            runs += [(side, run)] if run else []
    used = []
    for side, run in sorted(runs, key=lambda it: len(it[1])):
        rows = {nodes.rows[node] for node in run}
        limits = [ends[nodes.group_of_row[row]][side > 0] for row in rows]
        limits += [column for other, taken, column in used if other == side and taken & rows]
        column = (min if side < 0 else max)(limits) + side * BETWEEN_LANES
        used.append((side, rows, column))
        for node in run:
            columns[node] = column
