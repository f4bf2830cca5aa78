"""Walks along block graphs."""
import re

from blocks import BITS, one_result, two_result

ESCAPES = {"n": "\n", "t": "\t", "r": "\r", "\\": "\\"}


class Walk:
    """A walk from scalars and arrays, lists of patterns, of at most so many visits. `value` is what it returns, `is_over` whether it
    does; `strays` counts the accesses past each array."""

    def __init__(self, graph, scalars, arrays, most):
        self.graph, self.arrays, self.strays, self.visits = graph, [list(array) for array in arrays], [0] * len(arrays), 0
        self.value, self.is_over = None, False
        at = 0, list(scalars)
        while at and self.visits < most:
            at = self.visit(*at)
            self.visits += 1

    def visit(self, number, values):
        """The block that comes next, with its values; None after a return."""
        _, steps, jump = self.graph.blocks[number]
        for step in steps:
            values.append(self.result(step, values))
        if jump[0] == "return":
            self.is_over, self.value = True, None if jump[1] is None else values[jump[1]]
            return None
        to, given = jump[1] if jump[0] == "go" else jump[2] if values[jump[1]] else jump[3]
        return to, [values[value] for value in given]

    def result(self, step, values):
        kind, *words = step
        if kind == "const":
            return words[1]
        if kind == "one":
            return one_result(words[0], values[words[1]])
        if kind == "two":
            return two_result(words[0], values[words[1]], values[words[2]])
        if kind == "select":
            return values[words[2]] if values[words[1]] else values[words[3]]
        return self.access(words[0], values[words[1]], values[words[2]] if kind == "store" else None)

    def access(self, array, address, value):
        """The element that is read, or None where one is written; past the array 0 is read, and nothing is written."""
        if address >= len(self.arrays[array]):
            self.strays[array] += 1
            return 0
        if value is None:
            return self.arrays[array][address]
        self.arrays[array][address] = value
        return None

    def results(self):
        """The arrays and the value as a run prints them, a line each."""
        lines = [f"{name} =" + "".join(f" {number(x, ty)}" for x in elements)
                 for (name, ty, _), elements in zip(self.graph.arrays, self.arrays)]
        return lines + ([f"return = {number(self.value, self.graph.result)}"] if self.graph.result else [])


def number(pattern, ty):
    return pattern - (1 << BITS[ty]) if ty[0] == "i" and pattern >> (BITS[ty] - 1) else pattern


def read_inputs(graph, text):
    """The patterns of a graph's scalars and arrays that a text of inputs gives."""
    given = {}
    for line in re.split(r"\r?\n", text):
        if line.strip() and not line.startswith("#"):
            name, _, numbers = line.partition("=")
            given[name.strip()] = [int(word) for word in numbers.split()]
    patterns = lambda name, ty: [word & ((1 << BITS[ty]) - 1) for word in given[name]]
    return [patterns(name, ty)[0] for name, ty in graph.scalars], [patterns(name, ty) for name, ty, _ in graph.arrays]


# ---- fields of rows

def plain(field):
    """The text of a field with escapes."""
    return re.sub(r"\\(x[0-9a-fA-F]{2}|.)", lambda found: ESCAPES.get(found[1]) or chr(int(found[1][1:], 16)), field)


def escaped(text):
    return text.replace("\\", "\\\\").replace("\n", "\\n").replace("\t", "\\t").replace("\r", "\\r")
