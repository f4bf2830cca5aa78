#!/usr/bin/env python3
"""Names for the units of a kernel's circuit.

    tools/use/name_units.py KERNEL NETLIST > names.txt

NETLIST is what `elastic compile KERNEL` printed, with any options; `-` is the standard input. The block graph of the kernel is computed
by tools/oracles/optimized_graph.py, and the circuit is built from it by lean_net.py; both are written beside the program. So the netlist
must have the units and the channels of that circuit, and where it has not, nothing is printed. A line `UNIT NAME` says

- of a mux: its block has this variable as an argument;
- of a branch: it leads this variable into one of two blocks;
- of a constant, an operation, a `select` or a `read`: the variable is set to its value, or each of several variables.

A line `UNIT.PLACE NAME` says the latter of a load port of a queue. The variable x of a helper h is named `h.x`, the value of a call
`h()`. `draw.py --names names.txt` draws the names, and `draw.py --kernel KERNEL` makes them itself. A unit of a value that no variable
of the kernel has gets no line."""
import pathlib
import sys

TOP = pathlib.Path(__file__).resolve().parents[2]
sys.path[:0] = [str(TOP / folder) for folder in ("tools/oracles", "examples/clients")]
import lean_net  # noqa: E402  (their folders were just named)
import netlist  # noqa: E402
import optimized_graph  # noqa: E402
from blocks import Graph  # noqa: E402


class NoNames(Exception):
    """Why there are no names, in a sentence."""


def graph(text):
    """A kernel's optimized graph, and for each block the names of its values: of the arguments, which come first, and of the steps."""
    made = optimized_graph.optimized(Graph.of_kernel(text))
    names = [[getattr(width, "name", "") for width in args] + [", ".join(getattr(step[0], "names", ())) for step in steps] for args, steps, _ in made.blocks]
    return made, names


class Drawing(lean_net.Drawing):
    """A circuit that keeps which units have a name: by the unit's number, or by the unit's and the place's."""

    def __init__(self, made, names):
        self.values, self.number, self.named = names, 0, {}
        widths = lean_net.WIDTHS
        super().__init__([(name, widths[ty]) for name, ty in made.scalars], [(name, widths[ty]) for name, ty, _ in made.arrays],
                         widths[made.result] if made.result else None, [lean_net.Block(text) for text in made.text().split("|")])

    def lay_block(self, number, block):
        self.number = number
        super().lay_block(number, block)
        if self.heads[number] is not None:
            for at in range(len(block.args)):
                self.named[self.heads[number] + 2 + at] = self.values[number][at]

    def lay_step(self, step):
        value, unit = len(self.ends), len(self.units)
        queue = self.queues.get(int(step[1])) if step[0] in ("load", "store") else None
        place = unit if not queue else (queue["unit"], queue["groups"] + 1 + queue["port"])
        super().lay_step(step)
        self.named[place] = self.values[self.number][value] if step[0] != "store" else ""

    def lay_branches(self, block):
        first = len(self.units)
        super().lay_branches(block)
        branches = [at for at in range(first, len(self.units)) if self.units[at].startswith("branch ")]
        led = [value for value in range(len(self.ends)) if any(value in values for _, values in block.sides())]
        self.named.update((branch, self.values[self.number][value]) for branch, value in zip(branches, led))


def plain(kind, words):
    """A unit without what the options of a compilation change: a queue's entries and its mark."""
    return (kind, words[0], *words[2:4]) if kind == "lsq" else (kind, *words)


def names(text, net):
    """The names of a net's units by the text of its kernel: a dictionary from a unit's number, or (unit, place), to a name."""
    try:
        drawing = Drawing(*graph(text))
    except (AssertionError, AttributeError, IndexError, KeyError, StopIteration, TypeError, ValueError) as wrong:
        raise NoNames("its block graph is not computed here; does `elastic compile` take the kernel?") from wrong
    units = [plain(*(lambda kind, *words: (kind, words))(*unit.split())) for unit in drawing.units]
    channels = [(start, to) for start, to, _, _ in drawing.chans]
    if (units, channels) != ([plain(it.kind, it.words) for it in net.units], [(it.source, it.target) for it in net.channels]):
        raise NoNames("the netlist is not the circuit of this kernel")
    return {place: name for place, name in drawing.named.items() if name}


def main():
    if len(sys.argv) != 3:
        sys.exit(__doc__)
    try:
        found = names(netlist.text_of(sys.argv[1]), netlist.load(sys.argv[2]))
    except NoNames as wrong:
        sys.exit(f"{sys.argv[1]}: no names: {wrong}")
    key = {place: place if isinstance(place, tuple) else (place,) for place in found}
    for place in sorted(found, key=key.get):
        print(".".join(map(str, key[place])), found[place])


if __name__ == "__main__":
    main()
