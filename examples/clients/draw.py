#!/usr/bin/env python3
"""Shows a circuit.

    draw.py NETLIST            a summary: units by kind, registers, queues, the longest chain of units without a register
    draw.py --svg NETLIST      a picture, as an SVG
    draw.py --dot NETLIST      the same graph for Graphviz
    draw.py --svg --where INPUTS NETLIST    the picture of a run: what its critical path goes over is orange, and where it takes a
                               tenth of its cycles and more red (`where.py` tells the same in lines)
    draw.py --svg --kernel KERNEL.c NETLIST    a picture with the names of the kernel's variables
    draw.py --svg --names NAMES NETLIST        the same with the names in a file: lines `UNIT NAME` or, of a place of a queue,
                               `UNIT.PLACE NAME`, as tools/use/name_units.py prints them

NETLIST is a file with a netlist, alone or within what `elastic go` or `make demo` printed, or `-`, the standard input. In a
picture tokens go down, but in loops, which lead back up at the left. Control tokens go on dashed lines; a point is a fork;
a bar with a number on a line is a register: a delay of so many cycles. A queue is drawn by its acts, one box for each: `enter`,
where the control token of a group of accesses passes, `load` and `store`, and `done`, where it waits until the queue is empty.

The small number in each box is the unit's. A frame is a block: it begins at the entry, at a control merge, or at an output of a
branch of control, and its title says of which unit. It goes to the next branch of control, control merge or exit. Other units are in
the block of what they work on: a mux in that of its control merge, the ports of a queue in that of their `enter`, others in the block
that their inputs come from; where the netlist does not say, a unit is in no frame (draw_blocks.py). With names a mux and a branch have
the variable that they lead, and `→ i` says that the variable i is set to a value."""
import argparse
import pathlib
import re
import signal
import sys
from collections import Counter

import netlist
import where
from draw_style import FILLS
from draw_svg import Picture, svg
from graphs import back_edges, topological

SHAPES = {"pill": "oval", "box": "box", "mux": "invtrapezium", "branch": "trapezium", "fork": "point", "sink": "invtriangle"}


def dot(net, names=None):
    """The graph for Graphviz, with a cluster for each block."""
    picture = Picture(net, names)
    lines = [f"digraph {net.name} {{", '  node [style=filled, fontname="Helvetica"]']
    for at, box in enumerate(picture.boxes):
        text = " ".join(filter(None, [box.text, box.small, box.name])).replace("\\", "\\\\").replace('"', '\\"')
        label = f'label="", xlabel="{box.unit}"' if box.shape == "fork" else f'label="{f"{box.unit} {text}".strip()}"'
        lines.append(f'  b{at} [{label}, shape={SHAPES[box.shape]}, fillcolor="{FILLS[box.style]}", tooltip="unit {box.unit}"]')
    for group, title in enumerate(picture.titles):
        inside = "; ".join(f"b{at}" for at, of in enumerate(picture.groups) if of == group)
        lines += [f'  subgraph cluster_{group} {{ label="{title}"; {inside} }}'] if title else []
    for channel, (source, target) in zip(net.channels, picture.ends):
        marks = (["style=dashed"] if channel.control else []) + ([f'label="{channel.delay}"'] if channel.delay else [])
        lines.append(f"  b{source} -> b{target} [{', '.join(marks)}]")
    return "\n".join([*lines, "}", ""])


def summary(net):
    """What the circuit has, in lines."""
    lines = [f"kernel {net.name}: {len(net.units)} units, {len(net.channels)} channels"]
    kinds = Counter(unit.kind if not unit.kind.startswith("op") else unit.words[0] for unit in net.units)
    lines += ["", "units", *(f"  {count:4} {kind}" for kind, count in sorted(kinds.items(), key=lambda it: (-it[1], it[0])))]
    delayed = [channel for channel in net.channels if channel.delay]
    bits = sum(channel.width * channel.delay for channel in delayed)
    lines += ["", f"registers: {len(delayed)} channels have a delay, together {bits} bits in a pipeline of full rate"]
    delays = Counter(channel.delay for channel in delayed)
    lines += [f"  {count:4} of {delay} cycle{'s' * (delay > 1)}" for delay, count in sorted(delays.items())]
    queues = [netlist.queue(unit) for unit in net.units if unit.kind == "lsq"]
    for it in queues:
        lines += ["", f"queue of {net.arrays[it.array][0]}: {it.depth} entries, {it.ports.count('l')} load and "
                      f"{it.ports.count('s')} store ports in {len(it.groups)} groups, {it.mark}"]
    slots = Counter(channel.slots for channel in net.channels)
    lines += ["", "slots: " + ", ".join(f"{count} channels of {slot}" for slot, count in sorted(slots.items()))]
    return "\n".join([*lines, "", *chain_lines(net), ""])


def chain_lines(net):
    """The longest chain of units in which a token goes from unit to unit in one cycle; forks count as wires."""
    edges = [(it.source[0], it.target[0]) for it in net.channels if not it.delay]
    if back_edges(len(net.units), edges):
        return ["chain: there is a loop of channels of delay 0, which rule C4 forbids"]
    order, out = topological(len(net.units), edges)
    length, before = [0] * len(net.units), [None] * len(net.units)
    for unit in order:
        length[unit] += net.units[unit].kind != "fork"
        for below in out[unit]:
            if length[unit] > length[below]:
                length[below], before[below] = length[unit], unit
    at = max(range(len(net.units)), key=length.__getitem__, default=None)
    chain = []
    while at is not None:
        chain.append(at)
        at = before[at]
    units = [f"  {unit:4} {' '.join([net.units[unit].kind, *net.units[unit].words])}" for unit in reversed(chain)]
    count = sum(net.units[unit].kind != "fork" for unit in chain)
    return [f"longest chain without a register: {count} units and {len(chain) - count} forks", *units]


def names_in(path):
    """The names in a file: by the unit's number, or by the unit's and the place's."""
    names = {}
    for line in netlist.text_of(path).splitlines():
        form = re.fullmatch(r"(\d+)(?:\.(\d+))? (.+)", line.rstrip(), re.ASCII)
        if not form:
            sys.exit(f"{path}: the line `{line}` is none of the form `UNIT NAME` or `UNIT.PLACE NAME`")
        names[(int(form.group(1)), int(form.group(2))) if form.group(2) else int(form.group(1))] = form.group(3)
    return names


def names_of(path, net):
    """The names that tools/use/name_units.py finds by a kernel; where it finds none, a line on the error output and status 1."""
    sys.path.insert(0, str(pathlib.Path(__file__).resolve().parents[2] / "tools/use"))
    import name_units  # the tools are needed only here
    try:
        return name_units.names(netlist.text_of(path), net)
    except name_units.NoNames as wrong:
        sys.exit(f"{path}: no names: {wrong}")


def arguments():
    """What the command line says."""
    words = argparse.ArgumentParser(description=__doc__, formatter_class=argparse.RawDescriptionHelpFormatter)
    ways = words.add_mutually_exclusive_group()
    ways.add_argument("--svg", dest="show", action="store_const", const=svg, help="a picture, as an SVG")
    ways.add_argument("--dot", dest="show", action="store_const", const=dot, help="the graph for Graphviz")
    words.add_argument("--where", metavar="INPUTS", help="colour a picture by where the cycles of a run go")
    texts = words.add_mutually_exclusive_group()
    texts.add_argument("--kernel", metavar="KERNEL", help="name the units by the variables of the kernel that the net was compiled from")
    texts.add_argument("--names", metavar="NAMES", help="name the units by a file of lines `UNIT NAME`")
    words.add_argument("netlist", metavar="NETLIST", help="a file, or - for the standard input")
    given = words.parse_args()
    if given.where and given.show is not svg:
        sys.exit("draw.py: --where goes with --svg")
    if (given.kernel or given.names) and not given.show:
        sys.exit("draw.py: --kernel and --names go with --svg or --dot")
    return given


def main():
    signal.signal(signal.SIGPIPE, signal.SIG_DFL)  # so that `| head` ends it without a word
    given = arguments()
    net = netlist.load(given.netlist)
    options = {}
    try:
        if given.kernel or given.names:
            options["names"] = names_of(given.kernel, net) if given.kernel else names_in(given.names)
        if given.where:
            options["heat"] = where.run_of(net, given.where).heat()
        print((given.show or summary)(net, **options), end="")
    except (IndexError, KeyError, ValueError):
        sys.exit(f"{given.netlist}: the net breaks a rule, so it is not drawn; `elastic upgrade` names the rule and the place")


if __name__ == "__main__":
    main()
