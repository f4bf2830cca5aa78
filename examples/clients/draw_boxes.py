"""The boxes of a picture: one for each unit; a queue has one for each of its acts that tokens come to or go from."""
from collections import namedtuple

import netlist
from graphs import back_edges

SIGNS = {"add": "+", "sub": "−", "mul": "×", "divs": "÷", "divu": "÷ u", "rems": "mod", "remu": "mod u", "and": "and",
         "or": "or", "xor": "xor", "shl": "<<", "shrs": ">>", "shru": ">> u", "eq": "=", "ne": "≠", "lts": "<", "ltu": "< u",
         "les": "≤", "leu": "≤ u", "neg": "−x", "not": "not", "zero": "= 0"}

# A box: its unit's number, its shape, its class, its text, the small text behind it, the numbers of its places, and the variable that it
# is named by.
Box = namedtuple("Box", "unit shape style text small ins outs name", defaults=[""])

FIXED = {
    "entry": ("pill", "end", "entry", ""), "exit": ("pill", "end", "exit", ""), "sink": ("sink", "end", "", ""),
    "fork": ("fork", "fork", "", ""), "mux": ("mux", "join", "mux", ""), "cmerge": ("mux", "join", "merge", ""),
    "select": ("mux", "op", "select", ""), "branch": ("branch", "branch", "branch", ""),
}


def boxes_of(net, names=None):
    """The boxes, and for each input place and each output place (a unit's number and the place's) the number of its box. `names` has
    variables for units, by the unit's number, or for a queue's places, by the unit's and the place's."""
    ins, outs = net.inputs(), net.outputs()
    boxes = []
    for number, unit in enumerate(net.units):
        if unit.kind == "lsq":
            boxes += queue_boxes(net, number)
        else:
            boxes.append(Box(number, *look(net, unit), sorted(ins[number]), sorted(outs[number])))
    names = names or {}
    boxes = [box._replace(name=named(net, box, names)) for box in boxes]
    into = {(box.unit, place): at for at, box in enumerate(boxes) for place in box.ins}
    out_of = {(box.unit, place): at for at, box in enumerate(boxes) for place in box.outs}
    return boxes, into, out_of


def named(net, box, names):
    """What a box says of its variable: to the value of an operation or a constant the variable is set."""
    if net.units[box.unit].kind == "lsq":
        name = names.get((box.unit, box.outs[0]), "") if box.outs else ""
    else:
        name = names.get(box.unit, "")
    return name if not name or box.style in ("join", "branch") else f"→ {name}"


def look(net, unit):
    """The shape, the class, the text and the small text of a unit that is no queue."""
    kind, words = unit.kind, unit.words
    if kind in FIXED:
        return FIXED[kind]
    if kind == "param":
        return "pill", "value", *net.scalars[int(words[0])]
    if kind == "const":
        return "pill", "value", constant(int(words[0]), int(words[1])), ""
    if kind == "read":
        return "box", "read", "read " + net.arrays[int(words[0])][0], ""
    return "box", "op", *operation(words[0])


def constant(width, value):
    """A constant; one in the upper half of its width is shown as the negative number that it also stands for, if that is shorter."""
    negative = value - 2 ** width
    return str(value if value < 2 ** (width - 1) else min(value, negative, key=lambda it: len(str(it))))


def operation(name):
    """The sign of an operation, and its width."""
    if "to" in name:
        return name.replace("to", "→"), ""
    return SIGNS.get(name[:-2], name[:-2]), name[-2:]


def queue_boxes(net, number):
    """The boxes of a queue: `enter` for each group, where the control token passes and the group's accesses are allocated, `load`
    or `store` for each port, and `done` for the end, which the control token passes when the queue is empty."""
    queue = netlist.queue(net.units[number])
    name, groups = net.arrays[queue.array][0], len(queue.groups)
    acts = [(f"enter {name}", [group], [group]) for group in range(groups)]
    for port, letter in enumerate(queue.ports):
        address, data = groups + 1 + 2 * port, groups + 2 + 2 * port
        acts.append((f"load {name}", [address], [groups + 1 + port]) if letter == "l" else
                    (f"store {name}", [address, data], []))
    acts.append((f"done {name}", [groups], [groups]))
    return [Box(number, "box", "memory", text, "", ins, outs) for text, ins, outs in acts]


def loop_channels(net, into, out_of):
    """The channels by which the turns of loops come back. A control channel is one where a walk from the entry along control
    channels is on its way through the box that it leads to; with the control token's way into a merge, each mux that the merge
    tells the way has the input for that way."""
    control = [at for at, channel in enumerate(net.channels) if channel.control]
    ends = [(out_of[net.channels[at].source], into[net.channels[at].target]) for at in control]
    back = {control[at] for at in back_edges(1 + max(map(max, ends), default=0), ends)}
    ways = {net.channels[at].target for at in back}
    inputs = net.inputs()
    heads = {at: teller(net, inputs, at) for at, unit in enumerate(net.units) if unit.kind == "mux"}
    for at, channel in enumerate(net.channels):
        unit, place = channel.target
        if unit in heads and place > 0 and (heads[unit], place - 1) in ways:
            back.add(at)
    return back


def teller(net, inputs, mux):
    """The unit that tells a mux the way, forks left out."""
    unit = inputs[mux][0].source[0]
    while net.units[unit].kind == "fork":
        unit = inputs[unit][0].source[0]
    return unit
