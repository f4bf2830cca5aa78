"""The blocks of a net, found from the netlist alone, for the frames of a picture.

A block begins where control comes together or goes apart: at the entry, at each control merge, and at each output of a branch of control
whose channel does not lead straight into a control merge. The boxes that a walk from there along control channels comes to are in the
block: forks, the `enter` and `done` of queues, and at last a branch of control, the exit, or nothing where the next is a control merge.

- A mux is in the block of the control merge that tells it the way; a port of a queue is in that of its group's `enter`.
- A parameter is in the block of the entry.
- A sink is in the block of the unit before it.
- Any other unit is in the block that its inputs come from, if all come from one. What comes out of a branch of data comes from the
  block that begins at the same output of the branch of control; where none begins there, from the block of the branch.

A box of which this says nothing, or two things, is in no frame. Circuits of kernels have no such box but in what no run reaches."""
import netlist
from draw_boxes import teller


class Blocks:
    """The blocks of a net: `of` has for each box the number of its block, or None."""

    def __init__(self, net, boxes, into, out_of, loops):
        self.net, self.boxes, self.into, self.out_of = net, boxes, into, out_of
        self.inputs, self.outputs = net.inputs(), net.outputs()
        self.of, self.begins, self.titles, self.after = [None] * len(boxes), [], [], {}
        heads = {net.channels[at].target[0] for at in loops}
        for at, box in enumerate(boxes):
            kind = net.units[box.unit].kind
            if kind in ("entry", "cmerge"):
                self.begin(at, f"block {box.unit} ({'entry' if kind == 'entry' else 'loop' if box.unit in heads else 'merge'})")
        for number, first in enumerate(self.begins):  # which grows
            self.walk(number, first)
        self.data()

    def begin(self, first, title):
        """Notes a block: the box that it begins with, and its title."""
        self.begins.append(first)
        self.titles.append(title)

    def walk(self, number, first):
        """Puts the boxes that control comes to into their block, and notes the blocks that begin at its branch."""
        left = [first]
        while left:
            at = left.pop()
            if self.of[at] is not None:
                continue
            self.of[at] = number
            for place, channel in self.sent(at):
                target = self.into[channel.target]
                if not channel.control or self.kind(target) == "cmerge":
                    continue
                if self.kind(at) != "branch":
                    left.append(target)
                elif self.of[target] is None:
                    self.after[number, place] = len(self.begins)
                    self.begin(target, f"block {self.boxes[at].unit} {('yes', 'no')[place]}")

    def kind(self, at):
        return self.net.units[self.boxes[at].unit].kind

    def sent(self, at):
        """The channels that a box puts tokens on, each with the place."""
        unit = self.boxes[at].unit
        return [(place, self.outputs[unit][place]) for place in self.boxes[at].outs]

    def data(self):
        """Puts the boxes that control does not come to into blocks."""
        changed = True
        while changed:
            changed = False
            for at in range(len(self.boxes)):
                if self.of[at] is None and (found := self.found(at)) is not None:
                    self.of[at], changed = found, True

    def found(self, at):
        """The block of a box by what is known of others."""
        unit, kind = self.boxes[at].unit, self.kind(at)
        if kind == "param":
            return next((self.of[box] for box in self.begins if self.kind(box) == "entry"), None)
        if kind == "mux":
            return self.of[self.out_of[teller(self.net, self.inputs, unit), 0]]
        if kind == "lsq":
            queue = netlist.queue(self.net.units[unit])
            port = (self.boxes[at].ins[0] - len(queue.groups) - 1) // 2
            group = next((number for number, ports in enumerate(queue.groups) if port in ports), None)
            return None if group is None else self.of[self.into[unit, group]]
        if kind == "sink":
            return self.of[self.out_of[self.inputs[unit][0].source]]
        sources = {self.comes_from(self.inputs[unit][place].source) for place in self.boxes[at].ins}
        return sources.pop() if len(sources) == 1 else None

    def comes_from(self, place):
        """The block that a token at an output place is in."""
        number = self.of[self.out_of[place]]
        return self.after.get((number, place[1]), number) if self.kind(self.out_of[place]) == "branch" else number
