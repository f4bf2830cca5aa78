#!/usr/bin/env python3
"""Draws nets that keep the rules of docs/FORMATS.md, section 9, with inputs, and kernels with options, all by a seed.

    tools/oracles/draw_nets.py FOLDER [--seed N] [--count C]

It writes for each number NNN from 0 either `NNN.net`, a netlist whose units were drawn one by one, or `NNN.c` and `NNN.options`,
a kernel and options to compile it by (every other one), and `NNN.in`, the inputs. Every net ends: its loops count down."""
import argparse
import os
import pathlib
import random
import sys

sys.path.insert(0, str(pathlib.Path(__file__).resolve().parents[2] / "examples" / "clients"))
import inputs  # noqa: E402
import netlist  # noqa: E402

TYPES = sorted(netlist.BITS)
TWO = "add sub mul and or xor shl shru shrs divu remu divs rems eq ne ltu leu lts les".split()
COMPARES = {"eq", "ne", "ltu", "leu", "lts", "les"}


class Drawing:
    """A net that grows unit by unit. An output that has no channel yet is a value (unit, place, width); each value has one token
    each time that its part of the net is entered. The control token's output is `self.control`."""

    def __init__(self, draw):
        self.draw, self.net, self.queues = draw, netlist.Net("drawn"), {}
        self.control = (self.unit("entry"), 0, 32)

    def unit(self, kind, *words):
        self.net.units.append(netlist.Unit(kind, [str(word) for word in words]))
        return len(self.net.units) - 1

    def join(self, value, unit, place, control=False, back=False):
        """A channel; its delay is 1 or more where it closes a loop or leaves a queue."""
        source, out, width = value
        least = 1 if back or self.net.units[source].kind == "lsq" else 0
        slots, delay = self.draw.choice([1, 1, 1, 1, 2, 3, 8]), self.draw.choice([0, 0, 0, 1, 2, 5])
        self.net.channels.append(netlist.Channel((source, out), (unit, place), width, slots, max(least, delay), control))

    def one(self, kind, value, width, *words):
        """A unit of one data input and one output."""
        at = self.unit(kind, *words)
        self.join(value, at, 0)
        return at, 0, width

    def copies(self, value, count):
        at = self.unit("fork", value[2], count)
        self.join(value, at, 0)
        return [(at, place, value[2]) for place in range(count)]

    def triggers(self, count):
        """Plain tokens, one each time that the control token passes here."""
        at = self.unit("fork", 32, count + 1)
        self.join(self.control, at, 0, control=True)
        self.control = (at, 0, 32)
        return [(at, place, 32) for place in range(1, count + 1)]

    def constant(self, width, number):
        return self.one("const", self.triggers(1)[0], width, width, number % 2 ** width)

    def resized(self, value, width):
        if value[2] == width:
            return value
        if value[2] > width:
            return self.one("op1", value, width, f"cut{value[2]}to{width}")
        return self.one("op1", value, width, f"{self.draw.choice('su')}{value[2]}to{width}")

    def take(self, values, width):
        """A value of a width: one of the list, which mostly keeps a copy of it, or a constant."""
        if not values or self.draw.random() < 0.1:
            return self.constant(width, self.draw.choice([0, 1, 2, 3, 7, 255, 2 ** 31, 2 ** 64 - 1]))
        value = values.pop(self.draw.randrange(len(values)))
        if self.draw.random() < 0.7:
            value, *kept = self.copies(value, self.draw.choice([2, 2, 2, 3]))
            values.extend(kept)
        return self.resized(value, width)

    def drop(self, values):
        for value in values:
            self.join(value, self.unit("sink", value[2]), 0)
        values.clear()

    # ---- steps

    def operate(self, values):
        width = self.draw.choice([32, 64])
        kind = self.draw.choice(["one", "zero", "two", "two", "two", "select", "const"])
        if kind == "one":
            values.append(self.one("op1", self.take(values, width), width, self.draw.choice(["neg", "not"]) + str(width)))
        elif kind == "zero":
            values.append(self.one("op1", self.take(values, width), 32, f"zero{width}"))
        elif kind == "two":
            name = self.draw.choice(TWO)
            pair = [self.take(values, width) for _ in range(2)]
            at = self.unit("op2", f"{name}{width}")
            for place, value in enumerate(pair):
                self.join(value, at, place)
            values.append((at, 0, 32 if name in COMPARES else width))
        elif kind == "select":
            width = self.draw.choice([8, 16, 32, 64])
            three = [self.take(values, 32), self.take(values, width), self.take(values, width)]
            at = self.unit("select", width)
            for place, value in enumerate(three):
                self.join(value, at, place)
            values.append((at, 0, width))
        else:
            values.append(self.constant(self.draw.choice([8, 16, 32, 64]), self.draw.getrandbits(64)))

    def address(self, values, array):
        """An address within the array, but for one in forty."""
        value = self.take(values, 64)
        if self.draw.random() < 0.025:
            return value
        at = self.unit("op2", "and64")
        self.join(value, at, 0)
        self.join(self.constant(64, self.net.arrays[array][2] - 1), at, 1)
        return at, 0, 64

    def access(self, values):
        """A read of an array, or a group of accesses to one that has a queue."""
        if not self.net.arrays:
            return
        array = self.draw.randrange(len(self.net.arrays))
        width = netlist.BITS[self.net.arrays[array][1]]
        if array not in self.queues:
            values.append(self.one("read", self.address(values, array), width, array))
            return
        at, ports, groups = self.queues[array]
        group = []
        for _ in range(self.draw.choice([1, 1, 2, 3])):
            group.append(len(ports))
            ports.append(self.draw.choice("lls"))
            self.join(self.address(values, array), at, ("address", group[-1]))
            if ports[-1] == "s":
                self.join(self.take(values, width), at, ("data", group[-1]))
        self.join(self.control, at, ("group", len(groups)), control=True)
        self.control = (at, ("group", len(groups)), 32)
        groups.append(group)
        values.extend((at, ("value", port), width) for port in group if ports[port] == "l")

    def chosen(self, values):
        """Some of the values, which leave the list."""
        some = [value for value in values if self.draw.random() < 0.5]
        values[:] = [value for value in values if value not in some]
        return some

    def branches(self, condition, values):
        """The control token and values, sent on by a condition: two lists, and the two outputs of the control token."""
        conditions = self.copies(condition, len(values) + 1)
        at = self.unit("branch", 32)
        self.join(conditions[0], at, 0)
        self.join(self.control, at, 1, control=True)
        sides = [[], []]
        for when, value in zip(conditions[1:], values):
            branch = self.unit("branch", value[2])
            self.join(when, branch, 0)
            self.join(value, branch, 1)
            for side in range(2):
                sides[side].append((branch, side, value[2]))
        return sides, [(at, side, 32) for side in range(2)]

    def choose(self, values, depth):
        """Two parts of which one is entered, and what comes out of either."""
        condition = self.take(values, 32)
        sides, controls = self.branches(condition, self.chosen(values))
        widths = [self.draw.choice([8, 16, 32, 64]) for _ in range(self.draw.randrange(3))]
        merge, ends = self.unit("cmerge", 2), []
        for side in range(2):
            self.control = controls[side]
            self.steps(sides[side], depth - 1)
            ends.append([self.take(sides[side], width) for width in widths])
            self.drop(sides[side])
            self.join(self.control, merge, side, control=True)
        self.control = (merge, 0, 32)
        for width, first, second, select in zip(widths, *ends, self.triggers(len(widths)) if widths else []):
            mux = self.unit("mux", width, 2)
            for place, value in enumerate([select, first, second]):
                self.join(value, mux, place)
            values.append((mux, 0, width))

    def repeat(self, values, depth):
        """A part that is entered a few times, with values that go round."""
        counter = self.constant(32, self.draw.randrange(6))
        firsts = [counter, *self.chosen(values)]
        merge = self.unit("cmerge", 2)
        self.join(self.control, merge, 0, control=True)
        self.control = (merge, 0, 32)
        muxes, rounds = [], []
        for select, value in zip(self.triggers(len(firsts)), firsts):
            mux = self.unit("mux", value[2], 2)
            self.join(select, mux, 0)
            self.join(value, mux, 1)
            muxes.append(mux)
            rounds.append((mux, 0, value[2]))
        condition, rounds[0] = self.copies(rounds[0], 2)
        (inside, outside), (again, past) = self.branches(condition, rounds)
        self.control = again
        less = self.unit("op2", "sub32")
        self.join(inside.pop(0), less, 0)
        self.join(self.constant(32, 1), less, 1)
        self.steps(inside, depth - 1)
        nexts = [(less, 0, 32), *(self.take(inside, value[2]) for value in firsts[1:])]
        self.drop(inside)
        for mux, value in zip(muxes, nexts):
            self.join(value, mux, 2, back=True)
        self.join(self.control, merge, 1, control=True, back=True)
        self.control = past
        values.extend(outside)

    def steps(self, values, depth):
        for _ in range(self.draw.randrange(2, 6)):
            kind = self.draw.choice(["operate", "operate", "access", "access", "choose", "repeat"])
            if kind in ("choose", "repeat") and depth > 0:
                getattr(self, kind)(values, depth)
            elif kind == "access":
                self.access(values)
            else:
                self.operate(values)

    # ---- the whole net

    def header(self):
        net, draw = self.net, self.draw
        net.scalars = [(f"s{at}", draw.choice(TYPES)) for at in range(draw.randrange(4))]
        net.arrays = [(f"a{at}", draw.choice(TYPES), draw.choice([1, 2, 4, 8])) for at in range(draw.randrange(4))]
        net.result = draw.choice(["none", *TYPES])
        for array in range(len(net.arrays)):
            if draw.random() < 0.75:
                self.queues[array] = (self.unit("lsq"), [], [])
        return [(self.unit("param", at), 0, netlist.BITS[kind]) for at, (_, kind) in enumerate(net.scalars)]

    def close(self, values):
        """The ends of all queues, and the exit."""
        for array, (at, ports, groups) in self.queues.items():
            while not groups:
                self.join(self.address(values, array), at, ("address", 0))
                self.join(self.control, at, ("group", 0), control=True)
                self.control = (at, ("group", 0), 32)
                ports.append("l")
                groups.append([0])
                values.append((at, ("value", 0), netlist.BITS[self.net.arrays[array][1]]))
        result = [] if self.net.result == "none" else [self.take(values, netlist.BITS[self.net.result])]
        for at, _, _ in self.queues.values():
            self.join(self.control, at, ("end", 0), control=True)
            self.control = (at, ("end", 0), 32)
        leave = self.unit("exit")
        self.join(self.control, leave, 0, control=True)
        for value in result:
            self.join(value, leave, 1)
        self.drop(values)

    def place_queues(self):
        """The words of queues, and the numbers of their places, once all groups are there."""
        for array, (at, ports, groups) in self.queues.items():
            depth = self.draw.choice([max(map(len, groups)), max(map(len, groups)) + 1, 16])
            lists = ";".join(",".join(map(str, group)) for group in groups)
            self.net.units[at].words = [str(array), str(depth), "".join(ports), lists, self.draw.choice(["plain", "forward"])]
            count = len(groups)
            inputs_by = {"group": lambda k: k, "end": lambda k: count, "address": lambda k: count + 1 + 2 * k, "data": lambda k: count + 2 + 2 * k}
            outputs_by = {"group": lambda k: k, "end": lambda k: count, "value": lambda k: count + 1 + k}
            for it in self.net.channels:
                if it.source[0] == at:
                    it.source = (at, outputs_by[it.source[1][0]](it.source[1][1]))
                if it.target[0] == at:
                    it.target = (at, inputs_by[it.target[1][0]](it.target[1][1]))

    def mix(self):
        """Other numbers of units and channels, so that any unit may have any owner."""
        order = list(range(len(self.net.units)))
        self.draw.shuffle(order)
        number = {before: after for after, before in enumerate(order)}
        self.net.units = [self.net.units[before] for before in order]
        for it in self.net.channels:
            it.source, it.target = (number[it.source[0]], it.source[1]), (number[it.target[0]], it.target[1])
        self.draw.shuffle(self.net.channels)


def drawn_net(draw):
    made = Drawing(draw)
    values = made.header()
    made.steps(values, 2)
    made.close(values)
    made.place_queues()
    if draw.random() < 0.7:
        made.mix()
    return made.net


# ---- kernels

class Kernel:
    """A kernel of loops that count, with accesses to arrays at masked places."""

    def __init__(self, draw):
        self.draw, self.names, self.loops = draw, [], 0
        self.scalars = [(f"p{at}", self.type()) for at in range(draw.randrange(1, 4))]
        self.arrays = [(f"m{at}", self.type(), draw.choice([2, 4, 8])) for at in range(draw.randrange(1, 4))]
        self.names = [name for name, _ in self.scalars]

    def type(self):
        kind = self.draw.choice(TYPES)
        return ("u" if kind[0] == "u" else "") + f"int{kind[1:]}_t"

    def element(self, depth):
        name, _, length = self.draw.choice(self.arrays)
        return f"{name}[({self.expression(depth - 1)}) & {length - 1}]"

    def expression(self, depth):
        draw = self.draw
        if depth <= 0 or draw.random() < 0.25:
            return draw.choice([str(draw.randrange(20)), *self.names])
        kind = draw.randrange(8)
        if kind < 4:
            return f"({self.expression(depth - 1)} {draw.choice('+ - * & | ^ / % < > == != && ||'.split())} {self.expression(depth - 1)})"
        if kind == 4:
            return f"({self.expression(depth - 1)} {draw.choice(['<<', '>>'])} {draw.randrange(8)})"
        if kind == 5:
            return f"({self.expression(depth - 1)} ? {self.expression(depth - 1)} : {self.expression(depth - 1)})"
        return self.element(depth)

    def statement(self, depth):
        draw, kind = self.draw, self.draw.randrange(10)
        if kind < 3:
            return f"{self.element(2)} {draw.choice('= += -= ^= |='.split())} {self.expression(2)};"
        if kind < 5 or depth <= 0:
            return f"{draw.choice(self.names_to_write())} {draw.choice('= += -= *='.split())} {self.expression(2)};"
        if kind < 7:
            other = f" else {{ {self.block(depth - 1)} }}" if draw.random() < 0.5 else ""
            return f"if ({self.expression(2)}) {{ {self.block(depth - 1)} }}{other}"
        self.loops += 1
        name = f"i{self.loops}"
        self.names.append(name)
        leave = draw.choice(["", "", f" if ({self.expression(1)}) {draw.choice(['break', 'continue'])};"])
        text = f"for (int {name} = 0; {name} < {draw.randrange(1, 6)}; {name}++) {{{leave} {self.block(depth - 1)} }}"
        self.names.remove(name)
        return text

    def names_to_write(self):
        """Scalars but those that count loops."""
        return [name for name in self.names if not name.startswith("i")]

    def block(self, depth):
        return " ".join(self.statement(depth) for _ in range(self.draw.randrange(1, 3)))

    def text(self):
        parameters = [f"{kind} {name}" for name, kind in self.scalars] + [f"{kind} {name}[{length}]" for name, kind, length in self.arrays]
        body = "\n  ".join(self.statement(2) for _ in range(self.draw.randrange(1, 4)))
        end = f"return {self.expression(2)};"
        return f"#include <stdint.h>\n{self.type()} drawn({', '.join(parameters)}) {{\n  {body}\n  {end}\n}}\n"


def drawn_options(draw):
    """Words of `compile`: slots of 1 as often as not, delays, a depth and marks of queues."""
    words = [f"--slots={draw.choice([1, 1, 2, 4])}"] if draw.random() < 0.7 else []
    if draw.random() < 0.5:
        words.append("--delay=" + ",".join(f"{kind}={draw.randrange(1, 5)}" for kind in draw.sample(["logic", "mul", "div", "read", "lsq"], 2)))
    if draw.random() < 0.3:
        words.append(f"--depth={draw.randrange(1, 6)}")
    if draw.random() < 0.5:
        words.append("--forward")
    return words


def write(path, text):
    with open(path, "w", encoding="ascii") as file:
        file.write(text)


def inputs_of(draw, scalars, arrays):
    """A text of inputs with small and great numbers."""
    lines = []
    for name, kind, length in [(name, kind, None) for name, kind in scalars] + arrays:
        numbers = [inputs.fitting(draw.choice([draw.randrange(10), draw.getrandbits(64)]), kind) for _ in range(length or 1)]
        lines.append(f"{name} = {' '.join(map(str, numbers))}\n")
    return "".join(lines)


def short(kind):
    return ("u" if kind[0] == "u" else "i") + "".join(filter(str.isdigit, kind))


def draw_all(folder, seed, count):
    """Writes the files; gives what it drew, a list of (number, whether it is a kernel)."""
    os.makedirs(folder, exist_ok=True)
    for number in range(count):
        draw = random.Random(f"{seed} {number}")
        path = os.path.join(folder, f"{number:03}")
        if number % 2:
            kernel = Kernel(draw)
            write(path + ".c", kernel.text())
            write(path + ".options", " ".join(drawn_options(draw)))
            header = [(name, short(kind)) for name, kind in kernel.scalars], [(name, short(kind), length) for name, kind, length in kernel.arrays]
        else:
            net = drawn_net(draw)
            write(path + ".net", netlist.write(net))
            header = net.scalars, net.arrays
        write(path + ".in", inputs_of(draw, *header))


def main():
    words = argparse.ArgumentParser(description=__doc__, formatter_class=argparse.RawDescriptionHelpFormatter)
    words.add_argument("folder")
    words.add_argument("--seed", type=int, default=1)
    words.add_argument("--count", type=int, default=150)
    given = words.parse_args()
    draw_all(given.folder, given.seed, given.count)


if __name__ == "__main__":
    main()
