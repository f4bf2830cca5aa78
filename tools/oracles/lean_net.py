#!/usr/bin/env python3
"""The circuit of a block graph, drawn beside the program, from the rules of the circuit's definition: for rows that hold whole
circuits or the numbers of circuits of graphs.

usage: tools/oracles/lean_net.py ROW     ROW: the scalars, the arrays, the type of the result and the blocks of a graph, with tabs between
                                 (the form of the graphs of given_middle). The netlist is printed, with the usual slots and delays"""
import re
import sys

WIDTHS = {"i8": 8, "u8": 8, "i16": 16, "u16": 16, "i32": 32, "u32": 32, "i64": 64, "u64": 64}


# ---- graphs as text

class Block:
    def __init__(self, text):
        self.args, self.steps, self.jump = [], [], ["return"]
        for part in text.split(";"):
            words = part.split()
            if words[0] == "block":
                self.args = [int(word) for word in words[1:]]
            elif words[0] in ("go", "if", "return"):
                self.jump = words
            else:
                count, words = (int(words[1]), words[2:]) if words[0] == "times" else (1, words)
                self.steps += [words] * count

    def sides(self):
        """Where the jump leads and what it hands on there: the side of the return is None."""
        kind, *words = self.jump
        if kind == "go":
            return [(int(words[0]), [int(word) for word in words[1:]])]
        if kind == "return":
            return [(None, [int(word) for word in words])]
        at = words.index("else")
        return [(int(side[0]), [int(word) for word in side[1:]]) for side in (words[1:at], words[at + 1:])]


def operands(step):
    kind, *words = step
    first = {"const": 2, "one": 1, "two": 1, "select": 1, "load": 1, "store": 1}[kind]
    return [int(word) for word in words[first:]]


def is_pure(step):
    return step[0] in ("const", "one", "two", "select")


def width_of(step, arrays):
    kind, *words = step
    if kind in ("const", "select"):
        return int(words[0])
    if kind == "load":
        return arrays[int(words[0])][1]
    name = words[0]
    if kind == "one":
        return int(name.split("to")[1]) if "to" in name else 32 if name.startswith("zero") else int(name[-2:])
    return 32 if re.match(r"(eq|ne|lt|le)", name) else int(name[-2:])


# ---- the circuit

class Drawing:
    def __init__(self, scalars, arrays, result, blocks):
        self.arrays, self.blocks, self.join = arrays, blocks, len(blocks)
        self.units, self.chans, self.control, self.trigger = ["entry"], [], (0, 0), None
        self.ends, self.edges, self.heads, self.tails, self.queues = [], [], {}, {}, {}
        self.counts = {0: 1}
        for block in blocks:
            for to, _ in block.sides():
                to = self.join if to is None else to
                self.counts[to] = self.counts.get(to, 0) + 1
        for number in range(len(scalars)):
            self.unit(f"param {number}")
        self.edge(0, (0, 0), [((1 + k, 0), width) for k, (_, width) in enumerate(scalars)])
        self.lay_queues()
        for number, block in enumerate(blocks):
            self.lay_block(number, block)
        for number, block in enumerate(blocks):
            if not self.counts.get(number):
                self.lay_feeder(number, block.args)
        widths = [] if result is None else [result]
        if not self.counts.get(self.join):
            self.lay_feeder(self.join, widths)
        self.lay_head(self.join, widths, [1] * len(widths), 0)
        for queue in self.queues.values():
            self.pass_queue(queue, queue["groups"])
        leave = self.unit("exit")
        self.chan(self.control, (leave, 0), 32, True)
        if widths:
            self.feed(self.take(0), leave, 1)
        self.lay_edges()

    # ---- parts

    def unit(self, text):
        self.units.append(text)
        return len(self.units) - 1

    def chan(self, start, to, width, control=False):
        self.chans.append((start, to, width, control))

    def feed(self, end, unit, place):
        self.chan(end[0], (unit, place), end[1])

    def edge(self, to, control, ends):
        self.edges.append((to, control, ends))
        self.tails[to] = self.edges[-1]

    def spread(self, end, uses):
        """The outputs of a fork with an output for each use; nothing but the place itself for one, a sink for none."""
        if uses == 0:
            self.feed(end, self.unit(f"sink {end[1]}"), 0)
            return None
        if uses == 1:
            return end
        fork = self.unit(f"fork {end[1]} {uses}")
        self.feed(end, fork, 0)
        return (fork, 0), end[1]

    def define(self, place, width):
        self.ends.append(self.spread((place, width), self.uses[len(self.ends)]))

    def take(self, value):
        """The end for the next use of a value."""
        (unit, place), width = self.ends[value]
        self.ends[value] = (unit, place + 1), width
        return (unit, place), width

    def fork_control(self, copies, always=False):
        if not copies and not always:
            return
        fork = self.unit(f"fork 32 {copies + 1}")
        self.chan(self.control, (fork, 0), 32, True)
        self.control, self.trigger = (fork, 0), (fork, 1)

    def pull(self):
        """The next copy of the control token that triggers something."""
        unit, place = self.trigger
        self.trigger = unit, place + 1
        return (unit, place), 32

    # ---- queues

    def lay_queues(self):
        for number in range(len(self.arrays)):
            loads = [[step[0] for step in block.steps if step[0] in ("load", "store") and int(step[1]) == number]
                     for block in self.blocks]
            groups = [group for group in loads if group]
            if not any("store" in group for group in groups):
                continue
            ports, told = "".join(word[0] for group in groups for word in group), []
            for group in groups:
                begin = sum(len(text.split(",")) for text in told)
                told.append(",".join(str(begin + k) for k in range(len(group))))
            depth = max([16] + [len(group) for group in groups])
            unit = self.unit(f"lsq {number} {depth} {ports} {';'.join(told)} plain")
            self.queues[number] = {"unit": unit, "groups": len(groups), "group": 0, "port": 0}

    def pass_queue(self, queue, place):
        self.chan(self.control, (queue["unit"], place), 32, True)
        self.control = queue["unit"], place

    # ---- blocks

    def count_uses(self, block):
        uses = [0] * (len(block.args) + len(block.steps))
        sides = block.sides()
        if block.jump[0] == "if":
            condition = int(block.jump[1])
            uses[condition] += 1
            for value in range(len(uses)):
                if any(value in values for _, values in sides):
                    uses[condition] += 1
                    uses[value] += 1
        else:
            for value in sides[0][1]:
                uses[value] += 1
        for at in reversed(range(len(block.steps))):
            step = block.steps[at]
            if not is_pure(step) or uses[len(block.args) + at]:
                for value in operands(step):
                    uses[value] += 1
        return uses

    def lay_head(self, number, args, uses, triggers):
        self.uses, self.ends = uses, []
        if max(1, self.counts.get(number, 0)) == 1 and number in self.tails:
            _, self.control, ends = self.tails[number]
            self.heads[number] = None
            self.fork_control(triggers)
            for place, width in ends:
                self.define(place, width)
            return
        ins = max(1, self.counts.get(number, 0))
        merge = self.unit(f"cmerge {ins}")
        self.heads[number], self.control = merge, (merge, 0)
        self.fork_control(triggers + len(args))
        muxes = []
        for width in args:
            end = self.pull()
            muxes.append(self.unit(f"mux {width} {ins}"))
            self.feed(end, muxes[-1], 0)
        for mux, width in zip(muxes, args):
            self.define((mux, 0), width)

    def lay_block(self, number, block):
        before, uses = len(self.chans), self.count_uses(block)
        constants = sum(step[0] == "const" and uses[len(block.args) + at] > 0 for at, step in enumerate(block.steps))
        touched = sorted({int(step[1]) for step in block.steps if step[0] in ("load", "store")} & set(self.queues))
        self.lay_head(number, block.args, uses, 0 if touched else constants)
        for array in touched:
            queue = self.queues[array]
            self.pass_queue(queue, queue["group"])
            queue["group"] += 1
        if touched:
            self.fork_control(constants)
        for at, step in enumerate(block.steps):
            if is_pure(step) and not uses[len(block.args) + at]:
                self.ends.append(None)
            else:
                self.lay_step(step)
        if block.jump[0] == "go" and len(self.chans) == before:
            self.fork_control(0, always=True)
        if block.jump[0] == "if":
            self.lay_branches(block)
        else:
            self.lay_way(block)

    def lay_step(self, step):
        kind, *words = step
        width = width_of(step, self.arrays) if kind != "store" else None
        queue = self.queues.get(int(words[0])) if kind in ("load", "store") else None
        ends = [self.pull()] if kind == "const" else [self.take(value) for value in operands(step)]
        if queue:
            address = queue["groups"] + 1 + 2 * queue["port"]
            for at, end in enumerate(ends):
                self.feed(end, queue["unit"], address + at)
            port = queue["port"]
            queue["port"] += 1
            if kind == "store":
                self.ends.append(None)
            else:
                self.define((queue["unit"], queue["groups"] + 1 + port), width)
            return
        text = {"const": lambda: f"const {words[0]} {words[1]}", "one": lambda: f"op1 {words[0]}",
                "two": lambda: f"op2 {words[0]}", "select": lambda: f"select {words[0]}", "load": lambda: f"read {words[0]}"}
        unit = self.unit(text[kind]())
        for at, end in enumerate(ends):
            self.feed(end, unit, at)
        self.define((unit, 0), width)

    # ---- jumps

    def is_of_head(self, place, number, args):
        head = self.heads.get(number)
        return head is not None and head <= place[0] < head + (2 + args if args else 1)

    def lay_way(self, block):
        (to, values), ends = block.sides()[0], []
        to = self.join if to is None else to
        for value in values:
            end = self.take(value)
            if self.is_of_head(end[0], to, len(values)):
                buffer = self.unit(f"fork {end[1]} 1")
                self.feed(end, buffer, 0)
                end = (buffer, 0), end[1]
            ends.append(end)
        if self.is_of_head(self.control, to, len(values)):
            self.fork_control(0, always=True)
        self.edge(to, self.control, ends)

    def lay_branches(self, block):
        condition, sides, split = int(block.jump[1]), block.sides(), [{}, {}]
        for value in range(len(self.ends)):
            often = [values.count(value) for _, values in sides]
            if not any(often):
                continue
            test, data = self.take(condition), self.take(value)
            branch = self.unit(f"branch {data[1]}")
            self.feed(test, branch, 0)
            self.feed(data, branch, 1)
            for side in (0, 1):
                split[side][value] = self.spread(((branch, side), data[1]), often[side])
        test = self.take(condition)
        branch = self.unit("branch 32")
        self.feed(test, branch, 0)
        self.chan(self.control, (branch, 1), 32, True)
        for side, (to, values) in enumerate(sides):
            ends = []
            for value in values:
                (unit, place), width = split[side][value]
                ends.append(((unit, place), width))
                split[side][value] = (unit, place + 1), width
            self.edge(to, (branch, side), ends)

    # ---- what no run reaches, and the channels into merges and muxes

    def lay_feeder(self, number, args):
        branch = self.unit("branch 32")
        self.chan((branch, 1), (branch, 1), 32, True)
        self.control = branch, 0
        self.fork_control(len(args) + 1)
        self.feed(self.pull(), branch, 0)
        ends = []
        for width in args:
            end = self.pull()
            zero = self.unit(f"const {width} 0")
            self.feed(end, zero, 0)
            ends.append(((zero, 0), width))
        self.edge(number, self.control, ends)

    def lay_edges(self):
        seen = {}
        for to, control, ends in self.edges:
            head, at = self.heads[to], seen.get(to, 0)
            seen[to] = at + 1
            if head is None:
                continue
            self.chan(control, (head, at), 32, True)
            for k, end in enumerate(ends):
                self.feed(end, head + 2 + k, at + 1)


# ---- slots, delays and the text

def options_of(words):
    found = {"slots": 2, "mark": "plain", "logic": 0, "mul": 4, "div": 36, "read": 2, "lsq": 1}
    words = [part for word in words for part in (word.split("=", 1) if word.startswith("--") else [word])]
    for at, word in enumerate(words):
        if word == "--slots":
            found["slots"] = int(words[at + 1])
        if word == "--delay":
            found.update({name: int(number) for name, number in (part.split("=") for part in words[at + 1].split(","))})
        if word == "--forward":
            found["mark"] = "forward"
    return found


def class_of(unit):
    kind, *words = unit.split(" ")
    if kind == "op2" and words[0][:3] in ("mul", "div", "rem"):
        return "mul" if words[0].startswith("mul") else "div"
    return {"op1": "logic", "op2": "logic", "select": "logic", "read": "read", "lsq": "lsq"}.get(kind)


def on_cycles(count, ways):
    """Which of these ways between units lie on a cycle of them: those whose ends reach each other."""
    after = [[] for _ in range(count)]
    for start, to in ways:
        after[start].append(to)

    def reached(start):
        seen, left = {start}, [start]
        while left:
            for to in after[left.pop()]:
                if to not in seen:
                    seen.add(to)
                    left.append(to)
        return seen

    reach = [reached(unit) for unit in range(count)]
    return [start in reach[to] for start, to in ways]


def circuit(fields, name, options):
    """The net text of a graph told by four fields."""
    given = options_of(options)
    scalars = [(word.split(":")[1], word.split(":")[0]) for word in fields[0].split()]
    arrays = [(word.split(":")[1], word.split(":")[0], int(word.split(":")[2])) for word in fields[1].split()]
    drawing = Drawing([(n, WIDTHS[ty]) for n, ty in scalars], [(n, WIDTHS[ty]) for n, ty, _ in arrays],
                      WIDTHS[fields[2]] if fields[2] else None, [Block(text) for text in fields[3].split("|")])
    units = [re.sub("plain$", given["mark"], unit) for unit in drawing.units]
    delays = [given.get(class_of(units[start[0]]), 0) for start, _, _, _ in drawing.chans]
    free = [at for at, delay in enumerate(delays) if delay == 0]
    loops = on_cycles(len(units), [(drawing.chans[at][0][0], drawing.chans[at][1][0]) for at in free])
    for at, is_on in zip(free, loops):
        delays[at] = int(is_on)
    lines = ["elastic 2", f"kernel {name}"]
    lines += [f"scalar {n} {ty}" for n, ty in scalars] + [f"array {n} {ty} {length}" for n, ty, length in arrays]
    lines += [f"result {fields[2] or 'none'}"] + [f"unit {unit}" for unit in units]
    for (start, to, width, control), delay in zip(drawing.chans, delays):
        lines.append(f"chan {start[0]}.{start[1]} {to[0]}.{to[1]} {width} {given['slots']} {delay}" + " control" * control)
    return "\n".join(lines + ["end", ""])


# The graphs of kernels that stand in rows with their whole circuits, by hand; with blocks merged those that no run reaches go.
TAIL = " | block ; const 32 0 ; return 0"
KERNELS = {
    "void f(void) { }": ("", "", "", "block ; return", ""),
    "int32_t f(int32_t a, int32_t b) { return a + b * 3; }":
        ("i32:a i32:b", "", "i32", "block 32 32 ; const 32 3 ; two mul32 1 2 ; two add32 0 3 ; return 4", TAIL),
    "void f(int32_t n, int32_t a[8]) { a[n] = 1; }":
        ("i32:n", "i32:a:8", "", "block 32 ; one s32to64 0 ; const 32 1 ; store 0 1 2 ; return", ""),
}


def circuit_of_kernel(kernel, options, merged=False):
    """The net text of one of these kernels, or None."""
    told = KERNELS.get(re.sub(r"\s+", " ", re.sub(r"#include <stdint.h>", "", kernel)).strip())
    if told is None:
        return None
    *fields, blocks, tail = told
    return circuit([*fields, blocks if merged else blocks + tail], "f", options)


if __name__ == "__main__":
    if len(sys.argv) != 2:
        sys.exit(__doc__)
    print(circuit(sys.argv[1].split("\t"), "f", []), end="")
