#!/usr/bin/env python3
"""A simulator of netlists, written from docs/FORMATS.md alone (sections 6 to 9, 14, 15 and 18), beside the program.

usage: tools/oracles/simulate.py NETLIST INPUTS [--limit F] [--untimed SEED]

It prints the results, and the lines `# firings F` and `# cycles C`. With --untimed the units fire in a drawn order, whatever
the delays are, and no cycles are told. A run that ends otherwise is told by one line: Limit, Stuck or Stray. A net is
expected to keep the rules; nothing is checked."""
import random
import re
import sys

BITS = {"i8": 8, "u8": 8, "i16": 16, "u16": 16, "i32": 32, "u32": 32, "i64": 64, "u64": 64}


def signed(value, width):
    return value - (1 << width) if value >> (width - 1) else value


# ---- operations (section 6)

def two(name, left, right):
    width = int(name[-2:])
    mask, kind = (1 << width) - 1, name[:-2]
    left, right = left & mask, right & mask
    low, high = signed(left, width), signed(right, width)
    shift = right % width

    def quotient(a, b):
        return 0 if b == 0 else (abs(a) // abs(b)) * (1 if (a < 0) == (b < 0) else -1)

    def rest(a, b):
        return 0 if b == 0 else a - b * quotient(a, b)

    table = {
        "add": lambda: left + right, "sub": lambda: left - right, "mul": lambda: left * right,
        "and": lambda: left & right, "or": lambda: left | right, "xor": lambda: left ^ right,
        "shl": lambda: left << shift, "shru": lambda: left >> shift, "shrs": lambda: low >> shift,
        "divu": lambda: quotient(left, right), "remu": lambda: rest(left, right),
        "divs": lambda: quotient(low, high), "rems": lambda: rest(low, high),
        "eq": lambda: left == right, "ne": lambda: left != right, "ltu": lambda: left < right,
        "leu": lambda: left <= right, "lts": lambda: low < high, "les": lambda: low <= high,
    }
    return int(table[kind]()) & mask


def one(name, value):
    widening = re.fullmatch(r"(s|u|cut)(\d+)to(\d+)", name)
    if widening:
        kind, before, after = widening.group(1), int(widening.group(2)), int(widening.group(3))
        value &= (1 << before) - 1
        return (signed(value, before) if kind == "s" else value) & ((1 << after) - 1)
    width = int(name[-2:])
    mask, kind = (1 << width) - 1, name[:-2]
    value &= mask
    return {"neg": -value & mask, "not": value ^ mask, "zero": int(value == 0)}[kind]


# ---- texts (sections 8 and 15)

class Unit:
    def __init__(self, words):
        self.kind, self.words = words[0], words[1:]
        self.ins, self.outs = {}, {}
        self.fired, self.sent, self.entries, self.serial = False, set(), [], 0
        if self.kind == "lsq":
            self.array, self.depth = int(words[1]), int(words[2])
            self.ports = [] if words[3] == "-" else list(words[3])
            self.groups = [] if words[4] == "none" else [
                [] if group == "-" else [int(port) for port in group.split(",")] for group in words[4].split(";")]
            self.forward = len(words) > 5 and words[5] == "forward"


class Channel:
    def __init__(self, words):
        (self.from_unit, self.from_place), (self.to_unit, self.to_place) = (
            tuple(int(part) for part in place.split(".")) for place in words[:2])
        self.slots, self.delay = int(words[3]), int(words[4])
        self.tokens, self.at_start = [], 0


class Net:
    def __init__(self, text):
        self.scalars, self.arrays, self.units, self.channels, self.result = [], [], [], [], None
        for line in text.split("\n"):
            words = line.split(" ")
            if words[0] == "scalar":
                self.scalars.append((words[1], words[2]))
            elif words[0] == "array":
                self.arrays.append((words[1], words[2], int(words[3])))
            elif words[0] == "result" and words[1] != "none":
                self.result = words[1]
            elif words[0] == "unit":
                self.units.append(Unit(words[1:]))
            elif words[0] == "chan":
                channel = Channel(words[1:])
                self.channels.append(channel)
                self.units[channel.from_unit].outs[channel.from_place] = channel
                self.units[channel.to_unit].ins[channel.to_place] = channel


def read_inputs(net, text):
    given = {}
    for line in text.split("\n"):
        if line.strip() and not line.startswith("#"):
            name, numbers = line.split("=")
            given[name.strip()] = [int(number) for number in numbers.split()]
    scalars = [given[name][0] & ((1 << BITS[ty]) - 1) for name, ty in net.scalars]
    arrays = [[number & ((1 << BITS[ty]) - 1) for number in given[name]] for name, ty, _ in net.arrays]
    return scalars, arrays


def results(net, arrays, value):
    def number(pattern, ty):
        return str(signed(pattern, BITS[ty]) if ty[0] == "i" else pattern)

    lines = [f"{name} = {' '.join(number(x, ty) for x in elements)}"
             for (name, ty, _), elements in zip(net.arrays, arrays)]
    return lines + ([f"return = {number(value, net.result)}"] if net.result else [])


# ---- firings

class Run:
    """A run: each try of a place answers whether it fired. Where it is timed, a token is used only when it is ripe, and
    what is put on had room as the cycle began."""

    def __init__(self, net, scalars, arrays, timed):
        self.net, self.scalars, self.arrays, self.timed = net, scalars, arrays, timed
        self.strays, self.cycle, self.value, self.exited = [0] * len(arrays), 0, None, False

    def head(self, unit, place):
        channel = unit.ins[place]
        if channel.tokens and (not self.timed or channel.tokens[0][1] + channel.delay <= self.cycle):
            return channel.tokens[0][0]
        return None

    def room(self, unit, place):
        channel = unit.outs[place]
        return len(channel.tokens) < channel.slots and (not self.timed or channel.at_start < channel.slots)

    def fire(self, unit, takes, place=None, value=0):
        if place is not None and not self.room(unit, place):
            return False
        for at in takes:
            unit.ins[at].tokens.pop(0)
        if place is not None:
            unit.outs[place].tokens.append((value, self.cycle))
        return True

    def element(self, array, address):
        if address < len(self.arrays[array]):
            return self.arrays[array][address]
        self.strays[array] += 1
        return 0

    def go(self, unit):
        """Of the units with one act; the heads that it needs are there, or it does not fire."""
        kind, words = unit.kind, unit.words
        if kind in ("entry", "param"):
            value = 0 if kind == "entry" else self.scalars[int(words[0])]
            if unit.fired or not self.fire(unit, [], 0, value):
                return False
            unit.fired = True
            return True
        if kind == "exit":
            places = sorted(unit.ins)
            heads = [self.head(unit, place) for place in places]
            if unit.fired or None in heads:
                return False
            self.fire(unit, places)
            unit.fired = self.exited = True
            self.value = heads[1] if len(heads) > 1 else None
            return True
        if kind == "mux":
            which = self.head(unit, 0)
            if which is None:
                return False
            place = min(which, int(words[1]) - 1) + 1
            value = self.head(unit, place)
            return value is not None and self.fire(unit, [0, place], 0, value)
        places = sorted(unit.ins)
        heads = [self.head(unit, place) for place in places]
        if None in heads:
            return False
        if kind == "sink":
            return self.fire(unit, places)
        if kind == "branch":
            return self.fire(unit, places, 0 if heads[0] else 1, heads[1])
        if kind == "read":
            if not self.room(unit, 0):
                return False
            return self.fire(unit, places, 0, self.element(int(words[0]), heads[0]))
        value = {"const": lambda: int(words[1]), "op1": lambda: one(words[0], heads[0]),
                 "op2": lambda: two(words[0], *heads), "select": lambda: heads[1] if heads[0] else heads[2]}[kind]()
        return self.fire(unit, places, 0, value)

    def send(self, unit, output):
        value = self.head(unit, 0)
        if value is None or output in unit.sent:
            return False
        last = len(unit.sent) + 1 == int(unit.words[1])
        if not self.fire(unit, [0] if last else [], output, value):
            return False
        unit.sent = set() if last else unit.sent | {output}
        return True

    def merge(self, unit, place):
        return self.head(unit, place) is not None and self.fire(unit, [place], 0, place)

    # ---- queues (section 14); an entry is serial, port, address, data, executed, value, replied

    def alloc(self, unit, group):
        ports = unit.groups[group]
        held = max(len(unit.entries), unit.at_start) if self.timed else len(unit.entries)
        token = self.head(unit, group)
        if token is None or held + len(ports) > unit.depth or not self.fire(unit, [group], group, token):
            return False
        for port in ports:
            unit.entries.append({"serial": unit.serial, "port": port, "addr": None, "data": None, "done": False,
                                 "value": 0, "replied": False, "store": unit.ports[port] == "s"})
            unit.serial += 1
        return True

    def fill(self, unit, port, what):
        place = len(unit.groups) + 1 + 2 * port + (what == "data")
        entry = next((it for it in unit.entries if it["port"] == port and it[what] is None), None)
        if what == "data" and unit.ports[port] != "s":
            return False
        token = self.head(unit, place)
        if entry is None or token is None:
            return False
        self.fire(unit, [place])
        entry[what] = token
        return True

    def source(self, unit, at):
        """None where the entry may not execute; else the store whose data it takes, or False."""
        entry, older = unit.entries[at], unit.entries[:at]
        if entry["done"] or entry["addr"] is None or any(it["addr"] is None for it in older if it["store"] or entry["store"]):
            return None
        same = [it for it in older if it["addr"] == entry["addr"] and not it["done"]]
        if entry["store"]:
            return False if entry["data"] is not None and not same else None
        stores = [it for it in same if it["store"]]
        if not stores:
            return False
        return stores[-1] if unit.forward and stores[-1]["data"] is not None else None

    def execute(self, unit, at):
        entry, source, elements = unit.entries[at], self.source(unit, at), self.arrays[unit.array]
        if source is None:
            return False
        entry["done"], within = True, entry["addr"] < len(elements)
        if entry["store"]:
            if within:
                elements[entry["addr"]] = entry["data"]
            else:
                self.strays[unit.array] += 1
        else:
            value = self.element(unit.array, entry["addr"])
            entry["value"] = source["data"] if source and within else value
        return True

    def reply(self, unit, port):
        entry = next((it for it in unit.entries if it["port"] == port and not it["replied"]), None)
        if unit.ports[port] != "l" or entry is None or not entry["done"]:
            return False
        if not self.fire(unit, [], len(unit.groups) + 1 + port, entry["value"]):
            return False
        entry["replied"] = True
        return True

    def retire(self, unit):
        if not unit.entries:
            return False
        front = unit.entries[0]
        if not front["done"] or not (front["store"] or front["replied"]):
            return False
        unit.entries.pop(0)
        return True

    def end(self, unit):
        place = len(unit.groups)
        token = self.head(unit, place)
        return not unit.entries and token is not None and self.fire(unit, [place], place, token)

    def places(self, unit):
        """What the unit may do, each once a cycle, in the order of a cycle."""
        if unit.kind == "fork":
            return [lambda at=at: self.send(unit, at) for at in range(int(unit.words[1]))]
        if unit.kind == "cmerge":
            return [lambda at=at: self.merge(unit, at) for at in range(int(unit.words[0]))]
        if unit.kind == "lsq":
            ports = range(len(unit.ports))
            oldest = lambda: any(self.execute(unit, at) for at in range(len(unit.entries)))
            return ([lambda at=at: self.alloc(unit, at) for at in range(len(unit.groups))]
                    + [lambda at=at: self.fill(unit, at, "addr") for at in ports]
                    + [lambda at=at: self.fill(unit, at, "data") for at in ports]
                    + [oldest] + [lambda at=at: self.reply(unit, at) for at in ports]
                    + [lambda: self.retire(unit), lambda: self.end(unit)])
        return [lambda: self.go(unit)]


def by_cycles(run, limit):
    """Firings and cycles to rest; None for the cycles where the limit cuts the run."""
    units = run.net.units
    others = [act for unit in units if unit.kind != "lsq" for act in run.places(unit)]
    queues = [(unit, run.places(unit)) for unit in units if unit.kind == "lsq"]
    firings, last, quiet = 0, -1, 0
    greatest = max((channel.delay for channel in run.net.channels), default=0)
    while quiet <= greatest:
        for channel in run.net.channels:
            channel.at_start = len(channel.tokens)
        for unit, _ in queues:
            unit.at_start = len(unit.entries)
        before, left, moved = firings, others, True
        while moved:
            still = [act for act in left if not act()]
            firings, moved, left = firings + len(left) - len(still), len(still) < len(left), still
        for _, acts in queues:
            firings += sum(act() for act in acts)
        if firings > limit:
            return firings, None
        quiet, last = (0, run.cycle) if firings > before else (quiet + 1, last)
        run.cycle += 1
    return firings, last + 1


def untimed(run, limit, seed):
    draw = random.Random(seed)
    acts = [act for unit in run.net.units for act in run.places(unit)]
    firings, moved = 0, True
    while moved and firings <= limit:
        draw.shuffle(acts)
        made = sum(act() for act in acts)
        firings, moved = firings + made, made > 0
    return firings, None


def simulate(net_text, inputs_text, limit=8_000_000, seed=None):
    """The lines that are printed, the firings and the cycles."""
    net = Net(net_text)
    scalars, arrays = read_inputs(net, inputs_text)
    run = Run(net, scalars, arrays, seed is None)
    firings, cycles = by_cycles(run, limit) if seed is None else untimed(run, limit, seed)
    if firings > limit:
        return [f"Limit {limit}"], firings, None
    if not run.exited:
        return ["Stuck"], firings, cycles
    stray = next((name for (name, _, _), count in zip(net.arrays, run.strays) if count), None)
    return [f"Stray {stray}"] if stray else results(net, arrays, run.value), firings, cycles


def main(words):
    plain = [word for at, word in enumerate(words) if not word.startswith("--") and (not at or not words[at - 1].startswith("--"))]
    options = {word: int(words[at + 1]) for at, word in enumerate(words) if word.startswith("--")}
    if len(plain) != 2:
        sys.exit(__doc__)
    with open(plain[0]) as net, open(plain[1]) as inputs:
        lines, firings, cycles = simulate(net.read(), inputs.read(), options.get("--limit", 8_000_000), options.get("--untimed"))
    print("\n".join(lines + [f"# firings {firings}"] + ([] if cycles is None else [f"# cycles {cycles}"])))


if __name__ == "__main__":
    main(sys.argv[1:])
