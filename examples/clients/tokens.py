"""The tokens of a net along a schedule, by docs/FORMATS.md, sections 6, 7, 14 and 16: which channels each firing takes from and
puts on. `Tokens(net, scalars, arrays).fire(line)` makes one firing; the patterns of the inputs are made by `patterns`."""
import netlist
from operations import operation1, operation2


class NotEnabled(Exception):
    """A line of a schedule that cannot come where it comes."""


def patterns(net, text):
    """The patterns of the scalars and of the arrays in a text of inputs."""
    given = {}
    for line in text.splitlines():
        if line.strip() and not line.startswith("#"):
            name, numbers = line.split("=")
            given[name.strip()] = [int(number) for number in numbers.split()]
    scalars = [given[name][0] % (1 << netlist.BITS[kind]) for name, kind in net.scalars]
    return scalars, [[value % (1 << netlist.BITS[kind]) for value in given[name]] for name, kind, _ in net.arrays]


class Tokens:
    """The state of a net: the tokens of each channel, the bits of forks, the entries of queues and the elements of arrays."""

    def __init__(self, net, scalars, arrays):
        self.net, self.scalars, self.arrays = net, scalars, arrays
        self.ins, self.outs = net.inputs(), net.outputs()
        self.held = {id(channel): [] for channel in net.channels}
        self.sent = [set() for _ in net.units]
        self.entries, self.next = [[] for _ in net.units], [0] * len(net.units)

    def fire(self, line):
        """Makes the firing of a line: the unit's number, the channels that it takes from and the channel that it puts on, or None."""
        try:
            unit, act, *number = line.split(" ")
            unit, self.taken, self.put_on = int(unit), [], None
            getattr(self, f"{act}_")(unit, *map(int, number))
        except (AttributeError, IndexError, KeyError, StopIteration, TypeError, ValueError) as wrong:
            raise NotEnabled(f"`{line}` cannot come there") from wrong
        return unit, self.taken, self.put_on

    def take(self, unit, place):
        self.taken.append(self.ins[unit][place])
        return self.held[id(self.taken[-1])].pop(0)

    def put(self, unit, place, value):
        self.put_on = self.outs[unit][place]
        self.held[id(self.put_on)].append(value)

    def go_(self, unit):
        kind, words = self.net.units[unit].kind, self.net.units[unit].words
        if kind == "mux":
            which = self.take(unit, 0)
            self.put(unit, 0, self.take(unit, min(which, int(words[1]) - 1) + 1))
            return
        heads = [self.take(unit, place) for place in sorted(self.ins[unit])]
        if kind == "branch":
            self.put(unit, 0 if heads[0] else 1, heads[1])
        elif kind not in ("sink", "exit"):
            self.put(unit, 0, {
                "entry": lambda: 0, "param": lambda: self.scalars[int(words[0])], "const": lambda: int(words[1]),
                "op1": lambda: operation1(words[0], *heads), "op2": lambda: operation2(words[0], *heads),
                "select": lambda: heads[1] if heads[0] else heads[2], "read": lambda: self.element(int(words[0]), heads[0])}[kind]())

    def element(self, array, address):
        return self.arrays[array][address] if address < len(self.arrays[array]) else 0

    def from_(self, unit, place):
        self.take(unit, place)
        self.put(unit, 0, place)

    def send_(self, unit, output):
        self.put(unit, output, self.held[id(self.ins[unit][0])][0])
        self.sent[unit].add(output)
        if len(self.sent[unit]) == len(self.outs[unit]):
            self.take(unit, 0)
            self.sent[unit].clear()

    def alloc_(self, unit, group):
        self.put(unit, group, self.take(unit, group))
        for port in netlist.queue(self.net.units[unit]).groups[group]:
            self.entries[unit].append({"serial": self.next[unit], "port": port, "done": False, "replied": False})
            self.next[unit] += 1

    def addr_(self, unit, port):
        self.fill(unit, port, "address", len(netlist.queue(self.net.units[unit]).groups) + 1 + 2 * port)

    def data_(self, unit, port):
        self.fill(unit, port, "data", len(netlist.queue(self.net.units[unit]).groups) + 2 + 2 * port)

    def fill(self, unit, port, what, place):
        next(it for it in self.entries[unit] if it["port"] == port and what not in it)[what] = self.take(unit, place)

    def exec_(self, unit, serial):
        queue = netlist.queue(self.net.units[unit])
        entry = next(it for it in self.entries[unit] if it["serial"] == serial)
        waiting = [it for it in self.entries[unit] if it["serial"] < serial and it.get("address") == entry["address"]
                   and queue.ports[it["port"]] == "s" and not it["done"]]
        if queue.ports[entry["port"]] == "l":
            inside = entry["address"] < len(self.arrays[queue.array])
            entry["value"] = waiting[-1]["data"] if waiting and inside else self.element(queue.array, entry["address"])
        elif entry["address"] < len(self.arrays[queue.array]):
            self.arrays[queue.array][entry["address"]] = entry["data"]
        entry["done"] = True

    def reply_(self, unit, port):
        entry = next(it for it in self.entries[unit] if it["port"] == port and not it["replied"])
        entry["replied"] = True
        self.put(unit, len(netlist.queue(self.net.units[unit]).groups) + 1 + port, entry["value"])

    def retire_(self, unit):
        self.entries[unit].pop(0)

    def end_(self, unit):
        place = len(netlist.queue(self.net.units[unit]).groups)
        self.put(unit, place, self.take(unit, place))
