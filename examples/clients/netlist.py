"""Netlists: a reader and a writer by docs/FORMATS.md, sections 7 and 8, and nothing else.

    net = netlist.load("my.net")         a Net; where there is none, a line on the error output and status 1
    net = netlist.read(text)             the same of a text; NotANetlist tells what is wrong with it
    print(netlist.write(net), end="")    the text in version 2

The file may hold more, as what `elastic go` or `make demo` prints does: `load` takes the lines from `elastic 1` or `elastic 2`
to `end`. The form of each line is judged; whether the net keeps the rules is not: for that there is `elastic upgrade`."""
import re
import sys
from collections import namedtuple
from dataclasses import dataclass, field

BITS = {"i8": 8, "u8": 8, "i16": 16, "u16": 16, "i32": 32, "u32": 32, "i64": 64, "u64": 64}

N, NAME, TYPE = "(?:0|[1-9][0-9]*)", "[A-Za-z_][A-Za-z0-9_]*", "(?:" + "|".join(BITS) + ")"
GROUP = f"(?:{N}(?:,{N})*|-)"
UNIT_FORMS = {
    "entry": "", "exit": "", "param": f" {N}", "read": f" {N}", "const": f" {N} {N}", "op1": " [a-z0-9]+",
    "op2": " [a-z0-9]+", "select": f" {N}", "branch": f" {N}", "sink": f" {N}", "fork": f" {N} {N}", "mux": f" {N} {N}",
    "cmerge": f" {N}", "lsq": f" {N} {N} (?:[ls]+|-) (?:none|{GROUP}(?:;{GROUP})*)(?: plain| forward)?",
}
LINE_FORMS = {
    "elastic": "elastic [12]", "kernel": f"kernel {NAME}", "scalar": f"scalar {NAME} {TYPE}",
    "array": f"array {NAME} {TYPE} {N}", "result": f"result (?:{TYPE}|none)",
    "unit": "unit (?:" + "|".join(kind + form for kind, form in UNIT_FORMS.items()) + ")",
    "chan": rf"chan {N}\.{N} {N}\.{N} {N} {N} {N}(?: control)?", "end": "end",
}
NEXT = {
    "": ["elastic"], "elastic": ["kernel"], "kernel": ["scalar", "array", "result"], "scalar": ["scalar", "array", "result"],
    "array": ["array", "result"], "result": ["unit", "chan", "end"], "unit": ["unit", "chan", "end"], "chan": ["chan", "end"],
}


# What the words of an `lsq` say: the array's number, the entries, a letter a port, the ports of each group, and the mark.
Queue = namedtuple("Queue", "array depth ports groups mark")


class NotANetlist(Exception):
    """What is wrong with a text, in a sentence."""


@dataclass
class Unit:
    """A unit: its kind, the first word of its line, and the words behind it."""
    kind: str
    words: list


@dataclass
class Channel:
    """A channel from an output place to an input place; a place is a unit's number and the place's."""
    source: tuple
    target: tuple
    width: int
    slots: int
    delay: int
    control: bool = False


@dataclass
class Net:
    """A net; scalars are (name, type), arrays (name, type, length); units and channels are numbered as they stand."""
    name: str = ""
    scalars: list = field(default_factory=list)
    arrays: list = field(default_factory=list)
    result: str = "none"
    units: list = field(default_factory=list)
    channels: list = field(default_factory=list)

    def inputs(self):
        """For each unit the channel at each input place, by the place's number."""
        return self._by_place(lambda channel: channel.target)

    def outputs(self):
        """For each unit the channel at each output place, by the place's number."""
        return self._by_place(lambda channel: channel.source)

    def _by_place(self, end):
        found = [{} for _ in self.units]
        for channel in self.channels:
            found[end(channel)[0]][end(channel)[1]] = channel
        return found


def queue(unit):
    """What an `lsq` says; a queue of version 1 is one with the mark `plain`."""
    array, depth, ports, groups, *mark = unit.words
    lists = [] if groups == "none" else [[int(port) for port in it.split(",") if port != "-"] for it in groups.split(";")]
    return Queue(int(array), int(depth), ports.strip("-"), lists, *(mark or ["plain"]))


def read(text):
    """The net of a text in version 1 or 2."""
    net, last = Net(), ""
    for number, line in enumerate(text.split("\n"), 1):
        first, *words = line.split(" ")
        if last == "end":
            break
        if first not in NEXT[last] or not re.fullmatch(LINE_FORMS[first], line):
            raise NotANetlist(f"line {number}, `{line}`, may not stand there")
        if first in ("kernel", "result"):
            setattr(net, {"kernel": "name"}.get(first, first), words[0])
        elif first == "unit":
            net.units.append(Unit(words[0], words[1:]))
        elif first == "chan":
            source, target = (tuple(map(int, place.split("."))) for place in words[:2])
            net.channels.append(Channel(source, target, *map(int, words[2:5]), len(words) == 6))
        elif first in ("scalar", "array"):
            getattr(net, first + "s").append((words[0], words[1], *map(int, words[2:])))
        last = first
    for number, it in enumerate(net.channels):
        if max(it.source[0], it.target[0]) >= len(net.units):
            raise NotANetlist(f"channel {number} names a unit that is not there")
    if last != "end":
        raise NotANetlist("the text ends before the line `end`")
    return net


def write(net):
    """The text of a net in version 2."""
    lines = ["elastic 2", f"kernel {net.name}", *(f"scalar {name} {type_}" for name, type_ in net.scalars)]
    lines += [*(f"array {name} {type_} {length}" for name, type_, length in net.arrays), f"result {net.result}"]
    for unit in net.units:
        mark = ["plain"] if unit.kind == "lsq" and len(unit.words) == 4 else []
        lines.append(" ".join(["unit", unit.kind, *unit.words, *mark]))
    for it in net.channels:
        ends = "{}.{} {}.{}".format(*it.source, *it.target)
        lines.append(f"chan {ends} {it.width} {it.slots} {it.delay}" + (" control" if it.control else ""))
    return "\n".join([*lines, "end", ""])


def text_of(path):
    """The text of a file, or of the standard input for `-`; where it cannot be read, a line on the error output and status 1."""
    try:
        return sys.stdin.read() if path == "-" else open(path, encoding="utf-8", newline="").read()
    except (OSError, UnicodeDecodeError) as wrong:
        sys.exit(f"{path}: cannot be read: {getattr(wrong, 'strerror', None) or 'it is no text'}")


def load(path):
    """The net in a file, or in the standard input for `-`; where there is none, a line on the error output and status 1."""
    text = text_of(path)
    found = re.search(r"^elastic [12]\n.*?^end\n", text, re.M | re.S)
    try:
        return read(found.group() if found else text)
    except NotANetlist as wrong:
        sys.exit(f"{path}: no netlist: {wrong}")
