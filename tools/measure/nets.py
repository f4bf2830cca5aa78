"""Nets and inputs that several benches use."""
import re


def with_idle_loops(net, loops):
    """The netlist with so many loops of a fork and a sum, in which no token ever is, behind its units."""
    units = sum(line.startswith("unit ") for line in net.splitlines())
    laid, chans = [], []
    for loop in range(loops):
        fork, add = units + 2 * loop, units + 2 * loop + 1
        laid += ["unit fork 32 2", "unit op2 add32"]
        chans += [f"chan {fork}.0 {add}.0 32 1 1", f"chan {fork}.1 {add}.1 32 1 1", f"chan {add}.0 {fork}.0 32 1 1"]
    before, _, after = net.partition("\nchan ")
    return "\n".join([before, *laid, "chan " + after.removesuffix("end\n").rstrip("\n"), *chans, "end", ""])


def histogram_inputs(net, turns):
    """Inputs of the histogram's netlist."""
    lengths = {name: int(length) for name, length in re.findall(r"^array (\w+) \w+ (\d+)", net, re.MULTILINE)}
    values = " ".join(str((place * 37 + 11) % lengths["h"]) for place in range(lengths["x"]))
    return f"n = {turns}\nx = {values}\nh = {' '.join('0' * lengths['h'])}\n"


def wide_fork(outs):
    """A fork of so many outputs, each into a sink."""
    head = ["elastic 2", "kernel wide", "scalar n u32", "result none", "unit entry", "unit param 0", "unit exit", f"unit fork 32 {outs}"]
    channels = ["chan 0.0 2.0 32 1 0 control", "chan 1.0 3.0 32 1 0", *(f"chan 3.{out} {4 + out}.0 32 1 0" for out in range(outs))]
    return "\n".join([*head, *["unit sink 32"] * outs, *channels, "end", ""])


class Net:
    """A netlist while it is laid out: units by number, and channels with the widths, slots and delays that they have here."""

    def __init__(self):
        self.units, self.chans = [], []

    def unit(self, text):
        """A unit's number."""
        self.units.append(text)
        return len(self.units) - 1

    def chan(self, source, target, delay=0, control=False):
        """A channel from an output to an input, each a pair of unit and place."""
        ends = f"{source[0]}.{source[1]} {target[0]}.{target[1]}"
        self.chans.append(f"chan {ends} 32 2 {delay}{' control' if control else ''}")

    def text(self, scalars):
        """The netlist."""
        head = ["elastic 2", "kernel k", *(f"scalar {name} u32" for name in scalars), "result none"]
        return "\n".join([*head, *(f"unit {text}" for text in self.units), *self.chans, "end", ""])


def counted_loop(net):
    """Lays out a loop of n turns, and gives the outputs of its index (0 in the first turn, then 1) and of its condition."""
    entry, count, exit_ = net.unit("entry"), net.unit("param 0"), net.unit("exit")
    merge, passed, mux = net.unit("cmerge 2"), net.unit("fork 32 2"), net.unit("mux 32 2")
    values, left, control = net.unit("fork 32 3"), net.unit("branch 32"), net.unit("branch 32")
    less, one, again, sink = net.unit("op2 sub32"), net.unit("const 32 1"), net.unit("fork 32 2"), net.unit("sink 32")
    index, goes = net.unit("fork 32 2"), net.unit("fork 32 2")
    net.chan((entry, 0), (merge, 0), control=True)
    net.chan((merge, 0), (passed, 0), 1, True)
    net.chan((passed, 0), (control, 1), control=True)
    net.chan((passed, 1), (index, 0))
    net.chan((index, 0), (mux, 0))
    net.chan((count, 0), (mux, 1))
    net.chan((mux, 0), (values, 0))
    net.chan((values, 0), (left, 0))
    net.chan((values, 1), (left, 1))
    net.chan((values, 2), (goes, 0))
    net.chan((goes, 0), (control, 0))
    net.chan((control, 0), (again, 0), control=True)
    net.chan((control, 1), (exit_, 0), control=True)
    net.chan((again, 0), (merge, 1), control=True)
    net.chan((again, 1), (one, 0))
    net.chan((left, 0), (less, 0))
    net.chan((left, 1), (sink, 0))
    net.chan((one, 0), (less, 1))
    net.chan((less, 0), (mux, 2), 1)
    return (index, 1), (goes, 1)


def fork(net, source, count):
    """Hands an output out to so many inputs, and gives the outputs."""
    unit = net.unit(f"fork 32 {count}")
    net.chan(source, (unit, 0))
    return [(unit, out) for out in range(count)]


def chain(net, source, length):
    """So many operations, one behind the other; gives the last output."""
    for step in range(length):
        operation = net.unit(f"op1 {'not32' if step % 2 else 'neg32'}")
        net.chan(source, (operation, 0))
        source = (operation, 0)
    return source


def recurrences(count, length, groups=16, apart=False):
    """So many values, each of which depends on itself alone by so many operations a turn, in one loop of n turns. What each needs of
    the loop comes through forks for groups of them. The forks of a group stand beside its values, or all stand apart, beside the loop."""
    net = Net()
    index, goes = counted_loop(net)
    first = net.unit("param 1")
    groups = min(groups, count)
    tops = [fork(net, source, groups) for source in (index, goes, (first, 0))]
    sizes = [count // groups + (group < count % groups) for group in range(groups)]
    forked = [[fork(net, outs[group], sizes[group]) for outs in tops] for group in range(groups)] if apart else []
    for group in range(groups):
        indices, conditions, firsts = forked[group] if apart else [fork(net, outs[group], sizes[group]) for outs in tops]
        for which in range(sizes[group]):
            mux, branch, sink = net.unit("mux 32 2"), net.unit("branch 32"), net.unit("sink 32")
            net.chan(indices[which], (mux, 0))
            net.chan(firsts[which], (mux, 1))
            net.chan((mux, 0), (branch, 1))
            net.chan(conditions[which], (branch, 0))
            net.chan((branch, 1), (sink, 0))
            net.chan(chain(net, (branch, 0), length), (mux, 2), 1)
    return net.text(["n", "c"])


def pipeline(length):
    """One chain of so many operations behind the index of a loop of n turns."""
    net = Net()
    index, goes = counted_loop(net)
    sinks = net.unit("sink 32"), net.unit("sink 32")
    net.chan(goes, (sinks[0], 0))
    net.chan(chain(net, index, length), (sinks[1], 0))
    return net.text(["n"])


def crossing_ends(net, workers):
    """The outputs and the inputs, each as unit and place, at channels of a netlist that go from one worker to another: unit u of n is
    that of worker u * workers / n."""
    count = sum(line.startswith("unit ") for line in net.splitlines())
    chans = [tuple(map(int, ends)) for ends in re.findall(r"^chan (\d+)\.(\d+) (\d+)\.(\d+)", net, re.MULTILINE)]
    across = [ends for ends in chans if ends[0] * workers // count != ends[2] * workers // count]
    return {ends[:2] for ends in across}, {ends[2:] for ends in across}


def crossing_channels(net, workers):
    """How many channels of a netlist go from one worker to another."""
    return len(crossing_ends(net, workers)[0])


def crossing_firings(net, schedule, workers):
    """Which share of the firings of a schedule put a token on such a channel or took one from it. A fork takes with the last of its
    sendings; an act of a queue counts where its unit has such a channel."""
    kinds = [line.split()[1:] for line in net.splitlines() if line.startswith("unit ")]
    outputs, inputs = crossing_ends(net, workers)
    puts, takes = {unit for unit, _ in outputs}, {unit for unit, _ in inputs}
    sent, firings, across = [0] * len(kinds), 0, 0
    for line in schedule.splitlines():
        unit, act, *number = line.split()
        unit, kind = int(unit), kinds[int(unit)]
        firings += 1
        if act == "send":
            sent[unit] += 1
            last = sent[unit] % int(kind[2]) == 0
            across += (unit, int(number[0])) in outputs or last and unit in takes
        elif act == "from":
            across += unit in puts or (unit, int(number[0])) in inputs
        else:
            across += unit in puts or unit in takes
    return across / firings
