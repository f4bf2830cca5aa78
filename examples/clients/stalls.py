#!/usr/bin/env python3
"""Where the tokens of a run waited: for each channel how many tokens went over it, for which part of the run (counted in firings) it
was full, and how many tokens it held at most; and the units that never fired.

    elastic run my.net my.txt --log > log.txt
    stalls.py my.net my.txt log.txt

A channel that is full for long leads to a unit that waits for another input, or has too few slots. The log is what `run --log`
printed, or a schedule alone."""
import argparse
import signal
import sys

import netlist
from tokens import NotEnabled, Tokens, patterns


def schedule_of(text):
    """The lines of the firings: those after the line `%%`, where there is one."""
    lines = text.splitlines()
    return lines[lines.index("%%") + 1:] if "%%" in lines else lines


def counted(net, tokens, lines):
    """For each channel, by its identity, the tokens, for how many firings it was full and the most tokens at once; and the units
    that fired."""
    counts, fired, since = {id(channel): [0, 0, 0] for channel in net.channels}, set(), {}
    for number, line in enumerate(lines):
        try:
            unit, taken, channel = tokens.fire(line)
        except NotEnabled as wrong:
            sys.exit(f"the firing of number {number}, {wrong}: is the schedule of this net on these inputs?")
        fired.add(unit)
        for it in taken:
            counts[id(it)][1] += number - since.pop(id(it), number)
        if channel:
            count, held = counts[id(channel)], len(tokens.held[id(channel)])
            count[0], count[2] = count[0] + 1, max(count[2], held)
            if held == channel.slots:
                since[id(channel)] = number
    for it, number in since.items():
        counts[it][1] += len(lines) - number
    return counts, fired


def table(net, counts, fired, firings):
    """The lines that are printed, the fullest channels first."""
    def unit(number):
        return f"{number} {' '.join([net.units[number].kind, *net.units[number].words[:2]])}"

    lines = ["tokens   full  most  slots  delay  channel"]
    for at, channel in sorted(enumerate(net.channels), key=lambda it: (-counts[id(it[1])][1], -counts[id(it[1])][0], it[0])):
        tokens, full, most = counts[id(channel)]
        lines.append(f"{tokens:6} {100 * full / max(1, firings):5.0f}% {most:5} {channel.slots:6} {channel.delay:6}  "
                     f"{at}: {unit(channel.source[0])} -> {unit(channel.target[0])}")
    never = [number for number in range(len(net.units)) if number not in fired]
    return lines + ["", "units that never fired: " + (", ".join(map(unit, never)) or "none")]


def main():
    signal.signal(signal.SIGPIPE, signal.SIG_DFL)  # so that `| head` ends it without a word
    words = argparse.ArgumentParser(description=__doc__, formatter_class=argparse.RawDescriptionHelpFormatter)
    words.add_argument("netlist", metavar="NETLIST")
    words.add_argument("inputs", metavar="INPUTS")
    words.add_argument("log", metavar="LOG", help="what `elastic run NETLIST INPUTS --log` printed")
    given = words.parse_args()
    net = netlist.load(given.netlist)
    try:
        scalars, arrays = patterns(net, netlist.text_of(given.inputs))
    except (KeyError, ValueError, IndexError):
        sys.exit(f"{given.inputs}: no inputs of the net; `elastic run` names the line")
    lines = schedule_of(netlist.text_of(given.log))
    counts, fired = counted(net, Tokens(net, scalars, arrays), lines)
    print("\n".join(table(net, counts, fired, len(lines))))


if __name__ == "__main__":
    main()
