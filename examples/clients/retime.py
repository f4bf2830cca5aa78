#!/usr/bin/env python3
"""Another choice of slots and delays for a circuit, drawn by a seed. What it computes stays the same, and so does the number of
firings; the number of cycles does not.

    retime.py NETLIST [--seed N] [--slots MOST] [--delay MOST] > other.net
    elastic run other.net inputs.txt --count --cycles

Each channel gets 1 to MOST slots (8 where nothing is said) and a delay of 0 to MOST cycles (5 where nothing is said). The rules
stay kept: a channel out of a queue has a delay of 1 at least, and so has one channel of each loop."""
import argparse
import random
import sys

import netlist
from graphs import back_edges


def retime(net, seed, most_slots, most_delay):
    """Draws the slots and the delays of the net's channels."""
    draw = random.Random(seed)
    for channel in net.channels:
        channel.slots = draw.randint(1, most_slots)
        channel.delay = draw.randint(0, most_delay)
        if net.units[channel.source[0]].kind == "lsq":
            channel.delay = max(channel.delay, 1)
    quick = [channel for channel in net.channels if not channel.delay]
    for at in back_edges(len(net.units), [(channel.source[0], channel.target[0]) for channel in quick]):
        quick[at].delay = 1


def within(least, most):
    """A reader of numbers from `least` to `most`."""
    def number(word):
        if not word.isascii() or not word.isdigit() or not least <= int(word) <= most:
            raise argparse.ArgumentTypeError(f"{word} is no number from {least} to {most}")
        return int(word)
    return number


def main():
    words = argparse.ArgumentParser(description=__doc__, formatter_class=argparse.RawDescriptionHelpFormatter)
    words.add_argument("netlist", metavar="NETLIST", help="a file, or - for the standard input")
    words.add_argument("--seed", type=int, default=1, metavar="N", help="another number draws other slots and delays")
    words.add_argument("--slots", type=within(1, 1024), default=8, metavar="MOST", help="the most slots of a channel")
    words.add_argument("--delay", type=within(0, 1000), default=5, metavar="MOST", help="the greatest delay of a channel")
    given = words.parse_args()
    net = netlist.load(given.netlist)
    if len(net.channels) * given.slots > 67_108_864:
        sys.exit(f"{given.netlist}: {len(net.channels)} channels of {given.slots} slots pass 67,108,864: take fewer --slots")
    retime(net, given.seed, given.slots, given.delay)
    print(netlist.write(net), end="")


if __name__ == "__main__":
    main()
