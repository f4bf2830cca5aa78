#!/usr/bin/env python3
"""Whether another order of a circuit's units lets fewer channels go between workers, and runs by workers end sooner. For some kernels
of several loops, and some of one, it tells of the order in which `compile` prints the units, and of others (reversed, by a breadth-first
and by a depth-first search from the entry, along channels and along them both ways, drawn), how many channels go between two and
between four workers, and the seconds of a run by one, two and four workers, the least of some runs.

usage: tools/measure/orders.py [PROGRAM]"""
import collections
import pathlib
import random
import re
import sys
import tempfile

import load
import nets
import workers

RUNS = 5
NESTED = """#include <stdint.h>
uint32_t f(uint32_t n) {
  uint32_t s = 1;
  for (uint32_t i = 0; i < n; i++) {
    uint32_t t = i;
    for (uint32_t j = 0; j < n; j++) { uint32_t q = t ^ s; for (uint32_t k = 0; k < 8; k++) q = q * 3 + k; t = t + q; }
    s = s * 5 + t;
    for (uint32_t j = 0; j < n; j++) s = s * 7 + (j ^ t);
  }
  return s; }
"""
BRANCHES = """#include <stdint.h>
uint32_t f(uint32_t n) {
  uint32_t a = 1, b = 2, c = 3, d = 4;
  for (uint32_t i = 0; i < n; i++) {
    if (i & 1) { for (uint32_t j = 0; j < 16; j++) a = a * 3 + j; } else { for (uint32_t j = 0; j < 16; j++) b = b * 5 + j; } }
  for (uint32_t i = 0; i < n; i++) {
    if (i & 2) { for (uint32_t j = 0; j < 16; j++) c = c * 7 + j; } else { for (uint32_t j = 0; j < 16; j++) d = d * 9 + j; } }
  return a ^ b ^ c ^ d; }
"""
KERNELS = [("20 loops in a row", workers.loops(), 800), ("loops in loops", NESTED, 60), ("two loops of two loops", BRANCHES, 4_000),
           ("20 recurrences in one loop", workers.recurrences(), 8_000)]


class Netlist:
    """A netlist: the lines before its units, the units, and the channels as ends and the rest of their lines."""

    def __init__(self, text):
        lines = text.splitlines()
        self.units = [line for line in lines if line.startswith("unit ")]
        self.head = lines[:lines.index(self.units[0])]
        found = re.findall(r"^chan (\d+)\.(\d+) (\d+)\.(\d+)(.*)", text, re.MULTILINE)
        self.chans = [(*map(int, ends[:4]), ends[4]) for ends in found]

    def ordered(self, order):
        """The netlist with its units in another order."""
        places = {unit: place for place, unit in enumerate(order)}
        chans = sorted((places[source], out, places[target], at, rest) for source, out, target, at, rest in self.chans)
        lines = [f"chan {source}.{out} {target}.{at}{rest}" for source, out, target, at, rest in chans]
        return "\n".join([*self.head, *(self.units[unit] for unit in order), *lines, "end", ""])

    def orders(self):
        """Orders of the units, by name."""
        count = len(self.units)
        along, beside = collections.defaultdict(set), collections.defaultdict(set)
        for source, _, target, _, _ in self.chans:
            along[source].add(target)
            beside[source].add(target)
            beside[target].add(source)
        drawn = list(range(count))
        random.Random(1).shuffle(drawn)
        return {"as printed": list(range(count)), "reversed": list(range(count))[::-1], "breadth first": searched(count, along, True),
                "breadth first, both ways": searched(count, beside, True), "depth first": searched(count, along, False),
                "depth first, both ways": searched(count, beside, False), "drawn": drawn}


def searched(count, beside, breadth):
    """The units as a search finds them from the first on."""
    seen, found = set(), []
    for first in range(count):
        waiting = collections.deque([first])
        while waiting:
            unit = waiting.popleft() if breadth else waiting.pop()
            if unit not in seen:
                seen.add(unit)
                found.append(unit)
                waiting.extend(sorted(beside[unit], reverse=not breadth))
    return found


def put_rows(elastic, folder, what, kernel, turns):
    """The lines of the table for one kernel."""
    workers.compiled(elastic, folder, "kernel", kernel)
    (folder / "kernel.in").write_text(f"n = {turns}\n")
    netlist, wanted = Netlist((folder / "kernel.net").read_text()), None
    for name, order in netlist.orders().items():
        text = netlist.ordered(order)
        (folder / "ordered.net").write_text(text)
        cells = []
        for number in (1, 2, 4):
            words = ["run", "ordered.net", "kernel.in", "--limit", workers.LIMIT, "--workers", str(number)]
            ran = [workers.measured(elastic, words, folder) for _ in range(RUNS)]
            wanted = wanted or ran[0][0]
            if any(out != wanted for out, _, _ in ran):
                sys.exit(f"{what}, {name}: another result")
            cells.append(f"{min(seconds for _, seconds, _ in ran):.3f}")
        between = ", ".join(f"{nets.crossing_channels(text, number):,}" for number in (2, 4))
        print(f"| {what} | {name} | {between} | {' | '.join(cells)} |", flush=True)


def tell(elastic):
    """Prints the table."""
    with tempfile.TemporaryDirectory() as name:
        print("| Kernel | Order | Channels between 2, 4 | 1 worker | 2 | 4 |\n|---|---|---|---|---|---|")
        for what, kernel, turns in KERNELS:
            put_rows(elastic, pathlib.Path(name), what, kernel, turns)


if __name__ == "__main__":
    tell(sys.argv[1] if len(sys.argv) > 1 else load.PROGRAM)
