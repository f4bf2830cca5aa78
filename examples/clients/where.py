#!/usr/bin/env python3
"""Where the cycles of a run go.

    where.py NETLIST INPUTS [--limit F]

It runs the net by cycles (the simulator of tools/oracles/simulate.py, so take inputs of some thousand firings), and tells of each loop its turns
and the cycles of a turn; the critical path, that is, what the last firing waited for, what that waited for, and so on back to the
begin, with its cycles by channel; of each queue its most entries, and the cycles in which it refused an allocation for want of room;
and at last what bounds each loop, and what to try. NETLIST may be `-`. `draw.py --svg --where INPUTS NETLIST` draws the path."""
import argparse
import signal
import sys
from collections import Counter, namedtuple

import causes
import netlist
from draw_boxes import boxes_of, loop_channels

MOST_LINES = 12
# A part of a path: what was waited for (as of causes.Cause), from which firing to which, and its cycles.
Part = namedtuple("Part", "kind channel source target cycles")


class Where:
    """A run and what can be told of it."""

    def __init__(self, net, inputs_text, limit=8_000_000):
        self.net, self.run = net, causes.recorded(netlist.write(net), inputs_text, limit)
        self.firings = self.run.firings
        self.heads = self.loop_heads()

    # ---- names

    def unit(self, number, act=""):
        """A unit in words; a queue by what it does."""
        unit = self.net.units[number]
        if unit.kind == "lsq":
            return f"{number} {self.queue_act(unit, act)}"
        if unit.kind in ("read", "param"):
            return f"{number} {unit.kind} {(self.net.arrays if unit.kind == 'read' else self.net.scalars)[int(unit.words[0])][0]}"
        return f"{number} {unit.words[0] if unit.kind in ('op1', 'op2') else unit.kind}" + (f" {unit.words[1]}" if unit.kind == "const" else "")

    def queue_act(self, unit, act):
        queue = netlist.queue(unit)
        name = self.net.arrays[queue.array][0]
        word, *number = act.split()
        if word in ("addr", "data", "reply"):
            kind = "load" if queue.ports[int(number[0])] == "l" else "store"
            return f"{kind} {name}"
        return {"alloc": f"enter {name}", "end": f"done {name}", "exec": f"execute {name}", "retire": f"retire {name}"}.get(
            word, f"queue {name}")

    def channel_words(self, part):
        """A part of a path in words."""
        source, target = self.firings[part.source], self.firings[part.target]
        ends = f"{self.unit(source.unit, source.act)} -> {self.unit(target.unit, target.act)}"
        return ends + {"token": f", channel {part.channel}", "room": f", room on channel {part.channel}", "place": ", one a cycle",
                       "entries": ", room in the queue", "queue": ""}[part.kind]

    # ---- paths

    def path(self, number):
        """The parts of the path that leads to a firing, from it back to the begin."""
        while True:
            cause = causes.waited(self.run, number)
            if cause is None:
                return
            yield Part(cause.kind, cause.channel, cause.firing, number, self.firings[number].cycle - self.firings[cause.firing].cycle)
            number = cause.firing

    def key(self, number):
        """What a firing is, whatever its turn: its unit and its act, of `exec` without the entry."""
        firing = self.firings[number]
        return firing.unit, firing.act.split()[0] if firing.act.startswith("exec") else firing.act

    def critical(self):
        """The parts of the critical path that took cycles, those between the same units together: a part of each, times and cycles."""
        last = max(range(len(self.firings)), key=lambda at: (self.firings[at].cycle, at), default=None)
        parts = [part for part in self.path(last) if part.cycles] if last is not None else []
        cycles, times, first = Counter(), Counter(), {}
        for part in parts:
            key = (part.kind, part.channel) if part.channel is not None else (part.kind, self.key(part.source), self.key(part.target))
            cycles[key] += part.cycles
            times[key] += 1
            first[key] = part
        return [(first[key], times[key], total) for key, total in sorted(cycles.items(), key=lambda it: (-it[1], -first[it[0]].target))]

    # ---- loops

    def loop_heads(self):
        """The control merges to which a turn comes back, each with the inputs by which it does."""
        _, into, out_of = boxes_of(self.net)
        back = loop_channels(self.net, into, out_of)
        heads = {}
        for at in sorted(back):
            unit, place = self.net.channels[at].target
            if self.net.units[unit].kind == "cmerge":
                heads.setdefault(unit, set()).add(place)
        return heads

    def turns(self, head):
        """How often a loop was entered, its turns, and their cycles together."""
        entered = turns = cycles = 0
        last = None
        for firing in self.firings:
            if firing.unit == head:
                if int(firing.act.split()[1]) in self.heads[head]:
                    turns, cycles = turns + 1, cycles + firing.cycle - last
                else:
                    entered += 1
                last = firing.cycle
        return entered, turns, cycles

    def bound(self, head):
        """What bounds a loop: the parts of one round of the path to a late turn, and the turns in it, 0 where the round is one of a loop
        inside; None where there is no such round."""
        rounds = [at for at, firing in enumerate(self.firings) if firing.unit == head and int(firing.act.split()[1]) in self.heads[head]]
        found = [self.round(start, head) for start in {rounds[-1], rounds[len(rounds) // 2]}] if rounds else []
        found = [it for it in found if it]
        return min(found, key=lambda it: (len(it[0]), it[0][0].target), default=None)

    def round(self, start, head):
        """From a firing back to the same act of an earlier turn: the parts, and the turns of the loop between."""
        seen, parts = {self.key(start): (0, start)}, []
        for part in self.path(start):
            parts.append(part)
            key = self.key(part.source)
            if key in seen:
                first, later = seen[key]
                if self.firings[part.source].cycle < self.firings[later].cycle:
                    return parts[first:], sum(self.firings[at].unit == head for at in range(part.source + 1, later + 1))
            else:
                seen[key] = (len(parts), part.source)
        return None

    def inner(self, parts):
        """The loop whose turns a round is of: the one that came most often meanwhile."""
        first, last = parts[-1].source, parts[0].target
        came = Counter(self.firings[at].unit for at in range(first + 1, last + 1) if self.firings[at].unit in self.heads)
        return came.most_common(1)[0][0] if came else None

    # ---- what takes the cycles of a part

    def reason(self, part):
        """A class for what takes the cycles of a part: `register`, `mul`, `div`, `read`, `enter` (of a queue),
        `lsq`, `exec`, `room`, `entries` or `other`."""
        if part.kind == "token":
            unit = self.net.units[self.firings[part.source].unit]
            if "alloc" in (self.firings[part.source].act.split()[0], self.firings[part.target].act.split()[0]):
                return "enter"
            if unit.kind in ("read", "lsq"):
                return unit.kind
            name = unit.words[0] if unit.kind == "op2" else ""
            return "mul" if name.startswith("mul") else "div" if name.startswith(("div", "rem")) else "register"
        if part.kind == "place" and self.firings[part.target].act.startswith("exec"):
            return "exec"
        return part.kind if part.kind in ("room", "entries") else "other"

    def verdict(self, head):
        """What bounds a loop, and what to try, in lines."""
        entered, turns, cycles = self.turns(head)
        found = self.bound(head)
        if not turns:
            return [f"loop {head}: no turn"]
        if not found:
            return [f"loop {head}: {turns} turns, too few to tell what bounds one"]
        parts, rounds = found
        inner = None if rounds else self.inner(parts)
        if inner is not None:
            return [f"loop {head}: its turns wait for those of loop {inner}, inside it"]
        rounds = max(1, rounds)
        taking = [part for part in parts if part.cycles]
        total = sum(part.cycles for part in taking)
        classes = Counter()
        for part in taking:
            classes[self.reason(part)] += part.cycles
        main = next((kind for kind in ("room", "entries") if classes[kind]), classes.most_common(1)[0][0])
        counts = Counter(self.reason(part) for part in taking)
        a_turn = f"{total} cycle{'s' * (total != 1)} a turn" if rounds == 1 else f"{total} cycles in {rounds} turns"
        words = ", ".join(said(kind, counts[kind], classes[kind], self.queue_name(taking)) for kind, _ in classes.most_common())
        way = " -> ".join(dict.fromkeys(self.unit(self.firings[part.source].unit, self.firings[part.source].act) for part in reversed(parts)))
        return [f"loop {head}: {a_turn}, taken by {words}", f"    round: {way}", f"    try: {self.advice(main, taking)}"]

    def queue_name(self, taking):
        """The array of the first queue in a round."""
        units = [self.net.units[self.firings[at].unit] for part in taking for at in (part.target, part.source)]
        return next((self.net.arrays[netlist.queue(unit).array][0] for unit in units if unit.kind == "lsq"), "the array")

    def advice(self, main, taking):
        """What to try against what takes most of a round."""
        name = self.queue_name(taking)
        if main == "register":
            count = sum(self.reason(part) == "register" for part in taking)
            return ("`--depth 4` or a greater one, which puts fewer registers round a loop, or `--delay logic=1`" if count > 1 else
                    "nothing more: one register round a loop is the least")
        return {
            "mul": "a smaller `--delay mul=N`, or no product in what a turn hands to the next",
            "div": "a smaller `--delay div=N`, or no division in what a turn hands to the next",
            "read": "a smaller `--delay read=N`, or no read in what a turn hands to the next",
            "enter": f"`--delay lsq=1` at least; the control token passes the queue of `{name}` in each turn: two turns in one body, or a "
                     "variable in place of the element",
            "lsq": f"`--delay lsq=1`, `--forward`, or a variable for what `{name}` hands from turn to turn",
            "exec": f"fewer accesses to `{name}` in a turn, as by a variable: its queue executes one a cycle",
            "room": "a greater `--slots`: a channel with fewer slots than its delay does not carry a token a cycle", "entries": f"nothing by options: the queue of `{name}` is full; fewer accesses in a turn",
        }.get(main, "a net of another form; no option changes this")

    # ---- the report

    def report(self):
        run, net = self.run, self.net
        ended = f", and did not end: {run.ended}" if run.ended else ""
        lines = [f"kernel {net.name}: {len(self.firings)} firings, {run.cycles} cycles{ended}", "", "loops, by their control merges"]
        for head in self.heads:
            entered, turns, cycles = self.turns(head)
            a_turn = f", {cycles / turns:.1f} cycles a turn" if turns else ""
            lines.append(f"  {self.unit(head)}: entered {entered} time{'s' * (entered != 1)}, {turns} turn{'s' * (turns != 1)}{a_turn}")
        lines += [] if self.heads else ["  none"]
        parts = self.critical()
        last = max((firing.cycle for firing in self.firings), default=0)
        lines += ["", f"critical path: {last} cycles from the first to the last firing", "  cycles  times  from and to"]
        for part, times, cycles in parts[:MOST_LINES]:
            lines.append(f"  {cycles:6} {times:6}  {self.channel_words(part)}")
        rest = sum(cycles for _, _, cycles in parts[MOST_LINES:])
        lines += [f"  {rest:6}         {len(parts) - MOST_LINES} others"] if len(parts) > MOST_LINES else []
        lines += ["", "queues", *self.queues(), "", "what bounds each loop"]
        for head in self.heads:
            lines += ["  " + line for line in self.verdict(head)]
        return "\n".join(lines + ([] if self.heads else ["  none"]) + [""])

    def queues(self):
        lines = []
        for at, most in self.run.most.items():
            queue = netlist.queue(self.net.units[at])
            refused = len(self.run.refused.get(at, ()))
            made = sum(firing.unit == at and firing.act.startswith("exec") for firing in self.firings)
            lines.append(f"  {self.net.arrays[queue.array][0]}: {most} of {queue.depth} entries at most, {refused} cycle"
                         f"{'s' * (refused != 1)} in which an allocation was refused, {made} executions")
        return lines or ["  none"]

    def heat(self):
        """The cycles of the critical path on each channel and in each unit."""
        channels, units = Counter(), Counter()
        for part, _, cycles in self.critical():
            if part.kind in ("token", "room"):
                channels[part.channel] += cycles
            else:
                units[self.firings[part.target].unit] += cycles
        return channels, units


def said(kind, count, cycles, name):
    """A class of what takes cycles, in words; `name` is the array of a queue."""
    many = "s" * (count != 1)
    if kind == "enter":
        return f"the control token's way through the queue of {name}, {cycles} cycle{'s' * (cycles != 1)}"
    return {"register": f"{count} register{many}", "mul": f"{count} product{many} of {cycles} cycles", "div":
            f"{count} division{many} of {cycles} cycles", "read": f"{count} read{many} of {cycles} cycles",
            "lsq": f"{count} answer{many} of the queue of {name}, {cycles} cycle{'s' * (cycles != 1)}",
            "exec": f"the queue of {name}, which executes one access a cycle, {cycles} cycle{'s' * (cycles != 1)}",
            "room": f"want of room on {count} channel{many}, {cycles} cycle{'s' * (cycles != 1)}",
            "entries": f"want of room in a queue, {cycles} cycle{'s' * (cycles != 1)}"}.get(
                kind, f"{cycles} cycle{'s' * (cycles != 1)} in which a unit had fired already")


def run_of(net, inputs, limit=8_000_000):
    """The run of a net on an inputs file; where one is wrong, a line on the error output and status 1."""
    try:
        return Where(net, netlist.text_of(inputs), limit)
    except (KeyError, ValueError, IndexError):
        sys.exit(f"{inputs}: no inputs of the net, or the net breaks a rule; `elastic run` names the line or the rule")


def main():
    signal.signal(signal.SIGPIPE, signal.SIG_DFL)  # so that `| head` ends it without a word
    words = argparse.ArgumentParser(description=__doc__, formatter_class=argparse.RawDescriptionHelpFormatter)
    words.add_argument("netlist", metavar="NETLIST", help="a file, or - for the standard input")
    words.add_argument("inputs", metavar="INPUTS")
    words.add_argument("--limit", type=int, default=8_000_000, metavar="F", help="the most firings")
    given = words.parse_args()
    print(run_of(netlist.load(given.netlist), given.inputs, given.limit).report(), end="")


if __name__ == "__main__":
    main()
