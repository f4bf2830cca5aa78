"""Why each firing of a run by cycles came when it came: the tokens, the rooms and the acts that it waited for.

    run = causes.recorded(net_text, inputs_text)      a Recorded: .firings, .cycles, .ended

It is the simulator of tools/oracles/simulate.py (docs/FORMATS.md, sections 14 and 18), watched: each firing has its unit, its act, its cycle,
and its causes, each with the firing that it comes from and the cycle from which on it held."""
import pathlib
import sys
from collections import namedtuple
from dataclasses import dataclass, field

sys.path.insert(0, str(pathlib.Path(__file__).resolve().parents[2] / "tools/oracles"))
import simulate  # noqa: E402  (its folder was just named)

# What a firing waited for: `kind` is token, room, place, queue or entries; the firing before (its number), the cycle from which on it
# held, and the channel of a token or a room (its number), or None.
Cause = namedtuple("Cause", "kind firing ready channel")


@dataclass
class Firing:
    """A firing: the unit's number, its act as in schedules, its cycle, and its causes."""
    unit: int
    act: str
    cycle: int
    causes: list = field(default_factory=list)


class Recorded(simulate.Run):
    """A run whose firings are kept."""

    def __init__(self, net, scalars, arrays):
        super().__init__(net, scalars, arrays, True)
        self.firings, self.cycles, self.ended = [], 0, ""
        self.number = {id(channel): at for at, channel in enumerate(net.channels)}
        self.unit_number = {id(unit): at for at, unit in enumerate(net.units)}
        # Of each channel the firings that put its tokens and those that took them, in order.
        self.puts, self.pops = [[] for _ in net.channels], [[] for _ in net.channels]
        self.last_of_place, self.retired, self.refused = {}, {}, {}
        self.most = {at: 0 for at, unit in enumerate(net.units) if unit.kind == "lsq"}

    def places(self, unit):
        """The acts of a unit, each watched."""
        acts = super().places(unit)
        return [lambda act=act, name=name: self.watched(unit, name, act) for act, name in zip(acts, names(unit))]

    def watched(self, unit, name, act):
        """Makes an act, and keeps it where it came."""
        places = [self.number[id(it)] for it in unit.ins.values()]
        out = [self.number[id(it)] for it in unit.outs.values()]
        channels = self.net.channels
        before = {at: len(channels[at].tokens) for at in (*places, *out)}
        entries = list(unit.entries)
        if not act():
            if name.startswith("alloc"):
                self.note_refused(unit, int(name.split()[1]))
            return False
        number, key = len(self.firings), (self.unit_number[id(unit)], name.split()[0] if name.startswith("exec") else name)
        if name == "exec":
            name = self.executed_name(unit)
        firing = Firing(key[0], name, self.cycle)
        self.firings.append(firing)
        taken = [at for at in places if len(channels[at].tokens) < before[at]]
        looked = [self.number[id(unit.ins[0])]] if unit.kind == "fork" and not taken else []
        for at in taken + looked:
            self.by_token(firing, at)
        for at in (it for it in out if len(channels[it].tokens) > before[it]):
            self.by_room(firing, at)
            self.puts[at].append(number)
        for at in taken:
            self.pops[at].append(number)
        if key in self.last_of_place:
            last = self.last_of_place[key]
            firing.causes.append(Cause("place", last, self.firings[last].cycle + 1, None))
        self.last_of_place[key] = number
        if unit.kind == "lsq":
            self.in_queue(unit, name, firing, number, entries)
        return True

    def by_token(self, firing, at):
        """A token was there, at the front of its channel."""
        channel, index = self.net.channels[at], len(self.pops[at])
        put = self.puts[at][index]
        firing.causes.append(Cause("token", put, self.firings[put].cycle + channel.delay, at))
        if index:
            last = self.pops[at][index - 1]
            firing.causes.append(Cause("place", last, self.firings[last].cycle, None))

    def by_room(self, firing, at):
        """A channel had room, since an older token of it was taken in a cycle before."""
        channel, index = self.net.channels[at], len(self.puts[at])
        if index >= channel.slots:
            last = self.pops[at][index - channel.slots]
            firing.causes.append(Cause("room", last, self.firings[last].cycle + 1, at))

    # ---- queues

    def executed_name(self, unit):
        return f"exec {next(it['serial'] for it in unit.entries if it['done'] and 'exec' not in it)}"

    def note_refused(self, unit, group):
        """Counts a cycle in which a group waited at a queue without room for it."""
        at = self.unit_number[id(unit)]
        held = max(len(unit.entries), unit.at_start)
        if self.head(unit, group) is not None and held + len(unit.groups[group]) > unit.depth:
            self.refused.setdefault(at, set()).add(self.cycle)

    def in_queue(self, unit, name, firing, number, before):
        """The causes inside a queue, and which firing gave each entry what it has."""
        at, word, known = self.unit_number[id(unit)], name.split()[0], firing.causes.append
        now = self.firings

        def after(kind, cause, later=0):
            known(Cause(kind, cause, now[cause].cycle + later, None))
        if word == "alloc":
            for entry in unit.entries[len(before):]:
                entry["alloc"] = number
            freed = self.retired.get(at, [])
            index = unit.serial - unit.depth - 1
            if 0 <= index < len(freed):
                after("entries", freed[index], 1)
            self.most[at] = max(self.most[at], len(unit.entries))
        elif word in ("addr", "data"):
            entry = next(it for it in unit.entries if it["port"] == int(name.split()[1]) and it[word] is not None and f"by {word}" not in it)
            entry[f"by {word}"] = number
            after("queue", entry["alloc"])
        elif word == "exec":
            index = next(at for at, it in enumerate(unit.entries) if it["done"] and "exec" not in it)
            entry = unit.entries[index]
            entry["exec"] = number
            for what in ("by addr", "by data"):
                if what in entry:
                    after("queue", entry[what])
            for it in unit.entries[:index]:
                if (it["store"] or entry["store"]) and "by addr" in it:
                    after("queue", it["by addr"])
                if it["addr"] == entry["addr"] and "exec" in it and (it["store"] or entry["store"]):
                    after("queue", it["exec"])
        elif word == "reply":
            entry = next(it for it in unit.entries if it["port"] == int(name.split()[1]) and it["replied"] and "reply" not in it)
            entry["reply"] = number
            after("queue", entry["exec"])
        elif word == "retire":
            entry = before[0]
            after("queue", entry["exec"])
            if "reply" in entry:
                after("queue", entry["reply"])
            self.retired.setdefault(at, []).append(number)
        elif word == "end" and self.retired.get(at):
            after("queue", self.retired[at][-1])


def names(unit):
    """The acts of a unit's places, in the order of a cycle; that of `exec` lacks the entry's number."""
    if unit.kind == "fork":
        return [f"send {at}" for at in range(int(unit.words[1]))]
    if unit.kind == "cmerge":
        return [f"from {at}" for at in range(int(unit.words[0]))]
    if unit.kind == "lsq":
        ports = range(len(unit.ports))
        return ([f"alloc {at}" for at in range(len(unit.groups))] + [f"addr {at}" for at in ports] + [f"data {at}" for at in ports]
                + ["exec"] + [f"reply {at}" for at in ports] + ["retire", "end"])
    return ["go"]


def recorded(net_text, inputs_text, limit=8_000_000):
    """The run of a net by cycles, with its firings."""
    net = simulate.Net(net_text)
    run = Recorded(net, *simulate.read_inputs(net, inputs_text))
    made, cycles = simulate.by_cycles(run, limit)
    run.cycles = cycles
    run.ended = f"Limit {limit}" if made > limit else "" if run.exited else "Stuck"
    return run


def waited(run, number):
    """The cause that held last of a firing: the one that it waited for; None of one that waited for nothing. Of several a token is told
    before a room, and of tokens the one that was put last."""
    order = {"token": 4, "queue": 3, "entries": 2, "room": 1, "place": 0}
    return max(run.firings[number].causes, key=lambda it: (it.ready, order[it.kind], it.firing), default=None)
