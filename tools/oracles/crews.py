#!/usr/bin/env python3
"""Runs drawn nets (tools/oracles/draw_nets.py) and those of examples/ by the proved program: by cycles, by 1, 2, 3, 7 and 64 workers, and
by a schedule that three workers log, which is replayed. Each must answer the same bytes and the same status.

With --busy it runs them by 64 workers alone, on one processor beside a busy loop, and tells how long the longest run took.

usage: tools/oracles/crews.py [PROGRAM] [--seed N] [--count C] [--busy]

It prints what it ran; it fails, and names the files, where two answers differ or a drawn net is refused."""
import argparse
import collections
import os
import pathlib
import subprocess
import sys
import tempfile
import time

import draw_nets
import netlist  # (of examples/clients, whose folder draw_nets names)

TOP = pathlib.Path(__file__).resolve().parents[2]
WORKERS = (1, 2, 3, 7, 64)
LIMIT = "1000000"
# Statuses of a net that was run: to its results, too long, stuck, and with a stray.
RUN = (0, 8, 9, 10)


class Differs(Exception):
    """What differs, in a line."""


def answer(program, *words):
    """The status of a call, its output and its error output."""
    ran = subprocess.run([str(program), *map(str, words)], capture_output=True, check=False)
    return ran.returncode, ran.stdout, ran.stderr


def drawn(program, folder, seed, count):
    """The drawn nets, each with its inputs; kernels are compiled first."""
    draw_nets.draw_all(folder, seed, count)
    for number in range(count):
        path = folder / f"{number:03}"
        net = path.with_suffix(".net")
        if not net.exists():
            compile_to(program, path.with_suffix(".c"), net, *path.with_suffix(".options").read_text().split())
        yield net, path.with_suffix(".in")


def compile_to(program, kernel, net, *options):
    status, text, said = answer(program, "compile", kernel, *options)
    if status != 0:
        raise Differs(f"{kernel} {' '.join(options)}: status {status}: {said.decode().strip()}")
    net.write_bytes(text)


def examples(program, folder):
    """The nets of examples/, each with its inputs; kernels are compiled first."""
    for inputs in sorted(TOP.glob("examples/*/inputs.txt")):
        net = inputs.with_name("net.txt")
        if not net.exists():
            net = folder / f"{inputs.parent.name}.net"
            compile_to(program, inputs.with_name("kernel.c"), net)
        yield net, inputs


def same(net, what, first, second):
    if first != second:
        raise Differs(f"{net}: {what}: status {second[0]} and not {first[0]}: {second[1]!r} {second[2]!r}")


def run_all_ways(program, net, inputs, schedule):
    """Runs a net in all ways and compares; gives the status and the number of firings."""
    words = ["run", net, inputs, "--limit", LIMIT]
    plain = answer(program, *words)
    counted = answer(program, *words, "--count")
    if plain[0] not in RUN:
        raise Differs(f"{net}: status {plain[0]}: {plain[2].decode().strip()}")
    for workers in WORKERS:
        same(net, f"{workers} workers", plain, answer(program, *words, "--workers", workers))
        same(net, f"{workers} workers, counted", counted, answer(program, *words, "--count", "--workers", workers))
    logged = answer(program, *words, "--log", "--workers", 3)
    if plain[0] != 0:
        same(net, "three workers that log", plain, logged)
        return plain[0], 0
    results, _, lines = logged[1].partition(b"%%\n")
    same(net, "three workers that log", plain, (logged[0], results, logged[2]))
    schedule.write_bytes(lines)
    same(net, "their schedule, replayed", plain, answer(program, "replay", net, inputs, schedule))
    firings = int(counted[1].split()[-1])
    if lines.count(b"\n") != firings:
        raise Differs(f"{net}: a schedule of {lines.count(10)} lines and {firings} firings")
    return 0, firings


def crossing(net, workers):
    """How many channels go from one worker to another, and how many of these have one slot."""
    count = len(net.units)
    parted = [it for it in net.channels if it.source[0] * workers // count != it.target[0] * workers // count]
    return len(parted), sum(it.slots == 1 for it in parted)


def told(name, ran, firings, nets):
    """Says what was run, and what the nets have."""
    statuses = ", ".join(f"{count} of status {status}" for status, count in sorted(ran.items()))
    queues = [unit for net in nets for unit in net.units if unit.kind == "lsq"]
    marked = sum(unit.words[-1] == "forward" for unit in queues)
    parted = [crossing(net, 3) for net in nets]
    print(f"{name}: {len(nets)} nets ({statuses}), {sum(len(net.units) for net in nets)} units, {firings} firings")
    print(f"  {sum(any(unit.kind == 'lsq' for unit in net.units) for net in nets)} nets have queues, {len(queues)} in all, {marked} of them forward")
    print(f"  {sum(bool(all_of) for all_of, _ in parted)} nets have channels between three workers, {sum(a for a, _ in parted)} in all, {sum(b for _, b in parted)} of one slot")


def try_all(program, name, pairs, schedule):
    ran, firings, nets = collections.Counter(), 0, []
    for net, inputs in pairs:
        status, made = run_all_ways(program, net, inputs, schedule)
        ran[status] += 1
        firings += made
        nets.append(netlist.load(str(net)))
    told(name, ran, firings, nets)


def try_busy(program, name, pairs):
    """Times the nets by 64 workers on the first processor, on which a busy loop runs too."""
    busy = subprocess.Popen([sys.executable, "-c", "while True: pass"])
    took = []
    try:
        os.sched_setaffinity(busy.pid, {0})
        for net, inputs in pairs:
            began = time.time()
            words = ["taskset", "-c", "0", program, "run", net, inputs, "--limit", LIMIT, "--workers", WORKERS[-1]]
            status, _, said = answer(*words)
            took.append((time.time() - began, str(net)))
            if status not in RUN:
                raise Differs(f"{net}: status {status}: {said.decode().strip()}")
    finally:
        busy.kill()
    longest, net = max(took)
    print(f"{name}: {len(took)} nets by 64 workers on one processor beside a busy loop: the longest takes {longest:.2f} s ({net}), all {sum(it for it, _ in took):.1f} s")


def main():
    words = argparse.ArgumentParser(description=__doc__, formatter_class=argparse.RawDescriptionHelpFormatter)
    words.add_argument("program", nargs="?", default=TOP / "crates/elastic/out/elastic", type=pathlib.Path)
    words.add_argument("--seed", type=int, default=1)
    words.add_argument("--count", type=int, default=150)
    words.add_argument("--busy", action="store_true")
    given = words.parse_args()
    program = given.program.resolve()
    with tempfile.TemporaryDirectory() as folder:
        folder = pathlib.Path(folder)
        try:
            if given.busy:
                try_busy(program, "drawn", drawn(program, folder, given.seed, given.count))
                try_busy(program, "examples", examples(program, folder))
                return
            try_all(program, "drawn", drawn(program, folder, given.seed, given.count), folder / "schedule")
            try_all(program, "examples", examples(program, folder), folder / "schedule")
        except Differs as wrong:
            sys.exit(f"crews: {wrong}")
    print(f"Each gives the same by cycles, by {', '.join(map(str, WORKERS[:-1]))} and {WORKERS[-1]} workers, counted or not, and by a schedule of three, replayed.")


if __name__ == "__main__":
    main()
