#!/usr/bin/env python3
"""Runs the gate and prints its processor time in all and by crate, or predicts how long a run takes on another machine.

usage: tools/house/gate_times.py [WORD..]
       tools/house/gate_times.py --predict

The first runs `rt ci WORD..` where it is called, prints a table for docs/TIMES.md and writes what it measured into
tools/house/gate_times.tsv: by crate the processor seconds of its proof with its builds, and of its mutants in must-fail/.
(rattle-kit-13f keeps what passed on its machine: with --anew it begins from nothing, with names of crates it proves these and
those below them alone. rattle-kit-13b begins from nothing always, and takes no word.)

The second reads that file, and tells for two and four processors and 12, 16 and 24 GB how long a run from nothing takes, as the
gate plans it: one task a processor, those with the longest chain behind them first, and a task is started only where what
all tasks are reckoned with stays below 0.85 of the free memory (1 GB, 1 MB a line of code, 0.2 MB a line of proofs and 0.08 MB
a line of code below). RT_JOBS=N in the environment of the gate leaves that rule out and runs N tasks at once.

The time in all is that of all the gate's processes, as the system counts it. The time by crate is that of the prover's and the
compilers' processes that name the crate, sampled twice a second: what a process takes after its last sample is missed."""
import collections
import os
import pathlib
import resource
import subprocess
import sys
import time

TICK = os.sysconf("SC_CLK_TCK")
TOP = pathlib.Path(__file__).resolve().parents[2]
KEPT = TOP / "tools/house/gate_times.tsv"


def processes():
    """By number: its parent, its processor seconds, the crate that its command line names, if any, and whether it tries a mutant."""
    found = {}
    for number in filter(str.isdigit, os.listdir("/proc")):
        try:
            with open(f"/proc/{number}/stat") as it:
                fields = it.read().rpartition(")")[2].split()
            with open(f"/proc/{number}/cmdline", "rb") as it:
                words = it.read().decode(errors="replace").split("\0")
            folder = os.readlink(f"/proc/{number}/cwd")
        except OSError:
            continue
        crate = next((after for word, after in zip(words, words[1:]) if word == "--crate-name"), None)
        found[int(number)] = int(fields[1]), (int(fields[11]) + int(fields[12])) / TICK, crate, "/rt-edit-" in folder
    return found


def crate_of(gate, number, found):
    """The crate that a process or the nearest process above it names, below the gate alone, and whether it tries a mutant."""
    crate, tries = None, False
    while number in found and number != 1:
        parent, _, named, is_mutant = found[number]
        crate, tries = crate or named, tries or is_mutant
        if number == gate.pid:
            return crate, tries
        number = parent
    return None, False


def measure(words):
    gate = subprocess.Popen(["rt", "ci", *words])
    began = time.time()
    seconds = {}
    while gate.poll() is None:
        found = processes()
        for number, (_, spent, _, _) in found.items():
            crate, tries = crate_of(gate, number, found)
            if crate:
                key = number, crate.removesuffix("_tests"), tries
                seconds[key] = max(spent, seconds.get(key, 0))
        time.sleep(0.5)
    usage = resource.getrusage(resource.RUSAGE_CHILDREN)
    by_crate = collections.defaultdict(lambda: [0.0, 0.0])
    for (_, crate, tries), spent in seconds.items():
        by_crate[crate][tries] += spent
    print("| Crate | Processor minutes |\n|---|---|")
    for crate, spent in sorted(by_crate.items(), key=lambda it: -sum(it[1])):
        print(f"| `{crate}` | {sum(spent) / 60:.1f} |")
    print(f"all processes: {(usage.ru_utime + usage.ru_stime) / 60:.1f} processor minutes, in {(time.time() - began) / 60:.1f} minutes")
    lines = ["crate\tproof and builds, processor seconds\tmutants, processor seconds"]
    lines += [f"{crate}\t{proof:.0f}\t{mutants:.0f}" for crate, (proof, mutants) in sorted(by_crate.items())]
    KEPT.write_text("\n".join(lines) + "\n")
    return gate.returncode


def count(crate, *kinds):
    parts = ("src", "specs", "proofs")
    return sum(file.read_text().count("\n") for part in parts for file in (TOP / "crates" / crate / part).rglob("*") if file.suffix in kinds)


def dependencies():
    """By crate, lowest first, all crates of the repository below it."""
    below = {}
    for line in (TOP / "crates.txt").read_text().splitlines():
        if not line.startswith("#") and ":" in line:
            name, deps = line.split(":", 1)
            below[name.split()[0]] = deps.split()

    def all_below(name):
        found = set()
        for dep in below[name]:
            if dep in below:
                found |= {dep} | all_below(dep)
        return found

    return {name: all_below(name) for name in sorted(below, key=lambda it: len(all_below(it)))}


def tasks_of(measured, below):
    """By task: those that it waits for, its seconds, the gigabytes that it is reckoned with, and the lines by which it is ordered."""
    lines = {name: count(name, ".rt") for name in below}
    tasks = {}
    for name in below:
        proof, mutants = measured.get(name, (0.0, 0.0))
        needs = 1 + lines[name] / 1e3 + count(name, ".antt") * 0.2e-3 + sum(lines[it] for it in below[name]) * 0.08e-3
        tasks[name, "proof"] = [(it, "proof") for it in below[name]], proof, needs, lines[name]
        if mutants:
            tasks[name, "mutants"] = [(name, "proof")], mutants, needs, lines[name]
    return tasks


def behind(tasks, weight):
    """By task, the weight of the heaviest chain of tasks from it on."""
    found = {it: 0 for it in tasks}
    for key in reversed(list(tasks)):
        found[key] += weight(tasks[key])
        for it in tasks[key][0]:
            found[it] = max(found[it], found[key])
    return found


def planned(tasks, lanes, memory):
    """The minutes that the tasks take in so many lanes, with so many gigabytes to reckon with (None: without the rule)."""
    order = behind(tasks, lambda it: it[3])
    left, running, done, now = sorted(tasks, key=lambda it: -order[it]), [], set(), 0.0
    while left or running:
        for key in [it for it in left if all(dep in done for dep in tasks[it][0])]:
            held = sum(tasks[it][2] for _, it in running)
            if len(running) < lanes and (memory is None or not running or held + tasks[key][2] <= memory):
                left.remove(key)
                running.append((now + tasks[key][1], key))
        now, key = min(running)
        running.remove((now, key))
        done.add(key)
    return now / 60


def predict():
    rows = [line.split("\t") for line in KEPT.read_text().splitlines()[1:]]
    measured = {name: (float(proof), float(mutants)) for name, proof, mutants in rows}
    tasks = tasks_of(measured, dependencies())
    print(f"{sum(it[1] for it in tasks.values()) / 60:.0f} processor minutes; the longest chain takes {max(behind(tasks, lambda it: it[1]).values()) / 60:.0f} minutes")
    print("| Processors | 12 GB | 16 GB | 24 GB | with RT_JOBS |\n|---|---|---|---|---|")
    for lanes in (2, 4):
        # (what the system holds itself is about 1 GB)
        cells = [f"{planned(tasks, lanes, 0.85 * (size - 1)):.0f}" for size in (12, 16, 24)]
        print(f"| {lanes} | {' | '.join(cells)} | {planned(tasks, lanes, None):.0f} |")
    return 0


if __name__ == "__main__":
    sys.exit(predict() if sys.argv[1:] == ["--predict"] else measure(sys.argv[1:]))
