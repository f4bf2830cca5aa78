#!/usr/bin/env python3
"""Counts the instructions of some calls by `valgrind --tool=callgrind`, which counts alike on every machine, and how often one of
them writes, and compares them with the tables of docs/TIMES.md under the heading "Instructions". A call that takes more than a
tenth more than the table says is an alarm, and then this fails. A body that only costs time breaks no clause and changes no row:
this is what notices it. Writes are counted beside the instructions, since most of what they cost is spent in the system.

usage: tools/measure/instructions.py [BENCHES PROGRAM]   (those of tools/measure/benches.py and of tools/use/program.py, where none
                                                          are named)"""
import pathlib
import re
import shutil
import subprocess
import sys
import tempfile

import benches
from nets import histogram_inputs, with_idle_loops

TOP = pathlib.Path(__file__).resolve().parents[2]
sys.path.insert(0, str(TOP / "tools/use"))
import program  # noqa: E402  (its folder was just named)

HEADING = "## Instructions"
ELEMENTS = 65_536
IDLE_LOOPS = 10_000
PRINTING = f"printing {ELEMENTS:,} elements"


def slow(net):
    """The netlist with a delay of 100 wherever it has one."""
    return re.sub(r"^(chan \S+ \S+ \d+ \d+) [1-9]\d*", r"\1 100", net, flags=re.MULTILINE)


def calls(folder, made, elastic):
    """What each call of the programs benches and elastic tries, and its words."""
    histogram, loop = (pathlib.Path(TOP, "examples", name, "net.txt").read_text() for name in ("histogram", "countdown"))
    files = {
        "copy.c": f"void f(int32_t a[{ELEMENTS}]) {{ }}\n",
        "elements": f"a = {' '.join('0' * ELEMENTS)}\n",
        "idle.net": with_idle_loops(histogram, IDLE_LOOPS),
        "idle": histogram_inputs(histogram, 256),
        "count": "n = 20000\n",
        "slow.net": slow(loop),
        "slow": "n = 6000\n",
        "histogram": histogram_inputs(histogram, 4096),
    }
    for name, text in files.items():
        pathlib.Path(folder, name).write_text(text)
    net, countdown = (str(pathlib.Path(TOP, "examples", name, "net.txt")) for name in ("histogram", "countdown"))
    return {
        PRINTING: [elastic, "ref", "copy.c", "elements"],
        "placing buffers on some 20,000 channels": [made, "place", "20000"],
        f"a histogram among {IDLE_LOOPS:,} idle loops, by cycles": [made, "cycles", "idle.net", "idle"],
        "a countdown from 20,000, by cycles": [made, "cycles", countdown, "count"],
        "a countdown from 6,000 with delays of 100, by cycles": [made, "cycles", "slow.net", "slow"],
        "a histogram by the plain runner": [made, "core", net, "histogram", "28672", "1"],
    }


def instructions(words, folder):
    """How many instructions the call takes."""
    ran = subprocess.run(["valgrind", "--tool=callgrind", "--callgrind-out-file=/dev/null", *words], cwd=folder, capture_output=True, text=True)
    counted = re.search(r"Collected : (\d+)", ran.stderr)
    if ran.returncode or not counted:
        sys.exit(f"{' '.join(map(str, words))} ended with {ran.returncode}:\n{ran.stderr}")
    return int(counted.group(1))


def writes(words, folder):
    """How often the call writes to its output."""
    ran = subprocess.run(["valgrind", "--tool=none", "--trace-syscalls=yes", *words], cwd=folder, stdout=subprocess.DEVNULL, stderr=subprocess.PIPE, text=True)
    if ran.returncode:
        sys.exit(f"{' '.join(map(str, words))} ended with {ran.returncode}")
    return ran.stderr.count("sys_write ( 1,")


def told():
    """The numbers of docs/TIMES.md, by call, of proved programs and of those before their proofs."""
    section = pathlib.Path(TOP, "docs/TIMES.md").read_text().partition(HEADING + "\n")[2].partition("\n## ")[0]
    rows = re.findall(r"^\| (.+?) \| ([\d,]+) \| ([\d,]+) \|$", section, re.MULTILINE)
    return {call: [int(count.replace(",", "")) for count in counts] for call, *counts in rows}


def is_unproved(made):
    """Whether a program was made before its proofs."""
    return made.parent == program.TRY and not made.name.endswith("_proved")


def tell(made, elastic):
    """Prints the table, and answers whether a call takes too much more than the document says."""
    if not shutil.which("valgrind"):
        print("instructions are counted by valgrind, which is not here")
        return False
    before, alarms = told(), []
    with tempfile.TemporaryDirectory() as folder:
        tried = calls(folder, made, elastic)
        counts = [(call, instructions, words) for call, words in tried.items()]
        counts.append((f"{PRINTING}, writes", writes, tried[PRINTING]))
        print("| Call | Instructions |\n|---|---|")
        for call, counting, words in counts:
            count = counting(words, folder)
            print(f"| {call} | {count:,} |", flush=True)
            if 10 * count > 11 * before.get(call, [0, 0])[is_unproved(words[0])]:
                alarms.append(call)
    if alarms:
        print(f"more than a tenth more than docs/TIMES.md says: {'; '.join(alarms)}", file=sys.stderr)
    return bool(alarms)


def main():
    if len(sys.argv) not in (1, 3):
        sys.exit(__doc__)
    return tell(*[pathlib.Path(word).resolve() for word in sys.argv[1:]] or (benches.benches(), program.chosen()))


if __name__ == "__main__":
    program.ended(main)
