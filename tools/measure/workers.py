#!/usr/bin/env python3
"""Times runs by cycles, by the plain runner and by workers: nets of 100 and of 1,000 recurrences of 100 operations each in one loop
(the second also with all forks beside the loop), chains of 10,000 and of 10^6 operations behind a loop, a kernel of 20 recurrences, 20 loops in a row, a histogram, `examples/matrix`, a
loop over an array of 2^20 elements, and a net of 983,044 units. It tells how many channels go between two and between four workers, which
share of the firings put a token on such a channel or took one from it, the seconds of a run by cycles, and how many times as long each other way takes, the least of some runs each; and the most memory of
each. Then it counts, where valgrind is there, what sweeping and gathering cost. A run by the plain runner is `resume` of the state
before the first firing.

usage: tools/measure/workers.py [PROGRAM]"""
import pathlib
import re
import shutil
import subprocess
import sys
import tempfile
import time

import load
import nets

TOP = pathlib.Path(__file__).resolve().parents[2]
RECURRENCES, TURNS, ELEMENTS, OUTPUTS, EACH = 20, 16_000, 1 << 20, 65_536, 14
LIMIT = "16000000"
HISTOGRAM = "void hist(int32_t n, int32_t x[1024], int32_t h[64]) { for (int32_t i = 0; i < n; i++) h[x[i]] += 1; }\n"


def recurrences():
    """A kernel of one loop in which so many values each depend on themselves alone."""
    first = " ".join(f"uint32_t x{k} = {k + 1};" for k in range(RECURRENCES))
    turn = " ".join(f"x{k} = x{k} * {2 * k + 3} + 1;" for k in range(RECURRENCES))
    total = " ^ ".join(f"x{k}" for k in range(RECURRENCES))
    return f"#include <stdint.h>\nuint32_t f(uint32_t n) {{ {first}\n for (uint32_t i = 0; i < n; i++) {{ {turn} }}\n return {total}; }}\n"


def loops():
    """A kernel of 20 loops, one after another."""
    rows = "\n".join(f" for (uint32_t i{k} = 0; i{k} < n; i{k}++) s{k} = s{k} * {2 * k + 3} + i{k};" for k in range(20))
    first = " ".join(f"uint32_t s{k} = {k};" for k in range(20))
    total = " ^ ".join(f"s{k}" for k in range(20))
    return f"#include <stdint.h>\nuint32_t f(uint32_t n) {{ {first}\n{rows}\n return {total}; }}\n"


def compiled(elastic, folder, name, kernel):
    (folder / f"{name}.c").write_text(kernel)
    text = subprocess.run([elastic, "compile", f"{name}.c"], cwd=folder, capture_output=True, check=True).stdout
    (folder / f"{name}.net").write_bytes(text)


def measured(elastic, words, folder):
    """The output of a call, its seconds and its most memory in MB. (Of a child the system counts the memory of who started it
    too, and that is little of /usr/bin/time and much of this script.)"""
    began = time.time()
    with open(folder / "out", "wb") as out:
        timed = ["/usr/bin/time", "-f", "%M", "-o", "memory", elastic, *words]
        ran = subprocess.run(timed, cwd=folder, stdout=out, stderr=subprocess.PIPE, check=False)
    seconds = time.time() - began
    if ran.returncode:
        sys.exit(f"{' '.join(words)}: status {ran.returncode}: {ran.stderr.decode().strip()}")
    return (folder / "out").read_bytes(), seconds, int((folder / "memory").read_text()) / 1024


def plain(elastic, folder, net, inputs, name):
    """The words of a run by the plain runner."""
    state, _, _ = measured(elastic, ["save", net, inputs], folder)
    (folder / f"{name}.state").write_bytes(state)
    return ["resume", net, f"{name}.state"]


def put_row(elastic, folder, name, what, numbers, runs):
    """A line of the table: the shortest time of some runs, and the most memory, by each way and by each number of workers."""
    net, inputs = f"{name}.net", f"{name}.in"
    ways = [["run", net, inputs], plain(elastic, folder, net, inputs, name)]
    ways += [["run", net, inputs, "--workers", str(number)] for number in numbers]
    wanted, cells, by_cycles = None, [], None
    for words in ways:
        ran = [measured(elastic, [*words, "--count", "--limit", LIMIT], folder) for _ in range(runs)]
        wanted = wanted or ran[0][0]
        if any(out != wanted for out, _, _ in ran):
            sys.exit(f"{name}: {' '.join(words)} prints something else")
        seconds, memory = min(seconds for _, seconds, _ in ran), max(memory for _, _, memory in ran)
        cells.append(f"{seconds / by_cycles:.2f}, {memory:,.0f} MB" if by_cycles else f"{seconds:.2f} s, {memory:,.0f} MB")
        by_cycles = by_cycles or seconds
    firings = int(re.search(rb"# firings (\d+)", wanted).group(1))
    text = (folder / net).read_text()
    between = ", ".join(f"{nets.crossing_channels(text, number):,}" for number in (2, 4))
    between += f" | {shares(elastic, folder, net, inputs, text)}"
    cells += ["not tried"] * (6 - len(cells))
    print(f"| {what} | {firings:,} | {between} | {' | '.join(cells)} |", flush=True)


def shares(elastic, folder, net, inputs, text):
    """The shares of the firings that put on or took from channels between two and between four workers."""
    output, _, _ = measured(elastic, ["run", net, inputs, "--log", "--limit", LIMIT], folder)
    schedule = output.decode().partition("%%\n")[2]
    return ", ".join(f"{nets.crossing_firings(text, schedule, number):.2f}" for number in (2, 4))


def counted(elastic, folder, words, *flags):
    """How many instructions a call takes, or what the flags leave of it; None where that is nothing."""
    ran = subprocess.run(["valgrind", "--tool=callgrind", "--callgrind-out-file=/dev/null", *flags, elastic, *words], cwd=folder, capture_output=True, text=True)
    found = re.search(r"Collected : (\d+)", ran.stderr)
    return int(found.group(1)) if found and ran.returncode == 0 else None


def put_counts(elastic, folder):
    """What a run by one worker takes, and the part of it in which its log is gathered."""
    if not shutil.which("valgrind"):
        print("instructions are counted by valgrind, which is not here")
        return
    (folder / "count.in").write_text("n = 20000\n")
    net = str(TOP / "examples/countdown/net.txt")
    words = ["run", net, "count.in"]
    ways = {"by cycles": words, "by the plain runner": plain(elastic, folder, net, "count.in", "count"), "by one worker": [*words, "--workers", "1"]}
    print("\n| A countdown from 20,000, 260,013 firings | Instructions |\n|---|---|")
    counts = {what: counted(elastic, folder, way) for what, way in ways.items()}
    for what, count in counts.items():
        print(f"| {what} | {count:,} |")
    sweeps = counted(elastic, folder, ways["by one worker"], "--toggle-collect=*thread::fork::chunks_from*")
    if sweeps:
        print(f"| its sweeps | {sweeps:,} |\n| all else, above all gathering its log | {counts['by one worker'] - sweeps:,} |")
    else:
        print("| its sweeps | have no name in the program |")


def tell(elastic):
    """Prints the tables."""
    with tempfile.TemporaryDirectory() as name:
        folder = pathlib.Path(name)
        for name, text, inputs in (("rec100", nets.recurrences(100, 100), "n = 1400\nc = 7\n"), ("rec1000", nets.recurrences(1_000, 100), "n = 140\nc = 7\n"),
                                   ("apart", nets.recurrences(1_000, 100, apart=True), "n = 140\nc = 7\n"), ("chain", nets.pipeline(10_000), "n = 1500\n"), ("long", nets.pipeline(1_000_000), "n = 2\n")):
            (folder / f"{name}.net").write_text(text)
            (folder / f"{name}.in").write_text(inputs)
        compiled(elastic, folder, "loops", loops())
        (folder / "loops.in").write_text(f"n = {TURNS // 20}\n")
        compiled(elastic, folder, "hist", HISTOGRAM)
        (folder / "hist.in").write_text(nets.histogram_inputs((folder / "hist.net").read_text(), 1_024))
        compiled(elastic, folder, "twenty", recurrences())
        (folder / "twenty.in").write_text(f"n = {TURNS}\n")
        compiled(elastic, folder, "matrix", (TOP / "examples/matrix/kernel.c").read_text())
        shutil.copy(TOP / "examples/matrix/inputs.txt", folder / "matrix.in")
        compiled(elastic, folder, "array", f"void f(int32_t n, uint8_t a[{ELEMENTS}]) {{ for (int32_t i = 0; i < n; i++) a[i] = a[i] + 1; }}\n")
        (folder / "array.in").write_text(f"n = 1000\na = {' '.join('1' * ELEMENTS)}\n")
        (folder / "wide.net").write_text(load.wide_net(OUTPUTS, EACH, load.NETLIST))
        (folder / "wide.in").write_text("a = 5\n")
        print("| Net | Firings | Channels between 2, 4 | Share of firings | By cycles | Plain runner | 1 worker | 2 | 4 | 64 |\n|---|---|---|---|---|---|---|---|---|---|")
        put_row(elastic, folder, "rec100", "100 recurrences of 100 operations", (1, 2, 4, 64), 5)
        put_row(elastic, folder, "rec1000", "1,000 recurrences of 100 operations", (1, 2, 4, 64), 5)
        put_row(elastic, folder, "apart", "the same, all forks beside the loop", (1, 2, 4, 64), 5)
        put_row(elastic, folder, "chain", "a chain of 10,000 operations", (1, 2, 4, 64), 5)
        put_row(elastic, folder, "loops", f"20 loops of {TURNS // 20:,} turns in a row", (1, 2, 4, 64), 5)
        put_row(elastic, folder, "hist", "a histogram of 1,024 turns", (1, 2, 4, 64), 5)
        put_row(elastic, folder, "twenty", f"{RECURRENCES} recurrences in a loop of {TURNS:,} turns", (1, 2, 4, 64), 3)
        put_row(elastic, folder, "matrix", "`examples/matrix`", (1, 2, 4, 64), 5)
        put_row(elastic, folder, "array", "1,000 turns of a loop over 2^20 elements", (1, 2, 4, 64), 3)
        put_row(elastic, folder, "wide", f"{4 + OUTPUTS * (EACH + 1):,} units, a fork of {OUTPUTS:,} outputs among them", (1, 2, 4, 64), 1)
        put_row(elastic, folder, "long", "a chain of 10^6 operations", (1, 2, 4, 64), 1)
        put_counts(elastic, folder)


if __name__ == "__main__":
    tell(load.PROGRAM)
