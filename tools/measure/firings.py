#!/usr/bin/env python3
"""Tells what a firing by cycles takes on some nets: instructions, where valgrind is there, and nanoseconds. Instructions are those
of `run_cycles` alone, its opening included, without reading and compiling; a run of `benches cycles` opens twice more, and these
are counted too. It prints the table of docs/TIMES.md, which has the same numbers on every machine, and the times beside.

usage: tools/measure/firings.py [BENCHES PROGRAM]   (those of tools/measure/benches.py and of tools/use/program.py, where none are named)"""
import pathlib
import re
import shutil
import subprocess
import sys
import tempfile

import benches
import workers

TOP = pathlib.Path(__file__).resolve().parents[2]
sys.path.insert(0, str(TOP / "tools/use"))
import program  # noqa: E402  (its folder was just named)

COUNTED = "--toggle-collect=cycle_engine::runs::run_cycles*"
ELEMENTS = 1_024


def histogram():
    """The kernel of examples/hist with arrays of 1,024 elements, and inputs of as many turns."""
    kernel = (TOP / "examples/hist/kernel.c").read_text().replace("[8]", f"[{ELEMENTS}]").replace("BINS 4", f"BINS {ELEMENTS}")
    rows = {"x": [(at * 37 + 11) % ELEMENTS for at in range(ELEMENTS)], "w": [at % 7 + 1 for at in range(ELEMENTS)], "h": [0] * ELEMENTS}
    return kernel, f"n = {ELEMENTS}\n" + "".join(f"{name} = {' '.join(map(str, row))}\n" for name, row in rows.items())


def example(name):
    """The kernel of an example, and its inputs."""
    folder = TOP / "examples" / name
    return (folder / "kernel.c").read_text(), (folder / "inputs.txt").read_text()


def uses(count):
    """A kernel in whose loop one value is used so many times in a row, so that the outputs of its fork come free one at a time."""
    return f"unsigned k(unsigned n, unsigned k) {{ unsigned t = 0; for (unsigned i = 0; i < n; i++) t = t{' + k' * count}; return t; }}\n", "n = 40\nk = 3\n"


def accesses(count):
    """A kernel with a block of so many accesses to elements whose addresses may be equal."""
    turn = " ".join(f"a[k + {at}] += k;" for at in range(count))
    kernel = f"void k(unsigned n, unsigned k, unsigned a[256]) {{ for (unsigned i = 0; i < n; i++) {{ {turn} }} }}\n"
    return kernel, f"n = 40\nk = 3\na = {' '.join('0' * 256)}\n"


def nets(folder, elastic):
    """What each net is, and its files."""
    kernels = {
        "`hist`, arrays of 1,024 elements, 1,024 turns": histogram(),
        "`examples/matrix`": example("matrix"),
        "`examples/crc`": example("crc"),
        "20 recurrences in one loop (`tools/measure/workers.py`), 500 turns": (workers.recurrences(), "n = 500\n"),
        "a value used 30 times in a loop": uses(30),
        "480 times": uses(480),
        "4 elements read and written in a block": accesses(4),
        "128 elements": accesses(128),
    }
    for number, (what, (kernel, inputs)) in enumerate(kernels.items()):
        (folder / f"{number}.c").write_text(kernel)
        (folder / f"{number}.in").write_text(inputs)
        net = subprocess.run([elastic, "compile", f"{number}.c"], cwd=folder, capture_output=True, check=True).stdout
        (folder / f"{number}.net").write_bytes(net)
        yield what, [f"{number}.net", f"{number}.in"]
    (folder / "countdown.in").write_text("n = 2000\n")
    yield "`examples/countdown`, 2,000 turns", [str(TOP / "examples/countdown/net.txt"), "countdown.in"]


def timed(made, files, folder):
    """How many firings the run by cycles has, and the nanoseconds of each."""
    told = subprocess.run([made, "cycles", *files], cwd=folder, capture_output=True, check=True, text=True).stdout
    found = re.search(r"^cycles: (\d+) firings, ([\d.]+) ns each", told, re.MULTILINE)
    return int(found[1]), float(found[2])


def counted(made, files, folder):
    """The instructions of the runs by cycles; None where they are not to be had."""
    if not shutil.which("valgrind"):
        return None
    words = ["valgrind", "--tool=callgrind", "--callgrind-out-file=/dev/null", COUNTED, made, "cycles", *files]
    told = subprocess.run(words, cwd=folder, capture_output=True, text=True)
    found = re.search(r"Collected : (\d+)", told.stderr)
    return int(found[1]) if found and told.returncode == 0 else None


def tell(made, elastic):
    """Prints the table."""
    print("| Net | Firings | Instructions | A firing | Nanoseconds |\n|---|---|---|---|---|")
    with tempfile.TemporaryDirectory() as name:
        folder = pathlib.Path(name)
        for what, files in nets(folder, elastic):
            firings, nanoseconds = timed(made, files, folder)
            count = counted(made, files, folder)
            cells = [f"{count:,}", f"{count / firings:.0f}"] if count else ["not counted", "not counted"]
            print(f"| {what} | {firings:,} | {' | '.join(cells)} | {nanoseconds:.0f} |", flush=True)


def main():
    if len(sys.argv) not in (1, 3):
        sys.exit(__doc__)
    tell(*[pathlib.Path(word).resolve() for word in sys.argv[1:]] or (benches.benches(), program.chosen()))


if __name__ == "__main__":
    program.ended(main)
