#!/usr/bin/env python3
"""Times parts of the compiler and of runs, by the program benches (tools/measure/benches.py) and the program elastic.

usage: tools/measure/bench.py [BENCH..] [--benches PROGRAM] [--elastic PROGRAM] [--before PROGRAM] [--acts N] [--size N]
                              [--blocks N] [--variables N] [--rounds N] [--firings N] [--turns N]

Every bench is run where none is named; `--list` prints what each does. The programs are those of tools/measure/benches.py and of
tools/use/program.py where none are named. Where GNU time is there it prints the most memory and the user time of a process too. On
a machine with other work times are longer."""
import argparse
import os
import pathlib
import shutil
import subprocess
import sys
import tempfile
import time

import benches
import firings
import instructions
import nets
import workers

TOP = pathlib.Path(__file__).resolve().parents[2]
sys.path[:0] = [str(TOP / folder) for folder in ("tools/use", "tools/oracles")]
import program  # noqa: E402  (their folders were just named)
import queue_nets  # noqa: E402

TEXT, NODES = 65_536, 1_024
TIME = "/usr/bin/time"


class Bench:
    """The programs and the sizes of a bench, and a folder for its files."""

    def __init__(self, words, folder):
        self.words, self.folder = words, folder

    def file(self, name, text):
        """A file with this text."""
        path = self.folder / name
        path.write_text(text)
        return path

    def benches(self, *words, made=None):
        """What the program benches prints."""
        return written(made or self.words.benches, *words)


def written(*words):
    return subprocess.run([*map(str, words)], check=True, stdout=subprocess.PIPE, text=True).stdout


def tell(text):
    print(text, end="", flush=True)


def timed(*words):
    """Runs a program, whose memory and user time are told where GNU time is there."""
    before = [TIME, "-f", "%M KiB, %U s of user time"] if os.access(TIME, os.X_OK) else []
    subprocess.run([*before, *map(str, words)], check=True)


# ---- kernels and nets

def numbered(count, form):
    return "".join(form.format(i=i) for i in range(count))


def sum_kernel():
    """510 operands and 509 operators."""
    rest = "".join(f" {'*' if i % 3 == 0 else '+'} {'b' if i % 2 else i}" for i in range(1, 510))
    return f"int32_t f(int32_t a, int32_t b) {{ return a{rest}; }}\n"


def loops_kernel():
    """Loops, one after another."""
    loops = numbered(78, "for (int32_t i{i} = 0; i{i} < n; i{i}++) a[i{i}] += b[i{i}];\n")
    return f"void f(int32_t n, int32_t a[64], int32_t b[64]) {{\n{loops}}}\n"


def accesses_kernel():
    """Accesses in one block."""
    return f"void f(int32_t n, int32_t a[64], int32_t b[64]) {{\n{numbered(78, 'a[n + {i}] = a[n] + b[a[{i}]] + {i};' + chr(10))}}}\n"


def choices_kernel():
    """Choices in a loop over 24 variables, which are all live in each block: the greatest circuit of the four."""
    choices = "".join(f"if (v{i % 24} < n) v{(i + 1) % 24} = v{i * 7 % 24} + i;\n" for i in range(106))
    return f"int32_t f(int32_t n) {{\n{numbered(24, 'int32_t v{i} = {i};' + chr(10))}for (int32_t i = 0; i < n; i++) {{\n{choices}}} return v0; }}\n"


def histogram_net():
    return (TOP / "examples/histogram/net.txt").read_text()


# ---- the benches

def time_compile(bench):
    """compiling kernels of about 1,024 nodes of four shapes, the least of 10 times, with `cc -O0 -c` on the first of them; then nodes, turns, units, channels, firings and cycles of four examples"""
    kernels = {"sum": sum_kernel(), "loops": loops_kernel(), "accesses": accesses_kernel(), "choices": choices_kernel()}
    for name, kernel in kernels.items():
        tell(f"{name}: {bench.benches('compile', bench.file(name, kernel), 10)}")
    if shutil.which("cc") and os.access(TIME, os.X_OK):
        source = bench.file("sum.c", f"#include <stdint.h>\n{kernels['sum']}")
        subprocess.run([TIME, "-f", "cc -O0 -c, the sum: %e s", "cc", "-O0", "-c", source, "-o", bench.folder / "sum.o"], check=True)
    print("kernel: nodes, turns, units, channels, firings, cycles, firings for each node and turn")
    for name in ("fir", "matrix", "crc", "sort"):
        tell(f"{name}: {example_row(bench, TOP / 'examples' / name)}\n")


def example_row(bench, folder):
    """The numbers of an example."""
    files = [folder / "kernel.c", folder / "inputs.txt"]
    nodes = int(bench.benches("compile", files[0], 1).split(" nodes, ")[0])
    lines = written(bench.words.elastic, "go", *files, "--count", "--cycles").splitlines()
    told = {line.split()[1]: int(line.split()[2]) for line in lines if line.startswith("# ")}
    units, channels = (sum(line.startswith(word) for line in lines) for word in ("unit ", "chan "))
    turns = next(int(line.split()[2]) for line in written(bench.words.elastic, "ref", *files, "--count").splitlines() if line.startswith("# turns "))
    each = told["firings"] / (nodes * (turns + 1))
    return f"{nodes}, {turns}, {units}, {channels}, {told['firings']}, {told['cycles']}, {each:.2f}"


def time_front(bench):
    """lexing, and lexing with parsing, texts of 65,536 bytes: milliseconds, the least of 40 runs; the program --before beside it"""
    shapes = {"semicolons": ("void f(void) {", ";", "}"), "blanks": ("void f(void) {", " ", "}"), "names": ("", "ab ", ""),
              "numbers": ("", "12 ", ""), "operators": ("", "+ - * < ", ""), "a sum": ("int f(int ab) { return ", "ab+12*ab-", "ab; }"),
              "groups": ("int f(int a) { return ", f"{'(' * 60}a{')' * 60}+", "a; }")}
    for name, (opening, piece, closing) in shapes.items():
        text = bench.file("text", opening + piece * ((TEXT - len(opening) - len(closing)) // len(piece)) + closing)
        for made in filter(None, (bench.words.benches, bench.words.before)):
            tell(f"{name:<10} {made}: {bench.benches('front', text, 40, made=made)}")


def time_queue(bench):
    """acts on queues of depths 16, 128 and 1,024 (--acts)"""
    tell(bench.benches("queue", bench.words.acts))


def time_place(bench):
    """buffer placement on nets of channels (--size)"""
    tell(bench.benches("place", bench.words.size))


def time_inputs(bench):
    """reading the inputs of an array of 2^20 elements and printing them, the least of 10 runs; beside it `wc -w` on the same file"""
    elements = 1 << 20
    row = " ".join(str((at * 1103515245 + 12345) % (1 << 32) - (1 << 31)) for at in range(elements))
    file = bench.file("inputs", f"a = {row}\n")
    size = file.stat().st_size
    tell(f"inputs of 2^20 elements, {size} bytes: {bench.benches('inputs', file, elements, 10)}")
    best = float("inf")
    for _ in range(10):
        began = time.perf_counter()
        written("wc", "-w", file)
        best = min(best, time.perf_counter() - began)
    print(f"wc -w, the same file: {best * 1000:.3f} ms, {size / best / 1e6:.0f} MB/s")


def time_args(bench):
    """live variables and block arguments (--blocks, --variables)"""
    tell(bench.benches("args", bench.words.blocks, bench.words.variables))


def time_merge(bench):
    """merging blocks in a row (--blocks)"""
    tell(bench.benches("merge", bench.words.blocks))


def time_passes(bench):
    """folding, selecting and copying blocks, and a block of 14,336 steps (--blocks)"""
    tell(bench.benches("passes", bench.words.blocks))


def time_build(bench):
    """circuits of block graphs (--size, of 27,000 at least)"""
    tell(bench.benches("build", bench.words.size))


def time_ref(bench):
    """the plain interpreter on a loop of three statements (--rounds); beside it the same kernel by `cc -O0`"""
    kernel = """uint32_t f(uint32_t n, uint32_t a[64]) {
  uint32_t s = 0;
  for (uint32_t i = 0; i < n; i++) {
    s = s * 5 + i;
    a[i & 63] += s;
    s ^= a[s & 63];
  }
  return s;
}
"""
    rounds = bench.words.rounds
    inputs = bench.file("inputs", f"n = {rounds}\na = {' '.join('0' * 64)}\n")
    timed(bench.words.benches, "ref", bench.file("kernel", kernel), inputs, 400_000_000)
    if shutil.which("cc"):
        call = f'int main(void) {{ static uint32_t a[64]; printf("result %lu\\n", (unsigned long)f({rounds}, a)); return 0; }}\n'
        source = bench.file("main.c", f"#include <stdint.h>\n#include <stdio.h>\n{kernel}{call}")
        subprocess.run(["cc", "-O0", "-o", bench.folder / "native", source], check=True)
        print("cc -O0, the same kernel:", flush=True)
        timed(bench.folder / "native")


def time_core(bench):
    """the plain runner on the histogram's net (--firings), beside plain sweeps over the units; alone, and among 1,000 and 10,000 idle loops"""
    inputs = bench.file("inputs", nets.histogram_inputs(histogram_net(), 1_000_000))
    for loops in (0, 1_000, 10_000):
        print(f"{loops} idle loops:", flush=True)
        swept = 20_000 if loops else bench.words.firings
        timed(bench.words.benches, "core", bench.file("net", nets.with_idle_loops(histogram_net(), loops)), inputs, bench.words.firings, swept)


def time_cycles(bench):
    """runs by cycles beside the plain runner: a countdown of 13 units (--turns); the histogram's net, alone and among 1,000, 10,000 and 500,000 idle loops; forks of 16,384 and 65,536 outputs; queues of 25,000 and 100,000 ports"""
    def run(what, net, inputs):
        print(f"{what}:", flush=True)
        timed(bench.words.benches, "cycles", bench.file("net", net), bench.file("inputs", inputs))
    run("a countdown of 13 units", (TOP / "examples/countdown/net.txt").read_text(), f"n = {bench.words.turns}\n")
    for loops in (0, 1_000, 10_000, 500_000):
        run(f"a histogram among {loops} idle loops", nets.with_idle_loops(histogram_net(), loops), nets.histogram_inputs(histogram_net(), 32_768))
    for outs in (16_384, 65_536):
        run(f"a fork of {outs} outputs", nets.wide_fork(outs), "n = 5\n")
    for ports in (25_000, 100_000):
        run(f"a queue of {ports} ports", "\n".join([*queue_nets.of_ports(ports, 16), ""]), "\n".join([*queue_nets.inputs(1), ""]))


def time_workers(bench):
    """runs by one, two, four and 64 workers beside runs by cycles, with the most memory of each (tools/measure/workers.py)"""
    workers.tell(bench.words.elastic)


def time_firings(bench):
    """a firing by cycles on five nets, in instructions where valgrind is there, and in nanoseconds (tools/measure/firings.py)"""
    firings.tell(bench.words.benches, bench.words.elastic)


def time_instructions(bench):
    """instructions of some calls, where valgrind is there, compared with docs/TIMES.md (tools/measure/instructions.py)"""
    if instructions.tell(bench.words.benches, bench.words.elastic):
        sys.exit(1)


ALL = {run.__name__.removeprefix("time_"): run for run in (
    time_compile, time_front, time_queue, time_place, time_inputs, time_args, time_merge, time_passes, time_build, time_ref, time_core, time_cycles,
    time_firings, time_workers, time_instructions)}


def arguments():
    words = argparse.ArgumentParser(description=__doc__, formatter_class=argparse.RawDescriptionHelpFormatter)
    words.add_argument("names", metavar="BENCH", nargs="*", help=f"of {', '.join(ALL)}")
    words.add_argument("--list", action="store_true", help="prints what each bench does")
    for name in ("benches", "elastic", "before"):
        words.add_argument(f"--{name}", metavar="PROGRAM")
    for name, size in (("acts", 1_000_000), ("size", 1_000_000), ("blocks", 32_768), ("variables", 1_000), ("rounds", 20_000_000),
                       ("firings", 20_000_000), ("turns", 300_000)):
        words.add_argument(f"--{name}", metavar="N", type=int, default=size, help=f"{size:,} where it is not given")
    given = words.parse_args()
    unknown = {*given.names} - {*ALL}
    if unknown:
        words.error(f"no bench: {', '.join(sorted(unknown))}; benches are {', '.join(ALL)}")
    return given


def main():
    words = arguments()
    if words.list:
        for name, run in ALL.items():
            print(f"{name}: {run.__doc__}")
        return
    words.benches = words.benches and str(pathlib.Path(words.benches).resolve()) or benches.benches()
    words.elastic = words.elastic and str(pathlib.Path(words.elastic).resolve()) or program.chosen()
    for name in words.names or ALL:
        with tempfile.TemporaryDirectory() as folder:
            try:
                ALL[name](Bench(words, pathlib.Path(folder)))
            except subprocess.CalledProcessError as failed:
                sys.exit(f"bench.py: {name}: `{' '.join(map(str, failed.cmd))}` ended with status {failed.returncode}")


if __name__ == "__main__":
    program.ended(main)
