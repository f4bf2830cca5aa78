"""Rows of kernels with results by C: the kernel, its inputs and the results, with tabs between, in the form of given_calls/data/kernels.tsv."""
import pathlib
import subprocess
import sys
import tempfile

from blocks import BITS, Graph
from walking import escaped, number

# Signed results that are out of range wrap, as in a circuit.
FLAGS = (("-O0", "-fwrapv"), ("-O2", "-fwrapv"))
C_TYPES = {f"{sign}{bits}": f"{'u' * (sign == 'u')}int{bits}_t" for sign in "iu" for bits in (8, 16, 32, 64)}
SECONDS = 20


class Failed(Exception):
    """Why there is no row, in a line."""


def literal(value, ty):
    return f"(-{-value - 1}ll - 1)" if value < 0 else f"{value}{'ull' if ty[0] == 'u' else 'll'}"


def wrapped(value, ty):
    """The number of a type that a number is, modulo what the type holds."""
    return number(value & ((1 << BITS[ty]) - 1), ty)


def main_text(text, graph, given):
    """A C program that calls the kernel on inputs, and prints its arrays and its result."""
    form = lambda ty: ("%llu", "unsigned long long") if ty[0] == "u" else ("%lld", "long long")
    lines = ["#include <stdint.h>", "#include <stdio.h>", text, "int main(void) {"]
    for name, ty in graph.scalars:
        lines.append(f"  {C_TYPES[ty]} in_{name} = {literal(given[name][0], ty)};")
    for name, ty, length in graph.arrays:
        lines.append(f"  static {C_TYPES[ty]} in_{name}[{length}] = {{{', '.join(literal(value, ty) for value in given[name])}}};")
    call = f"{graph.name}({', '.join(f'(void *)in_{word}' if word in arrays_of(graph) else f'in_{word}' for word in order_of(text, graph))})"
    lines.append(f"  {C_TYPES[graph.result]} result = {call};" if graph.result else f"  {call};")
    for name, ty, length in graph.arrays:
        lines.append(f'  printf("{name} ="); for (int at = 0; at < {length}; at++) printf(" {form(ty)[0]}", ({form(ty)[1]})in_{name}[at]); printf("\\n");')
    if graph.result:
        lines.append(f'  printf("return = {form(graph.result)[0]}\\n", ({form(graph.result)[1]})result);')
    return "\n".join([*lines, "  return 0;", "}", ""])


def arrays_of(graph):
    return {name for name, _, _ in graph.arrays}


def order_of(text, graph):
    """The names of the kernel's parameters in their order."""
    head = text.rpartition(f" {graph.name}(")[2].partition(")")[0]
    names = {name for name, _ in graph.scalars} | arrays_of(graph)
    return [word for part in head.split(",") for word in part.replace("[", " ").split() if word in names][:len(names)]


def results(text, graph, given):
    """What the kernel gives by each way of compiling it; they must agree."""
    found = set()
    with tempfile.TemporaryDirectory() as folder:
        main, out = pathlib.Path(folder, "main.c"), pathlib.Path(folder, "out")
        main.write_text(main_text(text, graph, given))
        for flags in FLAGS:
            made = subprocess.run(["gcc", "-std=gnu99", "-w", *flags, "-o", out, main], capture_output=True, text=True, check=False)
            if made.returncode:
                raise Failed(made.stderr)
            found.add(subprocess.run([out], capture_output=True, text=True, check=True, timeout=SECONDS).stdout)
    if len(found) != 1:
        raise Failed(f"C gives different results of {text}")
    return found.pop()


def row(text, **given):
    """The row of a kernel on inputs: numbers, lists of them, or nothing for an array of zeros."""
    text = " ".join(text.split())
    graph = Graph.of_kernel(text)
    for name, ty in graph.scalars:
        given[name] = [wrapped(given[name], ty)]
    for name, ty, length in graph.arrays:
        given[name] = [wrapped(value, ty) for value in given.get(name, [0] * length)]
        if len(given[name]) != length:
            raise Failed(f"{len(given[name])} elements of {name} in {text}")
    inputs = "".join(f"{name} = {' '.join(map(str, given[name]))}\n" for name, *_ in [*graph.scalars, *graph.arrays])
    return f"{escaped(text)}\t{escaped(inputs)}\t{escaped(results(text, graph, given))}"


HEAD = "# a kernel text, the text of its inputs, and its results by C, with wrapping where it has none without; \\n \\t \\r \\\\ \\xHH are bytes"


def write(name, rows):
    """Writes a file of rows of given_calls."""
    sys.setrecursionlimit(100_000)
    rows = list(rows)
    path = pathlib.Path(__file__).resolve().parent.parent.parent / "crates" / "given_calls" / "data" / name
    path.write_text("\n".join([HEAD, *rows, ""]))
    print(f"{path.name}: {len(rows)} rows, {path.stat().st_size:,} bytes")
