#!/usr/bin/env python3
"""The program elastic with circuits that are made beside it: for tools that take a program, as tools/house/clients.py.

usage: tools/oracles/beside.py WORD..      the words of a call of elastic

`compile` prints the circuit of a kernel by the passes of this folder, and `go` that circuit and what `elastic run` gives of it. All else is
the program's, and so is each refusal. The program is the one that the variable ELASTIC of the environment names, else .try/elastic."""
import os
import pathlib
import subprocess
import sys
import tempfile

from answers import BETWEEN, Call, Passes
import optimized_graph

PROGRAM = os.environ.get("ELASTIC", str(pathlib.Path(__file__).resolve().parent.parent.parent / ".try" / "elastic"))
OF_RUN = ("--count", "--cycles", "--limit", "--workers")


def called(words):
    """Ends as the program ends on words."""
    sys.exit(subprocess.run([PROGRAM, *words], check=False).returncode)


def is_refused(words):
    """Whether the program refuses to compile."""
    return subprocess.run([PROGRAM, *words], capture_output=True, check=False).returncode != 0


def run_words(call):
    """The options of a run among those of a call of `go`."""
    found = []
    for name in OF_RUN:
        value = call.options.get(name)
        found += [] if value is None else [name] if value is True else [name, value]
    return found


def main(words):
    call = Call(words, [])
    if call.words[:1] not in (["compile"], ["go"]) or is_refused(words):
        called(words)
    sys.setrecursionlimit(100_000)
    call.files = {call.words[1]: pathlib.Path(call.words[1]).read_text(encoding="latin-1")}
    net = call.netlist(Passes(optimized_graph.ORDER, optimized_graph.DIVIDES))
    if call.words[0] == "compile":
        print(net, end="")
        return
    with tempfile.NamedTemporaryFile("w", suffix=".net", encoding="latin-1") as file:
        file.write(net)
        file.flush()
        ran = subprocess.run([PROGRAM, "run", file.name, call.words[2], *run_words(call)], capture_output=True, text=True, check=False)
    sys.stderr.write(ran.stderr)
    print(net + BETWEEN + ran.stdout if ran.returncode == 0 else "", end="")
    sys.exit(ran.returncode)


if __name__ == "__main__":
    main(sys.argv[1:])
