#!/usr/bin/env python3
"""Makes each allocation of the calls of tools/measure/failing/calls.tsv fail in turn, in the proved program (make build leaves it),
and counts how the runs end: with status 11, its line and nothing on the output, with the whole answer of the table, or
otherwise, which is a fault.

usage: tools/measure/fail_alloc.py [PROGRAM]

Needs cc and a Linux loader. Where a call has threads, which allocation is the n-th may differ from run to run."""
import os
import pathlib
import subprocess
import sys
import tempfile

TOP = pathlib.Path(__file__).resolve().parents[2]
PROGRAM = pathlib.Path(sys.argv[1] if len(sys.argv) > 1 else TOP / "crates/elastic/out/elastic").resolve()


def plain(text):
    return text.replace("\\n", "\n")


def run(words, folder, shim, **told):
    return subprocess.run([PROGRAM, *words], cwd=folder, env={**os.environ, "LD_PRELOAD": shim, **told}, capture_output=True, text=True)


def is_whole(end, want):
    status, output, errors = want
    text = end.stdout
    if output.startswith("%%\n"):
        text = text[text.find("\n%%\n") + 1:]
    return (str(end.returncode), text) == (status, output) and end.stderr.startswith(errors)


def tried(words, files, want, folder, shim):
    """How many allocations the call makes, and how its runs end where each fails: by memory, whole, otherwise."""
    for file in files:
        name, _, text = file.partition(":")
        (folder / name).write_text(plain(text))
    first = run(words, folder, shim, COUNT_ALLOC="1")
    counted = first.stderr.rpartition("allocations ")[2]
    if not is_whole(first, want) or not counted.strip().isdigit():
        sys.exit(f"{' '.join(words)}: status {first.returncode}, {first.stdout!r}, {first.stderr!r}: not the answer of the table")
    ends = {"memory": 0, "whole": 0, "other": 0}
    for number in range(1, int(counted) + 1):
        end = run(words, folder, shim, FAIL_ALLOC=str(number))
        is_memory = (end.returncode, end.stdout, end.stderr) == (11, "", "elastic: want of memory\n")
        how = "memory" if is_memory else "whole" if is_whole(end, want) else "other"
        ends[how] += 1
        if how == "other":
            print(f"{' '.join(words)}: allocation {number}: status {end.returncode}, {end.stderr!r}")
    return int(counted), ends


def main():
    others = 0
    with tempfile.TemporaryDirectory() as name:
        folder = pathlib.Path(name)
        shim = folder / "shim.so"
        subprocess.run(["cc", "-shared", "-fPIC", "-o", shim, TOP / "tools/measure/failing/shim.c", "-ldl"], check=True)
        for line in (TOP / "tools/measure/failing/calls.tsv").read_text().splitlines()[1:]:
            call, _, answer = line.partition("\t=>\t")
            words, *files = call.split("\t")
            want = [plain(it) for it in answer.split("\t")]
            count, ends = tried(words.split(), files, want, folder, str(shim))
            others += ends["other"]
            print(f"{words}: {count} allocations: {ends['memory']} with status 11 and nothing written, {ends['whole']} with the whole answer, {ends['other']} otherwise")
    sys.exit(1 if others else 0)


main()
