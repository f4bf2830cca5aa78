#!/usr/bin/env python3
"""Saves runs by the proved program (make build leaves it) and goes on from what was saved, and compares with the whole runs.

usage: tools/measure/saves.py [PROGRAM]

A run of a million firings, of the histogram's netlist in examples/, is saved at each tenth and resumed: status and bytes are
those of `run`. Then the state of a net of a million tokens, and one of 2^20 elements, are printed and read: it tells the
seconds of `save` and of `resume` beside those of `upgrade` on the net and of `run` to rest."""
import pathlib
import subprocess
import sys
import tempfile
import time

from nets import histogram_inputs

TOP = pathlib.Path(__file__).resolve().parents[2]
PROGRAM = pathlib.Path(sys.argv[1] if len(sys.argv) > 1 else TOP / "crates/elastic/out/elastic").resolve()
FIRINGS = 1_000_000
TOKENS, ELEMENTS = 1_000_000, 2 ** 20


def call(folder, *words):
    """Status, output and seconds of a call."""
    began = time.time()
    ran = subprocess.run([PROGRAM, *map(str, words)], cwd=folder, capture_output=True, check=False)
    return ran.returncode, ran.stdout, ran.stderr, time.time() - began


def tenths(folder):
    """How many of ten saved states do not lead to what the run prints."""
    net = (TOP / "examples/histogram/net.txt").read_text()
    pathlib.Path(folder, "net").write_text(net)
    turns = 4096
    while True:
        pathlib.Path(folder, "inputs").write_text(histogram_inputs(net, turns))
        whole = call(folder, "run", "net", "inputs", "--count", "--limit", 400_000_000)
        made = int(whole[1].rsplit(b"firings ", 1)[1].split()[0])
        if made >= FIRINGS or whole[0]:
            break
        turns *= 2
    bad = 0
    for tenth in range(10):
        code, text, _, _ = call(folder, "save", "net", "inputs", "--at", made * tenth // 10)
        pathlib.Path(folder, "state").write_bytes(text)
        resumed = call(folder, "resume", "net", "state", "--count", "--limit", 400_000_000)
        bad += code != 0 or resumed[:3] != whole[:3]
    print(f"a run of {made:,} firings, saved at each tenth and resumed: {10 - bad} of 10 as the run")
    return bad


def wide(outputs, each):
    """A net of a fork of so many outputs with a fork of so many sinks at each."""
    lines = ["elastic 2", "kernel wide", "scalar a i32", "result none", "unit entry", "unit param 0", "unit exit", f"unit fork 32 {outputs}"]
    lines += [f"unit fork 32 {each}"] * outputs + ["unit sink 32"] * (outputs * each)
    lines += ["chan 0.0 2.0 32 1 0 control", "chan 1.0 3.0 32 1 0"]
    lines += [f"chan 3.{j} {4 + j}.0 32 1 0" for j in range(outputs)]
    lines += [f"chan {4 + j}.{k} {4 + outputs + j * each + k}.0 32 1 0" for j in range(outputs) for k in range(each)]
    return "\n".join([*lines, "end", ""])


def timed(folder, name, net, inputs, at):
    """Tells the seconds of saving the state after so many firings and of reading it."""
    pathlib.Path(folder, "net").write_text(net)
    pathlib.Path(folder, "inputs").write_text(inputs)
    read = call(folder, "upgrade", "net")[3]
    code, text, told, saved = call(folder, "save", "net", "inputs", "--at", at)
    pathlib.Path(folder, "state").write_bytes(text)
    resumed = call(folder, "resume", "net", "state", "--limit", 400_000_000)
    run = call(folder, "run", "net", "inputs", "--limit", 400_000_000)
    print(f"{name}: {len(text):,} bytes; save {saved:.2f} s, resume {resumed[3]:.2f} s; upgrade {read:.2f} s, run {run[3]:.2f} s")
    return code != 0 or resumed[:2] != run[:2]


def main():
    with tempfile.TemporaryDirectory() as folder:
        bad = tenths(folder)
        # each fork's firings put a token: half of the tokens wait at the second row of forks, the others at sinks
        bad += timed(folder, f"a state of some {TOKENS:,} tokens", wide(16, 62_500), "a = 5\n", 17 + TOKENS)
        array = f"elastic 2\nkernel copy\narray a i32 {ELEMENTS}\nresult none\nunit entry\nunit exit\nchan 0.0 1.0 32 1 0 control\nend\n"
        bad += timed(folder, f"a state of {ELEMENTS:,} elements", array, f"a = {' '.join(['-1234567'] * ELEMENTS)}\n", 0)
    sys.exit(bad > 0)


if __name__ == "__main__":
    main()
