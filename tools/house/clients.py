#!/usr/bin/env python3
"""Runs every script of examples/clients, and tools/use/name_units.py, on every example, and compares with what is kept in examples/clients/kept.

    tools/house/clients.py [--program PROGRAM] [--keep]

The circuits of kernels come from the program (crates/elastic/out/elastic where none is named), netlists from their files. Of long
outputs the number of lines and a checksum are kept. The pictures of docs/img are compared too. --keep writes what is new."""
import argparse
import hashlib
import os
import pathlib
import re
import subprocess
import sys
import tempfile
from concurrent.futures import ThreadPoolExecutor

TOP = pathlib.Path(__file__).resolve().parents[2]
CLIENTS = TOP / "examples" / "clients"
KEPT = CLIENTS / "kept"
PICTURES = ("sum", "hist")
SEEDS = ("1", "2")


class Failed(Exception):
    """What went wrong, in a line."""


def run(*words):
    """What a command prints."""
    ran = subprocess.run([str(word) for word in words], capture_output=True, check=False)
    if ran.returncode:
        raise Failed(f"{' '.join(map(str, words))}: status {ran.returncode}: {ran.stderr.decode('utf-8', 'replace').strip()}")
    return ran.stdout.decode("utf-8")


def client(name, *words):
    """What a client prints."""
    return run(sys.executable, CLIENTS / name, *words)


def short(text):
    """A long text's number of lines and its checksum."""
    return f"{len(text.splitlines())} lines, {hashlib.sha256(text.encode()).hexdigest()[:16]}\n"


def counts(text):
    """The results of a run, and its firings and cycles."""
    *results, firings, cycles = text.splitlines()
    return results, firings, cycles


def retimed(program, net, inputs, folder):
    """What other slots and delays change."""
    results, firings, cycles = counts(run(program, "run", net, inputs, "--count", "--cycles"))
    lines = [f"before: {firings[2:]}, {cycles[2:]}"]
    for seed in SEEDS:
        other = pathlib.Path(folder, "other.net")
        other.write_text(client("retime.py", net, "--seed", seed))
        now = counts(run(program, "run", other, inputs, "--count", "--cycles"))
        if now[:2] != (results, firings):
            raise Failed(f"retime.py {net} --seed {seed}: other results or another number of firings")
        lines.append(f"--seed {seed}: {now[1][2:]}, {now[2][2:]}")
    return "\n".join(lines + [""])


def made_inputs(program, kernel, net, folder):
    """The inputs that are written for a kernel and for its netlist, which are the same; the netlist takes them."""
    said = ""
    for way in ([], ["--counting"], ["--seed", "1", "--most", "50"]):
        text = client("inputs.py", net, *way)
        if kernel.exists() and client("inputs.py", kernel, *way) != text:
            raise Failed(f"inputs.py {' '.join(way)}: not the same for {kernel} and its netlist")
        said += f"-- {' '.join(way) or 'zeros'}\n{text}"
    file = pathlib.Path(folder, "inputs.txt")
    file.write_text(client("inputs.py", net))
    ran = subprocess.run([program, "run", net, file, "--limit", "100000"], capture_output=True, check=False)
    if ran.returncode not in (0, 8, 10):
        raise Failed(f"inputs.py {net}: the program does not take them: {ran.stderr.decode().strip()}")
    return said


def stalled(program, net, inputs, folder):
    """The channels that were full most often, with one slot each, and the units that never fired."""
    tight, log = pathlib.Path(folder, "tight.net"), pathlib.Path(folder, "log.txt")
    tight.write_text(client("retime.py", net, "--slots", "1", "--delay", "2"))
    log.write_text(run(program, "run", tight, inputs, "--log"))
    lines = client("stalls.py", tight, inputs, log).splitlines()
    return "\n".join([*lines[:9], "..", lines[-1], ""]) + short("\n".join(lines))


def where(program, net, inputs, folder):
    """Where the cycles go; the firings, cycles and turns are those of the program."""
    said, log = client("where.py", net, inputs), run(program, "run", net, inputs, "--count", "--cycles", "--log")
    firings, cycles = (re.search(rf"# {word} (\d+)", log).group(1) for word in ("firings", "cycles"))
    if f": {firings} firings, {cycles} cycles" not in said:
        raise Failed(f"where.py {net}: not the {firings} firings and {cycles} cycles of the program")
    for head, entered, turns in re.findall(r"^  (\d+) cmerge: entered (\d+) times?, (\d+) turn", said, re.M):
        came = len(re.findall(rf"^{head} from ", log, re.M))
        if came != int(entered) + int(turns):
            raise Failed(f"where.py {net}: the merge {head} comes {came} times in the program's schedule")
    return said + "-- --svg --where\n" + short(client("draw.py", "--svg", "--where", inputs, net)) + bounds(program, net, inputs, folder)


def bounds(program, net, inputs, folder):
    """What bounds each loop where the circuit has a depth."""
    kernel = pathlib.Path(inputs).parent / "kernel.c"
    if not kernel.exists():
        return ""
    other = pathlib.Path(folder, "depth.net")
    other.write_text(run(program, "compile", kernel, "--depth", "4"))
    return "-- --depth 4\n" + client("where.py", other, inputs).split("what bounds each loop\n")[1]


def named(kernel, net, folder):
    """The names of the circuit's units, or why there are none, and the picture with them, or the one without names."""
    ran = subprocess.run([sys.executable, TOP / "tools/use/name_units.py", kernel, net], capture_output=True, check=False, text=True)
    if ran.returncode:
        return ran.stderr.replace(str(kernel), kernel.name), client("draw.py", "--svg", net)
    file = pathlib.Path(folder, "names.txt")
    file.write_text(ran.stdout)
    picture = client("draw.py", "--svg", "--kernel", kernel, net)
    if client("draw.py", "--svg", "--names", file, net) != picture:
        raise Failed(f"draw.py: --kernel {kernel} and --names draw different pictures")
    return ran.stdout + "-- --svg --kernel\n" + short(picture), picture


def answers(program, example, folder):
    """What is kept of an example: a text with a part for each script; and its picture, with names where there are some."""
    kernel, net, inputs = example / "kernel.c", example / "net.txt", example / "inputs.txt"
    if kernel.exists():
        net = pathlib.Path(folder, "net.txt")
        net.write_text(run(program, "compile", kernel))
    picture = client("draw.py", "--svg", net)
    parts = {"draw.py": client("draw.py", net), "draw.py --svg": short(picture),
             "draw.py --dot": short(client("draw.py", "--dot", net))}
    if kernel.exists():
        parts["name_units.py"], picture = named(kernel, net, folder)
    parts |= {"inputs.py": made_inputs(program, kernel, net, folder),
             "retime.py": retimed(program, net, inputs, folder), "stalls.py": stalled(program, net, inputs, folder),
             "where.py": where(program, net, inputs, folder)}
    return "".join(f"== {name}\n{text}" for name, text in parts.items()), picture


def compared(path, text, keep):
    """A line where a kept text differs; with keep it is written."""
    same = path.exists() and path.read_text() == text
    if not same and keep:
        path.parent.mkdir(parents=True, exist_ok=True)
        path.write_text(text)
    return [] if same else [f"{path.relative_to(TOP)} differs"]


def examples():
    """The folders of the examples."""
    return sorted(path.parent for pattern in ("kernel.c", "net.txt") for path in TOP.glob(f"examples/*/{pattern}"))


def tried(program, example, keep):
    """What differs at an example, in lines."""
    with tempfile.TemporaryDirectory() as folder:
        try:
            text, picture = answers(program, example, folder)
        except Failed as failed:
            return [str(failed)]
    wrong = compared(KEPT / f"{example.name}.txt", text, keep)
    if example.name in PICTURES:
        wrong += compared(TOP / "docs" / "img" / f"{example.name}.svg", picture, keep)
    return wrong


def main():
    words = argparse.ArgumentParser(description=__doc__, formatter_class=argparse.RawDescriptionHelpFormatter)
    words.add_argument("--program", type=os.path.abspath, default=str(TOP / "crates/elastic/out/elastic"))
    words.add_argument("--keep", action="store_true", help="write what is new")
    given = words.parse_args()
    if not os.access(given.program, os.X_OK):
        sys.exit(f"{os.path.relpath(given.program)} is not there: `make build` makes it")
    with ThreadPoolExecutor(os.cpu_count() or 1) as pool:
        wrong = sum(pool.map(lambda example: tried(given.program, example, given.keep), examples()), [])
    print(f"clients: {len(examples())} examples, {len(wrong)} differ")
    print("\n".join(wrong), end="\n" * bool(wrong))
    sys.exit(bool(wrong) and not given.keep)


if __name__ == "__main__":
    main()
