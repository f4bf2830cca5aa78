#!/usr/bin/env python3
"""The examples by a program elastic: their results, their sizes, and what `--depth` buys and costs.

usage: tools/house/examples.py PROGRAM

Each kernel of examples/ is run by `ref`, and by `go` without a depth and with the depths 1, 4, 16 and 1,000, each with 1, 2 and 8
slots. An error is reported where the results are not those of results.txt, where the firings are not those of the run without a
depth, where a walk along channels of delay 0 weighs more than the depth, and where all kernels together take, with depth 4, more
than a third of the cycles that they take without. Two tables are printed: units, channels, firings and cycles with two slots and no
depth; cycles with two slots by depth, with the weight of the heaviest walk. A walk weighs as many units as it goes through, without
forks, sinks, constants, parameters, conversions of widths, the entry and the exit."""
import pathlib
import subprocess
import sys

TOP = pathlib.Path(__file__).resolve().parents[2]
DEPTHS = (None, 1, 4, 16, 1000)
SLOTS = (1, 2, 8)
WIRES = {"entry", "exit", "param", "const", "fork", "sink"}


def run(program, example, depth, slots):
    """The circuit, the results, the firings and the cycles of a run."""
    words = [program, "go", example / "kernel.c", example / "inputs.txt", "--count", "--cycles", "--slots", str(slots)]
    words += ["--depth", str(depth)] if depth else []
    circuit, _, text = subprocess.run(words, check=True, capture_output=True, text=True).stdout.partition("\n%%\n")
    lines = text.splitlines()
    told = {line.split()[1]: int(line.split()[2]) for line in lines if line.startswith("# ")}
    return circuit, [line for line in lines if not line.startswith("# ")], told["firings"], told["cycles"]


def weight_of(unit):
    """0 of a unit that is wires, as its words say: of the operations on one value those that convert widths; else 1."""
    kind, *words = unit
    return int(kind not in WIRES and not (kind == "op1" and "to" in words[0]))


def heaviest(circuit):
    """The weight of the heaviest walk along channels of delay 0, which in a circuit that is checked has an end."""
    lines = [line.split() for line in circuit.splitlines()]
    weights = [weight_of(words[1:]) for words in lines if words[0] == "unit"]
    after, waits = [[] for _ in weights], [0] * len(weights)
    for words in lines:
        if words[0] == "chan" and words[5] == "0":
            source, target = (int(place.split(".")[0]) for place in words[1:3])
            after[source].append(target)
            waits[target] += 1
    reached, ready = list(weights), [unit for unit, wait in enumerate(waits) if wait == 0]
    while ready:
        unit = ready.pop()
        for target in after[unit]:
            reached[target] = max(reached[target], reached[unit] + weights[target])
            waits[target] -= 1
            if waits[target] == 0:
                ready.append(target)
    return max(reached)


def tried(program, example, bad):
    """The rows of an example in the two tables, and its cycles by depth; what is wrong goes to a list."""
    results, row, usual, by_depth = (example / "results.txt").read_text(), [], {}, {}
    if subprocess.run([program, "ref", example / "kernel.c", example / "inputs.txt"], capture_output=True, text=True, check=False).stdout != results:
        bad.append(f"{example.name}, ref: other results")
    for depth in DEPTHS:
        for slots in SLOTS:
            circuit, given, firings, cycles = run(program, example, depth, slots)
            weight, name = heaviest(circuit), f"{example.name}, depth {depth}, {slots} slots"
            if given != results.splitlines():
                bad.append(f"{name}: other results")
            if firings != usual.setdefault("firings", firings):
                bad.append(f"{name}: {firings} firings")
            if depth and weight > depth:
                bad.append(f"{name}: a walk weighs {weight}")
            if slots == 2:
                row.append(f"{cycles:,} ({weight})")
                by_depth[depth] = cycles
            if slots == 2 and depth is None:
                sizes = [*(circuit.count(f"\n{word} ") for word in ("unit", "chan")), firings, cycles]
    return sizes, row, by_depth


def put(head, rows):
    """A table, whose cells are texts or numbers."""
    print(f"| {' | '.join(head)} |\n|{'---|' * len(head)}")
    for row in rows:
        print(f"| {' | '.join(f'{cell:,}' if isinstance(cell, int) else cell for cell in row)} |")


def main():
    if len(sys.argv) != 2:
        sys.exit(__doc__)
    program, bad = pathlib.Path(sys.argv[1]).resolve(), []
    examples = sorted(path.parent for path in (TOP / "examples").glob("*/kernel.c"))
    sizes, rows, cycles = zip(*(tried(program, example, bad) for example in examples))
    names = [f"`{example.name}`" for example in examples]
    put(["Kernel", "Units", "Channels", "Firings", "Cycles"], [[name, *row] for name, row in zip([*names, "together"], [*sizes, map(sum, zip(*sizes))])])
    sums = {depth: sum(row[depth] for row in cycles) for depth in DEPTHS}
    put(["Kernel", "No depth", *(f"{depth:,}" for depth in DEPTHS[1:])], [[name, *row] for name, row in zip([*names, "together"], [*rows, sums.values()])])
    if 3 * sums[4] > sums[None]:
        bad.append(f"{sums[4]:,} cycles with depth 4, {sums[None]:,} without")
    print("\n".join(bad) if bad else "By go and ref, with each depth, and with 1, 2 and 8 slots, results and firings are the same.")
    sys.exit(bool(bad))


if __name__ == "__main__":
    main()
