#!/usr/bin/env python3
"""The graphs that the passes over block graphs make of a kernel, beside the program, from the definitions of the passes.

usage: tools/oracles/optimized_graph.py [OPTION..] KERNEL        KERNEL: a file with the text of a kernel and its helpers
       tools/oracles/optimized_graph.py [OPTION..] --told MOST   the same of each graph on standard input, one a line: its scalars, its
                                                                 arrays, the type of its result and its blocks, with tabs between

It prints the merged graph, what folding and selecting each make of it, and the optimized one, each below a line with its name, its number
of blocks and its size; graphs in the form of the graphs of given_middle, which lean_net.py reads.
  --order LETTERS  the passes of the optimized graph from left to right: f folds, m merges, s selects, c copies; where none are named, those
                   of the program
  --divisions      folding leaves divisions by constants
  --rules          the rules of folding that were taken, with how often, in place of the graphs
  --net            the netlist of the optimized graph in place of the graphs, with the usual slots and delays
  --depth N        the same, with the delays of a depth
MOST is what a block may weigh, 10 for each node of the kernel."""
import sys

import fold
import placing
from blocks import Graph, accesses, mg, weight
from copy_joins import MOST_ACCESSES, MOST_SIZE, copy
from divide import divided
from select_arms import select

BUDGET = 96
SELECTING, COPYING = "FMSMFM", "FMSCMFSMFM"
# The passes of the program, and whether it makes products of divisions by constants.
ORDER, DIVIDES = COPYING, True


def is_fit(graph, most):
    """The last test: what each block weighs, the size of all, and the accesses of each block."""
    return graph.size() <= MOST_SIZE and all(weight(block) <= most and accesses(block) <= MOST_ACCESSES for block in graph.blocks)


def optimized(graph, order=ORDER, divides=DIVIDES):
    """What the passes of an order make of a graph; the graph itself where that is not fit, or was too great between two passes."""
    rule, most, made = divided if divides else None, 10 * graph.nodes, graph
    for letter in order.upper():
        if made.size() > MOST_SIZE:
            return graph
        if letter == "F":
            made = fold.fold(made, rule)
        elif letter == "M":
            made = made.with_blocks(mg.merged(made.blocks))
        elif letter == "S":
            made = select(made, most)
        elif letter == "C":
            made = copy(made, BUDGET, rule, most)
    return made if is_fit(made, most) else graph


def show(graph, order, divides):
    stages = {"merged": graph, "folded": fold.fold(graph, divided if divides else None), "selected": select(graph, 10 * graph.nodes),
              "optimized": optimized(graph, order, divides)}
    for name, made in stages.items():
        print(f"{name}: blocks {len(made.blocks)} size {made.size()}")
        print("\t".join(made.fields()))


def divides_by(words):
    """Whether folding makes products of divisions by constants, by the options."""
    return DIVIDES and "divisions" not in words


def shown(graph, words):
    """Prints what the options ask for."""
    order, divides = words.get("order", ORDER), divides_by(words)
    if "rules" in words:
        fold.TAKEN.clear()
        optimized(graph, order, divides)
        print("\n".join(f"{count:6d} {rule}" for rule, count in sorted(fold.TAKEN.items()) if count))
    elif "net" in words or "depth" in words:
        print(placing.netlist(optimized(graph, order, divides), depth=int(words["depth"]) if "depth" in words else None), end="")
    else:
        show(graph, order, divides)


def options(words):
    """The options by name, and the other words."""
    found, rest, words = {}, [], list(words)
    while words:
        word = words.pop(0)
        if word in ("--order", "--depth", "--told") and words:
            found[word[2:]] = words.pop(0)
        elif word in ("--divisions", "--rules", "--net"):
            found[word[2:]] = True
        else:
            rest.append(word)
    return found, rest


def main(words):
    found, rest = options(words)
    sys.setrecursionlimit(100_000)
    if "told" in found and not rest:
        for line in sys.stdin:
            shown(Graph.told(line.rstrip("\n").split("\t"), int(found["told"]) / 10), found)
    elif "told" not in found and len(rest) == 1 and not rest[0].startswith("-"):
        with open(rest[0]) as kernel:
            shown(Graph.of_kernel(kernel.read()), found)
    else:
        sys.exit(__doc__)


if __name__ == "__main__":
    main(sys.argv[1:])
