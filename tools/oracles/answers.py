#!/usr/bin/env python3
"""The answers to rows that depend on the circuits of kernels or on the passes over block graphs, made beside the program by this folder.

usage: tools/oracles/answers.py [--order LETTERS] [--divisions] check|write [NAME..]

`check` compares them with the files stdout of given_middle, given_calls and elastic, and tells which lines are others; `write` writes
them there. NAMEs of files of data leave out the others; graphs.tsv and merged.tsv, which no pass changes, are left out unless named (they
take some minutes each). The options are those of optimized_graph.py. A row that the program refuses before there is a circuit keeps its
answer, and so do rows that say nothing of a circuit."""
import pathlib
import re
import sys

import optimized_graph
import placing
import simulate
from blocks import Graph, mg
from copy_joins import copy
from fold import fold
from select_arms import select
from walking import Walk, escaped, plain, read_inputs

CRATES = pathlib.Path(__file__).resolve().parent.parent.parent / "crates"
MOST_VISITS, MOST_FIRINGS, USUAL_FIRINGS = 40_000, 20_000, 8_000_000
# The greatest depth that a queue may have, and the number and the word of the rule that says so.
MOST_DEPTH, TOO_DEEP = 1024, "36 C7"
BETWEEN = "%%\n"
SLOW = {"graphs.tsv", "merged.tsv"}
MOST_TOLD = 20


class Passes:
    """The passes of the program: of a kernel's text the graph of its circuit."""

    def __init__(self, order, divides):
        self.order, self.divides, self.known = order, divides, {}

    def graph(self, text):
        if text not in self.known:
            self.known[text] = optimized_graph.optimized(Graph.of_kernel(text), self.order, self.divides)
        return self.known[text]


# ---- given_middle

def counts(graph, units, channels):
    size = graph.size()
    bound = 8 * (size + len(graph.scalars) + len(graph.arrays)) + 64
    return f"blocks {len(graph.blocks)} size {size} units {units} channels {channels} of {bound} / "


def circuit(graph, inputs):
    """The counts of a graph and its circuit, and how its run ends; or that the circuit breaks a rule."""
    net = placing.netlist(graph)
    for number, unit in enumerate(re.findall(r"^unit (.*)$", net, re.M)):
        if unit.startswith("lsq") and int(unit.split()[2]) > MOST_DEPTH:
            return f"no circuit: {TOO_DEEP} unit {number}"
    lines, firings, _ = simulate.simulate(net, inputs, MOST_FIRINGS)
    head, fault = counts(graph, net.count("\nunit "), net.count("\nchan ")), fault_of(lines)
    return head + (f"{fault[0]} {fault[1]}" if fault else "0 " + escaped("".join(f"{line}\n" for line in [*lines, f"# firings {firings}"])))


def fault_of(lines):
    """The status of a run that came to no results, with its number and words; None of one that did."""
    kind, _, rest = lines[0].partition(" ") if lines else ("", "", "")
    return {"Limit": (8, f"70 Limit {rest}"), "Stuck": (9, "71 Stuck"), "Stray": (10, f"72 Stray {rest}")}.get(kind)


def both(graph, inputs):
    return f"{graph.text()}\t{circuit(graph, inputs)}"


def walk_answer(passes, fields, _):
    graph = passes.graph(plain(fields[0]))
    walk = Walk(graph, *read_inputs(graph, plain(fields[1])), MOST_VISITS)
    return escaped("".join(f"{line}\n" for line in [f"strays {sum(walk.strays)}", *walk.results()])) if walk.is_over else "unfinished"


def arguments_answer(passes, fields, _):
    return " ".join(str(len(args)) for args, _, _ in passes.graph(plain(fields[0])).blocks[1:])


def circuit_answer(passes, fields, _):
    return circuit(passes.graph(plain(fields[0])), plain(fields[1]))


def optimized_answer(passes, fields, _):
    return both(passes.graph(plain(fields[0])), plain(fields[1]))


def graph_answer(passes, fields, _):
    return circuit(Graph.told(fields[1:5]), plain(fields[5]))


def merged_answer(passes, fields, _):
    graph = Graph.told(fields[1:5])
    return both(graph.with_blocks(mg.merged(graph.blocks)), plain(fields[5]))


def folded_answer(passes, fields, _):
    return both(fold(Graph.told(fields[1:5]), optimized_graph.divided if passes.divides else None), plain(fields[5]))


def selected_answer(passes, fields, _):
    return both(select(Graph.told(fields[2:6]), int(fields[1])), plain(fields[6]))


def copied_answer(passes, fields, _):
    rule = optimized_graph.divided if passes.divides else None
    return both(copy(Graph.told(fields[2:6]), optimized_graph.BUDGET, rule, int(fields[1])), plain(fields[6]))


# ---- given_calls

class Call:
    """The words of a call, and its files by name."""
    with_values = ("--depth", "--slots", "--delay", "--limit", "--workers")

    def __init__(self, words, files):
        self.options, self.words = {}, []
        self.files = {name: plain(text) for name, _, text in (file.partition(":") for file in files)}
        words = [part for word in words for part in (word.split("=", 1) if word.startswith("--") else [word])]
        while words:
            word = words.pop(0)
            if word == "--":
                self.words += words
                break
            if word.startswith("--"):
                self.options[word] = words.pop(0) if word in self.with_values else True
            else:
                self.words.append(word)

    def netlist(self, passes):
        delays = [(name, int(cycles)) for name, cycles in (part.split("=") for part in self.options.get("--delay", "").split(",") if part)]
        depth = int(self.options["--depth"]) if "--depth" in self.options else None
        return placing.netlist(passes.graph(self.files[self.words[1]]), delays, depth, int(self.options.get("--slots", 2)),
                               "forward" if "--forward" in self.options else "plain")

    def answer(self, passes):
        """The status, the circuit, what comes after it, and the error line."""
        net = self.netlist(passes)
        if self.words[0] == "compile":
            return 0, net, "", ""
        lines, firings, cycles = simulate.simulate(net, self.files[self.words[2]], int(self.options.get("--limit", USUAL_FIRINGS)))
        fault = fault_of(lines)
        if fault:
            return fault[0], "", "", f"elastic: {fault[1]}\n"
        lines += [f"# firings {firings}"] * ("--count" in self.options) + [f"# cycles {cycles}"] * ("--cycles" in self.options)
        return 0, net + BETWEEN, "".join(f"{line}\n" for line in lines), ""


def of_circuit(words, files, answer):
    """The call of a row whose answer a circuit gives; else None."""
    status = re.match(r"\d+", answer)
    if status and int(status[0]) not in (0, 8, 10):
        return None
    call = Call(words.split(), files)
    is_compiled = call.words[:1] in (["go"], ["compile"]) and all(word in call.files for word in call.words[1:])
    return call if is_compiled else None


def call_answer(passes, fields, answer):
    call = of_circuit(fields[0], fields[1:], answer)
    if not call:
        return answer
    status, net, after, told = call.answer(passes)
    return "\t".join([str(status), escaped(net + after), escaped(told)])


def go_answer(passes, fields, answer):
    call = of_circuit(fields[0], fields[1:], answer)
    if not call:
        return answer
    status, _, after, told = call.answer(passes)
    return "\t".join([str(status), escaped(after), escaped(told)])


def lines_answer(passes, fields, _):
    net = Call(fields[0].split(), [f"k:{fields[2]}"]).netlist(passes)
    return f"0: {sum(line.startswith(fields[1]) for line in net.splitlines())} lines of '{fields[1]}'"


# The kernel that lies in the program, and how its inputs are drawn: x from the six highest bits of a generator's states.
BENCH = ("void hist(int32_t n, int32_t x[1024], int32_t w[1024], int32_t h[64]) "
         "{ for (int32_t i = 0; i < n; i++) h[x[i]] += w[i]; }")
FACTOR, ADDED, STATES = 6364136223846793005, 1442695040888963407, 1 << 64


def bench_inputs(state):
    places = []
    for _ in range(1024):
        state = (state * FACTOR + ADDED) % STATES
        places.append(state >> 58)
    return f"n = 1024\nx = {' '.join(map(str, places))}\nw = {' '.join(map(str, range(1, 1025)))}\nh = {' '.join('0' * 64)}\n"


def bench_answer(passes, fields, answer):
    if not answer.startswith("0"):
        return answer
    lines, firings, cycles = simulate.simulate(placing.netlist(passes.graph(BENCH)), bench_inputs(int(fields[0].split()[1])), USUAL_FIRINGS)
    total = sum(map(int, lines[2].split()[2:]))
    return f"0\tfirings {firings}\\ncycles {cycles}\\nsum {total}\\n\t"


def agreement_answer(passes, fields, _):
    """The results are in the row; whether the graph gives them is looked at here."""
    graph = passes.graph(plain(fields[0]))
    walk = Walk(graph, *read_inputs(graph, plain(fields[1])), 2_000_000)
    is_right = walk.is_over and not any(walk.strays) and "".join(f"{line}\n" for line in walk.results()) == plain(fields[2])
    return f"results{'' if is_right else ' differs'} wrap circuit"


FILES = {
    "given_middle": {"walks.tsv": walk_answer, "live.tsv": arguments_answer, "circuits.tsv": circuit_answer, "graphs.tsv": graph_answer,
                     "merged.tsv": merged_answer, "folded.tsv": folded_answer, "selected.tsv": selected_answer, "copied.tsv": copied_answer,
                     "optimized.tsv": optimized_answer},
    "given_calls": {"calls.tsv": call_answer, "circuits.tsv": go_answer, "lines.tsv": lines_answer, "bench.tsv": bench_answer, "kernels.tsv": agreement_answer,
                    "rules.tsv": agreement_answer, "quotients.tsv": agreement_answer, "loops.tsv": agreement_answer},
}


# ---- files of answers

def parts_of(crate):
    """The answers of a crate by file, in order."""
    parts = {}
    for line in (CRATES / crate / "stdout").read_text(encoding="latin-1").splitlines():
        if line.startswith("== "):
            name = line[3:]
            parts[name] = []
        else:
            parts[name].append(line)
    return parts


def in_order(crate, parts):
    """The parts in the order in which the crate's program answers its files."""
    files = re.findall(r'^    \("([\w.]+)", Rows', (CRATES / crate / "src" / "rows.rt").read_text(), re.M)
    return {name: parts[name] for name in [*files, *(name for name in parts if name not in files)] if name in parts}


def rows_of(crate, name):
    return (CRATES / crate / "data" / name).read_text(encoding="latin-1").splitlines()[1:]


def renewed(passes, crate, names):
    """The answers of a crate with those of the named files made anew, and a line for each that is another one."""
    parts, told = parts_of(crate), []
    for name, answer_of in FILES[crate].items():
        if name not in names or not (CRATES / crate / "data" / name).exists():
            continue
        rows, before = rows_of(crate, name), parts.get(name, [])
        before += [""] * (len(rows) - len(before))
        now = [answer_of(passes, row.split("\t"), answer) for row, answer in zip(rows, before)]
        told += [f"{crate}, {name}, row {at + 1}: {new[:160]!r}" for at, (new, old) in enumerate(zip(now, before)) if new != old]
        parts[name] = now
    return parts, told


def program_text(passes):
    """What the program elastic prints of its example."""
    words = (CRATES / "elastic" / "args").read_text().split()
    call = Call(words, [])
    call.files = {word: (CRATES / "elastic" / "data" / word).read_text() for word in words[1:]}
    _, net, after, _ = call.answer(passes)
    return net + after


def main(words):
    found, rest = optimized_graph.options(words)
    if not rest or rest[0] not in ("check", "write"):
        sys.exit(__doc__)
    sys.setrecursionlimit(100_000)
    passes, differ = Passes(found.get("order", optimized_graph.ORDER), optimized_graph.divides_by(found)), 0
    every = {name for files in FILES.values() for name in files} | {"elastic"}
    names = set(rest[1:]) or every - SLOW
    if names - every:
        sys.exit(f"no such file: {', '.join(sorted(names - every))}")
    for crate in FILES:
        parts, told = renewed(passes, crate, names)
        print(*told[:MOST_TOLD], *[f"{crate}: .."] * (len(told) > MOST_TOLD), sep="\n", end="\n" * bool(told))
        differ += len(told)
        if rest[0] == "write" and told:
            text = "".join(f"== {name}\n" + "".join(f"{line}\n" for line in lines) for name, lines in in_order(crate, parts).items())
            (CRATES / crate / "stdout").write_text(text, encoding="latin-1")
    if "elastic" in names and program_text(passes) != (CRATES / "elastic" / "stdout").read_text():
        print("elastic: another output")
        differ += 1
        if rest[0] == "write":
            (CRATES / "elastic" / "stdout").write_text(program_text(passes))
    print(f"{differ} answers differ" if differ else "all answers are the same")
    sys.exit(bool(differ) and rest[0] == "check")


if __name__ == "__main__":
    main(sys.argv[1:])
