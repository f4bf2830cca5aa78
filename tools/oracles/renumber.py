#!/usr/bin/env python3
"""Given rows and documents that hold numbers of printed circuits, and what those numbers are with another program.

  tools/oracles/renumber.py PROGRAM            tells each line that would change
  tools/oracles/renumber.py PROGRAM --write    writes them
  tools/oracles/renumber.py PROGRAM --prose    tells the numbers that stand in sentences of the documents

PROGRAM, a program `elastic`, is asked for one thing, the circuit of a kernel (`compile`, with the options of the row). Its
units and channels are counted in that text, and its firings, its cycles and how its run ends come from tools/oracles/simulate.py. A
limit that was just enough, beside a row with one less that was not, becomes the number of firings; the other becomes one less.
Results never change: a row whose results are others is told and stays as it is, and the exit status is then 1. Circuits that
stand whole in a row, and those of graphs that are told as text, are drawn by tools/oracles/lean_net.py, apart from the program; that is
done only where the program's circuits are lean, which the circuit of an empty kernel shows (and that of a sum, that blocks are
merged)."""
import collections
import pathlib
import re
import subprocess
import sys
import tempfile

import lean_net
from simulate import simulate

TOP = pathlib.Path(__file__).resolve().parents[2]
EXAMPLES = ["fir", "hist", "matrix", "sort", "crc", "search", "stencil", "lookup"]
EMPTY = "void f(void) { }"
SUM = "int32_t f(int32_t a, int32_t b) { return a + b * 3; }"
MOST = 8_000_000


# ---- texts of rows

def plain(field):
    """The bytes that a field spells, as text."""
    spelled = {"n": "\n", "r": "\r", "t": "\t", "\\": "\\"}
    return re.sub(r"\\(x([0-9a-fA-F]{2})|.)", lambda m: chr(int(m[2], 16)) if m[2] else spelled[m[1]], field)


def field_of(text):
    return text.replace("\\", "\\\\").replace("\n", "\\n").replace("\r", "\\r").replace("\t", "\\t")


class Crate:
    """The files of rows of a program and its answers, one a line below each file's name, or below another title."""

    def __init__(self, name):
        self.folder = TOP / "crates" / name
        self.files, self.answers, at = {}, {}, None
        for line in (self.folder / "stdout").read_text(encoding="ascii").split("\n")[:-1]:
            if line.startswith("== "):
                at = line[3:]
                self.answers[at] = []
                rows = self.folder / "data" / at
                if rows.exists():
                    self.files[at] = rows.read_text(encoding="ascii").split("\n")[:-1]
            else:
                self.answers[at].append(line)
        for at, rows in self.files.items():
            assert len(rows) == len(self.answers[at]) + 1, (name, at)

    def write(self):
        for at, rows in self.files.items():
            (self.folder / "data" / at).write_text("\n".join(rows) + "\n", encoding="ascii")
        text = "".join(f"== {at}\n" + "".join(line + "\n" for line in lines) for at, lines in self.answers.items())
        (self.folder / "stdout").write_text(text, encoding="ascii")


# ---- circuits and their runs

class Program:
    def __init__(self, path):
        self.path, self.nets, self.runs = path, {}, {}
        self.is_lean = self.compiled(EMPTY).count("\nunit ") == 2
        self.is_merged = self.compiled(SUM).count("\nunit ") == 8

    def compiled(self, kernel, options=()):
        """The circuit's text; None where the kernel or the words are refused."""
        key = (kernel, tuple(options))
        if key not in self.nets:
            with tempfile.NamedTemporaryFile("w", encoding="latin-1", newline="") as file:
                file.write(kernel)
                file.flush()
                words = [str(self.path), "compile", file.name, *options]
                ran = subprocess.run(words, stdin=subprocess.DEVNULL, capture_output=True, check=False)
            self.nets[key] = ran.stdout.decode("ascii") if ran.returncode == 0 else None
        return self.nets[key]

    def run(self, net, inputs, limit=MOST):
        """What is printed after the circuit, the firings and the cycles."""
        key = (net, inputs, limit)
        if key not in self.runs:
            whole = self.runs.get((net, inputs, MOST))
            ends = whole is not None and whole[2] is not None and whole[1] <= limit
            self.runs[key] = whole if ends else simulate(net, inputs, limit)
        return self.runs[key]


def counts(net):
    return net.count("\nunit "), net.count("\nchan ")


OUTCOMES = {"Limit": 8, "Stuck": 9, "Stray": 10}
NUMBERS = {"Limit": "70 ", "Stuck": "71 ", "Stray": "72 "}


def is_end(lines):
    return len(lines) == 1 and lines[0].split(" ")[0] in OUTCOMES


# ---- calls

def parted(words):
    """The words of a call of go or compile: the options of the circuit, the limit, and whether firings and cycles are told."""
    words, options, limit, told, at = words.split(" ")[1:], [], None, set(), 0
    while at < len(words):
        word = words[at].split("=")[0]
        if word in ("--count", "--cycles"):
            told.add(word)
        elif word == "--limit":
            limit = int(words[at].split("=")[1] if "=" in words[at] else words[at + 1])
            at += 0 if "=" in words[at] else 1
        elif word in ("--slots", "--delay"):
            options += words[at:at + 1 if "=" in words[at] else at + 2]
            at += 0 if "=" in words[at] else 1
        elif word in ("--forward", "--wrap"):
            options.append(word)
        at += 1
    return options, limit, told


def with_limit(words, limit):
    return re.sub(r"--limit([ =])\d+", rf"--limit\g<1>{limit}", words)


def files_of(fields):
    return {name: plain(text) for name, text in (field.split(":", 1) for field in fields)}


def text_after(program, net, inputs, limit, told):
    """The status, the output after the circuit and the error output."""
    lines, firings, cycles = program.run(net, inputs, limit)
    if is_end(lines):
        word = lines[0].split(" ")[0]
        return OUTCOMES[word], "", f"elastic: {NUMBERS[word]}{lines[0]}\n"
    lines = lines + [f"# firings {firings}"] * ("--count" in told) + [f"# cycles {cycles}"] * ("--cycles" in told)
    return 0, "".join(line + "\n" for line in lines), ""


class Changes:
    def __init__(self):
        self.lines, self.faults = 0, 0

    def tell(self, where, old, new):
        if old != new:
            self.lines += 1
            print(f"{where}\n  - {short(old, new)}\n  + {short(new, old)}", flush=True)
        return new

    def fault(self, where, what):
        self.faults += 1
        print(f"{where}: {what}", flush=True)


def short(text, other, room=160):
    """The text from a little before the first place where the other differs."""
    at = next((k for k, (x, y) in enumerate(zip(text, other)) if x != y), min(len(text), len(other)))
    at = max(0, at - 40)
    return ("…" if at else "") + text[at:at + room] + ("…" if len(text) > at + room else "")


def without_numbers(text):
    return re.sub(r"# (firings|cycles) \d+\n", "", text)


def twins(rows, answers):
    """Rows with limits that are just enough, or one too small: those beside the same call with a limit one away that ends otherwise."""
    ends = collections.defaultdict(dict)
    for row, answer in zip(rows, answers):
        words, *files = row.split("\t")
        if words.startswith("go") and parted(words)[1] is not None:
            ends[with_limit(words, 0), tuple(files)][parted(words)[1]] = answer.split("\t")[0]
    for at, (row, answer) in enumerate(zip(rows, answers)):
        words, *files = row.split("\t")
        limit, status = parted(words)[1], answer.split("\t")[0]
        near = ends.get((with_limit(words, 0), tuple(files)), {})
        if limit is None or status not in ("0", "8"):
            continue
        if status == "0" and near.get(limit - 1) == "8":
            yield at, 0
        if status == "8" and near.get(limit + 1) == "0":
            yield at, 1


def renew_runs(program, crate, name, changes):
    """Calls of go of which the output after the circuit is told."""
    rows, answers = crate.files[name], crate.answers[name]
    less = dict(twins(rows[1:], answers))
    for at, (row, answer) in enumerate(zip(rows[1:], answers)):
        words, *files = row.split("\t")
        status, out, err = (plain(part) for part in answer.split("\t"))
        where = f"{crate.folder.name}/{name}:{at + 2}"
        if words.split(" ")[0] != "go" or int(status) not in (0, 8, 9, 10):
            continue
        options, limit, told = parted(words)
        given = files_of(files)
        net = program.compiled(given["k"], options)
        if at in less:
            limit = program.run(net, given["i"])[1] - less[at]
        new = text_after(program, net, given["i"], limit or MOST, told)
        if new[0] != int(status) or without_numbers(new[1]) != without_numbers(out):
            changes.fault(where, f"ends otherwise: {new}")
            continue
        if at in less:
            rows[at + 1] = changes.tell(where, row, "\t".join([with_limit(words, limit), *files]))
        answers[at] = changes.tell(where + " (answer)", answer, f"{new[0]}\t{field_of(new[1])}\t{field_of(new[2])}")


# ---- circuits that stand whole

def drawn(program, kernel, options, where, changes):
    """The whole circuit of a kernel, by hand-told graph; the program's text where it is the row's own."""
    net = lean_net.circuit_of_kernel(kernel, options, program.is_merged)
    if net is None:
        changes.fault(where, "a kernel whose graph lean_net does not know")
    elif net != program.compiled(kernel, options):
        changes.fault(where, "lean_net draws another circuit than the program prints")
    return net


def renew_whole(program, crate, name, changes):
    """Calls of compile, and calls on devices that fail: the row's text, cut where the row's is."""
    rows, answers = crate.files[name], crate.answers[name]
    for at, (row, answer) in enumerate(zip(rows[1:], answers)):
        fields = row.split("\t")
        failing, (words, *files) = (fields[:4], fields[4:]) if name == "faults.tsv" else (None, fields)
        status, out, err = answer.split("\t")
        where = f"{crate.folder.name}/{name}:{at + 2}"
        if words.split(" ")[0] not in ("go", "compile") or not out.startswith("elastic 2"):
            continue
        given, (options, limit, told) = files_of(files), parted(words)
        now = program.compiled(given["k"], options)
        after = "" if words.startswith("compile") else "%%\n" + text_after(program, now, given["i"], limit or MOST, told)[1]
        if (now + after).startswith(plain(out)) and (status != "0" or now + after == plain(out)):
            continue
        net = drawn(program, given["k"], options, where, changes)
        if net is None:
            continue
        text = net + after
        if status != "0":
            text = text[:int(failing[1]) * int(failing[2])]
            if len(text) == len(net + after):
                changes.fault(where, "the write that fails comes after the last one: choose another")
        answers[at] = changes.tell(where + " (answer)", answer, f"{status}\t{field_of(text)}\t{err}")


def renew_lines(program, crate, name, changes):
    """How many lines of a circuit begin with these words."""
    for at, row in enumerate(crate.files[name][1:]):
        words, front, kernel = row.split("\t")
        lines = program.compiled(plain(kernel), parted(words)[0]).split("\n")
        new = f"0: {sum(line.startswith(front) for line in lines)} lines of '{front}'"
        crate.answers[name][at] = changes.tell(f"{crate.folder.name}/{name}:{at + 2} (answer)", crate.answers[name][at], new)


# ---- circuits of graphs

COUNTS = re.compile(r"(blocks \d+ size \d+ units )(\d+)( channels )(\d+)( of \d+ / )(.*)")


def renew_counts(program, crate, name, changes):
    """Units, channels and firings of the circuit of a kernel or of a graph, and how its run ends within 20,000 firings."""
    for at, row in enumerate(crate.files[name][1:]):
        fields, answer = row.split("\t"), crate.answers[name][at]
        where = f"{crate.folder.name}/{name}:{at + 2} (answer)"
        if name == "graphs.tsv":
            if not program.is_lean:
                continue
            net = lean_net.circuit(fields[1:5], "f", [])
        else:
            net = program.compiled(plain(fields[0]))
        front, _, of, _, bound, old = COUNTS.fullmatch(answer).groups()
        status, out, err = text_after(program, net, plain(fields[-1]), 20_000, {"--count"})
        end = field_of(out) if status == 0 else err.removeprefix("elastic: ").removesuffix("\n")
        if without_numbers(plain(old)) != without_numbers(plain(f"{status} {end}")):
            changes.fault(where, f"ends otherwise: {status} {end}")
            continue
        units, channels = counts(net)
        crate.answers[name][at] = changes.tell(where, answer, f"{front}{units}{of}{channels}{bound}{status} {end}")


# ---- documents

def example(name, file):
    return (TOP / "examples" / name / file).read_text()


def numbers_of(program, name, options=()):
    net = program.compiled(example(name, "kernel.c"), options)
    _, firings, cycles = program.run(net, example(name, "inputs.txt"))
    return (*counts(net), firings, cycles)


def cells(line):
    return [cell.strip() for cell in line.strip("|\n").split("|")]


def renew_tables(program, changes, write):
    """The tables of examples in the documents: columns by their heads."""
    for path in ("docs/GUIDE.md", "README.md", "docs/TIMES.md"):
        if not (TOP / path).exists():
            continue
        lines, heads = (TOP / path).read_text().split("\n"), []
        for at, line in enumerate(lines):
            if line.startswith("| Kernel |"):
                heads = cells(line)
            elif not line.startswith("|"):
                heads = []
            name = re.match(r"\| `(?:examples/)?(\w+)` \|", line)
            if not heads or not name or name[1] not in EXAMPLES:
                continue
            units, channels, firings, cycles = numbers_of(program, name[1])
            now = dict(zip(heads, cells(line)))
            new = {"Units": units, "Channels": channels, "Firings": firings, "Cycles": cycles}
            if "Cycles with `--delay logic=1`" in heads:
                new["Cycles with `--delay logic=1`"] = numbers_of(program, name[1], ["--delay", "logic=1"])[3]
            now.update({head: f"{new[head]:,}" for head in heads if head in new})
            if "Firings for each node and turn" in heads:
                now["Firings for each node and turn"] = f"{firings / node_turns()[name[1]]:.2f}"
            lines[at] = changes.tell(f"{path}:{at + 1}", line, "| " + " | ".join(now.values()) + " |")
        if write:
            (TOP / path).write_text("\n".join(lines))


def node_turns():
    """Nodes times turns of the examples, by the guide's table."""
    table = {}
    for line in (TOP / "docs/GUIDE.md").read_text().split("\n"):
        name = re.match(r"\| `(\w+)` \| (\d+) \| ([\d,]+) \|", line)
        if name:
            table[name[1]] = int(name[2]) * int(name[3].replace(",", ""))
    return table


def renew_sum(program, changes, write):
    """The run of examples/sum, whole: the program's own row and the guide's first circuit."""
    kernel, inputs = example("sum", "kernel.c"), example("sum", "inputs.txt")
    now = program.compiled(kernel)
    after = "%%\n" + text_after(program, now, inputs, MOST, set())[1]
    for path, before in (("crates/elastic/stdout", ""), ("docs/GUIDE.md", "```\n")):
        text = (TOP / path).read_text()
        at = text.index(before + "elastic 2\n") + len(before)
        end = text.index("end\n%%\n", at) + len("end\n")
        end = text.index("\n", text.index("return = ", end)) + 1
        if text[at:end] != now + after:
            net = drawn(program, kernel, [], path, changes)
            if net is not None:
                changes.tell(path, text[at:end], net + after)
                if write:
                    (TOP / path).write_text(text[:at] + net + after + text[end:])


def tell_prose(program):
    """Numbers of prose, which stay to be written by hand."""
    units, channels, firings, cycles = numbers_of(program, "hist")
    print(f"docs/GUIDE.md, the first run: {units + channels} lines of units and channels, # firings {firings}, # cycles {cycles}")
    ratios = [numbers_of(program, name)[2] / node_turns()[name] for name in EXAMPLES]
    print(f"docs/GUIDE.md, firings for each node and turn: between {min(ratios):.1f} and {max(ratios):.1f}")
    for name, options in (("hist", "logic=1"), ("matrix", "logic=1"), ("matrix", "mul=0"), ("matrix", "read=0"),
                          ("matrix", "mul=7,lsq=3"), ("hist", "mul=7,lsq=3")):
        plainly, other = numbers_of(program, name)[3], numbers_of(program, name, ["--delay", options])[3]
        print(f"docs/GUIDE.md, {name} with --delay {options}: {other} cycles in place of {plainly}")
    for name in EXAMPLES:
        for words in (["--slots", "1"], ["--slots", "8"], ["--forward"]):
            plainly, other = numbers_of(program, name)[3], numbers_of(program, name, words)[3]
            if other != plainly:
                print(f"docs/GUIDE.md, {name} with {' '.join(words)}: {other} cycles, not {plainly}")


def main(words):
    if len(words) not in (1, 2) or words[1:] not in ([], ["--write"], ["--prose"]):
        sys.exit(__doc__)
    program, changes, write = Program(pathlib.Path(words[0]).resolve()), Changes(), words[1:] == ["--write"]
    if words[1:] == ["--prose"]:
        tell_prose(program)
        return
    calls, middle = Crate("given_calls"), Crate("given_middle")
    renew_runs(program, calls, "circuits.tsv", changes)
    renew_whole(program, calls, "calls.tsv", changes)
    renew_whole(program, calls, "faults.tsv", changes)
    renew_lines(program, calls, "lines.tsv", changes)
    renew_counts(program, middle, "circuits.tsv", changes)
    renew_counts(program, middle, "graphs.tsv", changes)
    if write:
        calls.write()
        middle.write()
    renew_sum(program, changes, write)
    renew_tables(program, changes, write)
    print(f"{changes.lines} lines changed, {changes.faults} faults")
    sys.exit(changes.faults > 0)


if __name__ == "__main__":
    main(sys.argv[1:])
