#!/usr/bin/env python3
"""Says in words why `elastic` refused something, and what to do instead.

    elastic go my.c my.txt 2> error.txt || tools/use/explain.py < error.txt
    tools/use/explain.py my.c:3:12: 10 Unexpected
    tools/use/explain.py --file kernels/my.c --file my.txt < error.txt
    tools/use/explain.py --all my.c

The error line is given as words or on the standard input, among other lines too. The files that it speaks of are looked for by the
name in the line; those named by --file are looked for by their last names, too. A text of inputs is explained better with the
kernel or the netlist that it is for. With --all a kernel is read by this tool itself, and every refusal is told at once: it goes on
behind each as if it were mended. `make go`, `make ref`, `make compile` and `make run` call this after a refusal."""
import argparse
import os
import re
import sys

from explaining import kernels, texts
from explaining.refusals import refusals
from explaining.source import Source, shown
from explaining.undefined import possible

WORDS = {1: "BadByte", 2: "OpenComment", 3: "BadNumber", 4: "WideNumber", 5: "Directive", 6: "Redefined", 10: "Unexpected",
         11: "EndOfText", 12: "TooDeep", 13: "TooLarge", 15: "Grown", 17: "NotHelper", 20: "Undeclared", 21: "Redeclared",
         22: "NotArray", 23: "NotScalar", 24: "Dimensions", 25: "Length", 26: "ReturnKind", 27: "OutsideLoop", 28: "CallPlace",
         29: "Arguments", 30: "C1", 31: "C2", 32: "C3", 33: "C4", 34: "C5", 35: "C6", 36: "C7", 37: "C8", 40: "Line",
         41: "Ends", 42: "Version", 50: "Line", 51: "Unknown", 52: "Twice", 53: "Missing", 54: "Count", 55: "Range",
         60: "Line", 61: "NotEnabled", 70: "Limit", 71: "Stuck", 72: "Stray", 80: "Undefined", 81: "Turns", 90: "Line",
         91: "Ends"}
LINES = [re.compile(form) for form in (
    r"(?P<file>.+?):(?P<line>\d+):(?P<column>\d+): (?P<number>\d+) (?P<word>[A-Z]\w*)$",
    r"(?P<file>.+?): (?P<number>\d+) (?P<word>[A-Z]\w*)(?: (?P<what>unit|chan|net))?(?: (?P<rest>\w+))?$",
    r"elastic: (?P<plain>the words are no command|cannot write|want of memory)$", r"elastic: cannot read (?P<unread>.+)$",
    r"elastic: (?P<long>.+) is too long$")]
PLAIN = {
    "the words are no command": (
        "The words behind `elastic` are no command: a command that is unknown, a file too few or too many, an option that "
        "this command "
        "has not or that stands twice, or a value outside its range.",
        "write `elastic compile KERNEL`, `elastic go KERNEL INPUTS`, `elastic ref KERNEL INPUTS`, `elastic run NETLIST "
        "INPUTS`, `elastic "
        "replay NETLIST INPUTS SCHEDULE`, `elastic upgrade NETLIST`, `elastic save NETLIST INPUTS`, `elastic resume NETLIST "
        "SNAPSHOT` or `elastic bench NUMBER`; docs/elastic.1 has the options of each (`man "
        "docs/elastic.1`)."),
    "cannot write": ("The output took not all of the text: it is closed, or the disk is full.",
                     "look at where the output goes, and throw away the part that stands there."),
    "want of memory": ("There was not enough memory; nothing was written.", "give the program more, or make the arrays smaller."),
}
GREATEST = 400_000_000
SHARED = 16_000_000
UNREAD = ("The file is not there, is a folder, or may not be read.", "see that its name is right, from the folder that you are in.")
TOO_LONG = ("The file has more bytes than one of its kind may have.",
            "a kernel has at most 65,536 bytes, inputs 33,554,432, a netlist and a snapshot 67,108,864, a schedule "
            "16,777,216: see that the files stand in the right order.")


class Files:
    """The files that an error line may speak of."""

    def __init__(self, paths):
        self.paths = paths

    def source(self, name):
        """The text of the file that a line names so; None where there is none that can be read."""
        named = [path for path in self.paths if path == name or os.path.basename(path) == os.path.basename(name)]
        for path in named + [name]:
            try:
                with open(path, "rb") as file:
                    return Source(file.read())
            except OSError:
                continue
        return None

    def others(self):
        return [source for source in map(self.source, self.paths) if source]


def found_in(text):
    """The first line of a text that is an error line, and its parts."""
    for line in text.splitlines():
        for form in LINES:
            parts = form.match(line.strip())
            if parts and ("number" not in parts.groupdict() or WORDS.get(int(parts["number"])) == parts["word"]):
                return line.strip(), parts.groupdict()
    return None, {}


def explained(line, parts, files):
    """The lines that explain an error line."""
    place, cause, remedy = answer(parts, files)
    return [line, *place, f"why:     {cause}", f"instead: {remedy}"]


def answer(parts, files):
    """The source line with its caret, the cause and what to do instead."""
    if parts.get("plain"):
        return [], *PLAIN[parts["plain"]]
    if parts.get("unread"):
        return [], *UNREAD
    if parts.get("long"):
        return [], *TOO_LONG
    number = int(parts["number"])
    if parts.get("line"):
        return at_place(number, parts, files)
    return of_text(number, parts, files) if 30 <= number < 70 or number >= 90 else of_run(number, parts, files)


def width_at(source, at, line, column):
    """The width of the token at a place; 1 where none begins there."""
    return len(source.tokens[at].text) if at < len(source.tokens) and source.tokens[at].start == source.offset(line, column) else 1


def at_place(number, parts, files):
    """Of a line with a place in a kernel."""
    source, line, column = files.source(parts["file"]), int(parts["line"]), int(parts["column"])
    if not source:
        return [], f"The file {parts['file']} is not here, so its line is not looked at.", "name it by `--file`."
    at = source.at(line, column)
    place = shown(source, line, column, width_at(source, at, line, column))
    if number != 80:
        return place, *kernels.cause(source, number, line, column)
    found = possible(source, line, column)
    listed = "".join(f"\n           - {it}" for it in found) or " an operation that begins here"
    turns = f"`tools/use/find_turn.py {parts['file']} INPUTS` finds the turn in which it happens."
    if any("--wrap" in it for it in found):
        turns += " Where a signed result may wrap, as in hardware, say `--wrap`."
    return place, f"C leaves the first of these undefined that comes about here, on these inputs:{listed}", turns


def of_text(number, parts, files):
    """Of a line about a netlist, inputs, a schedule or a saved state."""
    source, word, rest = files.source(parts["file"]), parts["word"], parts.get("rest")
    if not source and word != "Missing":
        return [], f"The file {parts['file']} is not here, so its line is not looked at.", "name it by `--file`."
    header = texts.header_of(files.others())
    if number < 40:
        line, *told = texts.rule(source, word, parts.get("what") or "net", int(rest or 0))
        return shown(source, line, 1, len(source.line(line))) if line else [], *told
    if number in (41, 91):
        return [], "The text ends before the complete line `end`.", "end it with the line `end` and a line feed; it may be cut off."
    if number == 42:
        cause = "The version of this netlist is unknown."
        return shown(source, 1, 1, len(source.line(1))), cause, "make the first line `elastic 1` or `elastic 2`."
    if number == 53:
        return [], *texts.missing(rest, header)
    at = int(rest)
    if number == 61:
        return shown(source, at + 1, 1, len(source.line(at + 1))), *texts.not_enabled(source, at)
    told = {40: lambda: texts.net_line(source, at), 60: lambda: texts.schedule_line(source, at),
            90: lambda: ("This line may not stand there in a saved state of this netlist.",
                         "take a state that `elastic save` wrote of the same netlist.")}
    return shown(source, at, 1, len(source.line(at))), *told.get(number, lambda: texts.inputs(source, word, at, header))()


def greater(option, number):
    """What to give an option in place of a number that was too small: ten times that, where so much may be given."""
    more = min(10 * int(number), GREATEST) if number.isdigit() else GREATEST
    if number == str(GREATEST):
        return f"{GREATEST:,} is the greatest `{option}` there is, so try smaller inputs"
    shared = f" (with `--workers` or `--log` at most {SHARED:,})" if option == "--limit" and more > SHARED else ""
    return f"try `{option} {more}`{shared}"


def of_run(number, parts, files):
    """Of a line about a run."""
    rest = parts.get("rest") or ""
    return [], *{
        70: ("The circuit had made as many firings as the limit allows, and was not at rest. The kernel may not end on these "
             "inputs, or "
             "the run is long. Of `resume` it may be at rest too: the snapshot has more firings behind it than the limit.",
             f"{greater('--limit', rest)}; `elastic ref` with `--turns` tells whether the C ends."),
        71: ("No unit can fire, and the exit never did: a token waits for one that never comes. A circuit of `go` never does this.",
             "look for an operation with one input, a fork's copy that nothing takes, or a loop without a first token: "
             "`examples/clients/stalls.py` names the units that never fired."),
        72: (f"An address lay past the end of the array `{rest}`: a read there gives 0, a write does nothing.",
             "`elastic ref` names the place in the kernel and ends there; then see the index, or the length in the brackets."),
        81: (f"The kernel was not over within {rest} turns. It may loop for ever on these inputs, or need more.",
             f"{greater('--turns', rest)}; see that each loop's condition becomes false."),
    }[number]


def all_of(path):
    """The lines that explain every refusal of a kernel; those with the same words are told once, with all their places."""
    source = Files([path]).source(path)
    if source is None:
        sys.exit(f"explain.py: cannot read {path}")
    told = {}
    for number, line, column in refusals(source):
        told.setdefault((number, *kernels.cause(source, number, line, column)), []).append((line, column))
    lines = []
    for (number, cause, remedy), places in told.items():
        line, column = places[0]
        at = source.at(line, column)
        lines += [f"{path}:{line}:{column}: {number} {WORDS[number]}", *shown(source, line, column, width_at(source, at, line, column))]
        also = ", ".join(f"{line}:{column}" for line, column in places[1:9]) + " .." * (len(places) > 9)
        lines += [f"     also at {also}"] * (len(places) > 1) + [f"why:     {cause}", f"instead: {remedy}", ""]
    count = sum(map(len, told.values()))
    return lines + [f"{count} refusal{'s' * (count != 1)}" + ("; tools/use/mend.py does what is mechanical of it" if count else
                                                            ", but for those of sizes (12, 13, 15)")]


def main():
    words = argparse.ArgumentParser(description=__doc__, formatter_class=argparse.RawDescriptionHelpFormatter)
    words.add_argument("--file", action="append", default=[], metavar="PATH", help="a file that the line may speak of")
    words.add_argument("line", nargs="*", metavar="LINE", help="the error line; without it the standard input is read")
    words.add_argument("--all", metavar="KERNEL", help="tell every refusal of a kernel at once")
    given = words.parse_intermixed_args()
    if given.all:
        print("\n".join(all_of(given.all)))
        return
    text = " ".join(given.line) if given.line else sys.stdin.buffer.read().decode("utf-8", "replace")
    line, parts = found_in(text)
    if line is None:
        sys.exit("explain.py: no error line of elastic was given")
    print("\n".join(explained(line, parts, Files(given.file))))


if __name__ == "__main__":
    main()
