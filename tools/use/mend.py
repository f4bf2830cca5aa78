#!/usr/bin/env python3
"""Makes a kernel of C as people write it, where that is mechanical.

    tools/use/mend.py my.c > mended.c
    tools/use/mend.py my.c --length data=64 --inputs more.txt > mended.c

The C is read by pycparser (`apt-get install python3-pycparser`, or `pip install pycparser`), macros with parameters and `#if` by the C
compiler (cc, gcc or clang), where there are some. What was changed is told on the error output, a line each; what cannot be changed
safely is refused with its place, and then nothing is printed. Pointers that are only indexed or moved become arrays with an index;
--length says how many elements each has. Tables, local arrays and variables that outlive a call become parameters behind the others:
--inputs writes the lines of inputs for them. The kernel is the last function that no other calls, or that of --kernel; functions of
scalars stay helpers, others are written out where they are called. What C leaves to its implementations is as gcc has it on 64-bit
Linux: `char` has a sign, `long` 64 bits. The kernel is compiled at once by the program of --program, crates/elastic/out/elastic if
none is named."""
import argparse
import os
import pathlib
import subprocess
import sys
import tempfile

TOP = pathlib.Path(__file__).resolve().parents[2]

try:
    from pycparser import c_parser
except ImportError:
    sys.exit("mend.py: needs pycparser, a parser of C for Python: `apt-get install python3-pycparser`, or `pip install pycparser`")

from mending.functions import Program  # noqa: E402
from mending.kinds import PRELUDE  # noqa: E402
from mending.prepare import Prepared, Refused  # noqa: E402
from mending.tree import Writer  # noqa: E402


class Notes:
    """What was changed: lines of the text and words, each once."""

    def __init__(self):
        self.listed = []

    def add(self, line, words):
        if (line, words) not in self.listed:
            self.listed.append((line, words))


def parsed(prepared, path):
    """The tree of a text."""
    name = pathlib.Path(path).name
    try:
        return c_parser.CParser().parse(f'# 1 "prelude"\n{PRELUDE}# 1 "{name}"\n{prepared.text}', "prelude")
    except Exception as wrong:  # pycparser's class of errors moved between versions, and some texts break it otherwise
        if type(wrong).__name__ != "ParseError":
            raise Refused(0, "this is no C that pycparser reads", "see what `cc -fsyntax-only` says") from wrong
        parts = str(wrong).split(":", 3)
        line = int(parts[1]) if len(parts) > 2 and parts[1].strip().isdigit() else 0
        raise Refused(line, f"this is no C that pycparser reads: {parts[-1].strip()}", "see what `cc -fsyntax-only` says") from wrong


def mended(path, kernel=None, lengths=None):
    """The kernel text, the notes and the values of added parameters."""
    notes = Notes()
    prepared = Prepared(path, notes)
    program = Program(parsed(prepared, path), prepared, notes, kernel, lengths)
    written = program.whole()
    lines = ["#include <stdint.h>", *(f"#define {name} {value}" for name, value in program.defines)]
    for head, body, node in written:
        start, end = node.decl.coord.line, last_line(node)
        before = max((last_line(other) for other in (it.node for it in program.functions.values())
                      if other is not node and last_line(other) < start), default=0)
        comments = [(line, words) for line, words in prepared.comments if before < line <= end]
        writer = Writer([it for it in comments if it[0] >= start])
        lines += [words for line, words in comments if line < start]
        writer.put(0, head + " {", start)
        writer.statements(body, 1)
        writer.put(0, "}", end + 1)
        lines += writer.lines
    added = [(array.name, values) for array, values in program.added]
    return "\n".join([*lines, ""]), notes, added


def last_line(node):
    """The last line of a tree that is known."""
    last = getattr(getattr(node, "coord", None), "line", 0) or 0
    return max([last, *(last_line(inner) for _, inner in node.children())])


def lengths_of(words):
    """The lengths that `--length NAME=N` gives."""
    found = {}
    for word in words:
        name, _, value = word.partition("=")
        if not value.isdigit() or not int(value):
            sys.exit(f"mend.py: --length {word}: NAME=N is looked for, N from 1")
        found[name] = int(value)
    return found


def compiled(program, text):
    """What the program says against a text; empty where it takes it."""
    with tempfile.TemporaryDirectory() as folder:
        file = pathlib.Path(folder, "mended.c")
        file.write_text(text)
        ran = subprocess.run([program, "compile", "mended.c"], cwd=folder, stdout=subprocess.DEVNULL, stderr=subprocess.PIPE, text=True,
                             check=False)
        return ran.stderr.strip() or f"status {ran.returncode}" if ran.returncode else ""


def main():
    words = argparse.ArgumentParser(description=__doc__, formatter_class=argparse.RawDescriptionHelpFormatter)
    words.add_argument("kernel_text", metavar="KERNEL.c")
    words.add_argument("--kernel", metavar="NAME", help="the function that is the kernel")
    words.add_argument("--length", action="append", default=[], metavar="NAME=N", help="how many elements a pointer leads to")
    words.add_argument("--inputs", metavar="FILE", help="writes the lines of inputs for added parameters")
    words.add_argument("--program", type=os.path.abspath, help="the program elastic that compiles the result")
    given = words.parse_args()
    path = given.kernel_text
    try:
        text, notes, added = mended(path, given.kernel, lengths_of(given.length))
    except Refused as refused:
        place = f"{path}:{refused.line}" if refused.line else path
        sys.exit(f"{place}: not mended: {refused.why}" + (f"\ninstead: {refused.remedy}." if refused.remedy else ""))
    print(text, end="")
    for line, said in sorted(notes.listed, key=lambda it: it[0]):
        print(f"{path}:{line}: {said}", file=sys.stderr)
    inputs = "".join(f"{name} = {' '.join(map(str, values))}\n" for name, values in added)
    if inputs:
        print(f"add to the inputs:\n{inputs}", end="", file=sys.stderr)
    if given.inputs:
        pathlib.Path(given.inputs).write_text(inputs)
    program = given.program or str(TOP / "crates" / "elastic" / "out" / "elastic")
    if not os.access(program, os.X_OK):
        print("not compiled: there is no program (`make build` makes one, --program names another)", file=sys.stderr)
        return
    wrong = compiled(program, text)
    if wrong:
        print(f"{wrong}\nthe mended text is refused still: tools/use/explain.py --all tells why", file=sys.stderr)
        sys.exit(4)


if __name__ == "__main__":
    main()
