#!/usr/bin/env python3
"""Tries tools/use/explain.py: on a row for each number of the program, and on the kernels of examples/refused.

    tools/house/check_explain.py [--program PROGRAM] [--keep]

A row is a file of tools/use/explaining/rows: the words of a command, its files, the error line and the words of explain.py; where the
words say what to write instead, the mended kernel and inputs. With a program each command is run, and its line compared too;
the mended kernels are compiled, and where there is a gcc, gcc's results of both texts are compared with those of `elastic ref`
of the mended one (`call.c` of a folder calls an original whose parameters are others). The first refusal that `explain.py --all`
tells of a kernel is held against the program's; a row with the command `--all k.c` has all words of that. --keep writes what is new as it is now."""
import argparse
import os
import pathlib
import re
import shutil
import subprocess
import sys
import tempfile

TOP = pathlib.Path(__file__).resolve().parents[2]
sys.path[:0] = [str(TOP / folder) for folder in ("tools/use", "tools/oracles")]
import explain  # noqa: E402  (their folders were just named)
import with_gcc  # noqa: E402
from explaining.refusals import first  # noqa: E402
from explaining.source import Source  # noqa: E402

ROWS = TOP / "tools/use/explaining/rows"
REFUSED = TOP / "examples" / "refused"
OWN = ("command", "line", "words", "mended", "inputs")
# Kernels whose mended text is not compared with gcc, and why.
NOT_C = {"missing_semicolon": "the text is no C"}
OTHER = {"float": "numbers with a point are scaled by hand"}


def row_of(path):
    """The parts of a row by their names, in order."""
    pieces = re.split(r"^== (.*)\n", path.read_text(encoding="latin-1"), flags=re.M)[1:]
    return dict(zip(pieces[::2], pieces[1::2]))


def text_of(row):
    """The text of a row."""
    return "".join(f"== {name}\n{text}" for name, text in row.items())


def line_of(program, command, folder):
    """The error line of a command."""
    ran = subprocess.run([program, *command.split()], cwd=folder, capture_output=True, check=False)
    return ran.stderr.decode("utf-8", "replace")


def words_of(line, files):
    """What explain.py says of an error line in the folder of the files."""
    said, parts = explain.found_in(line)
    return "\n".join(explain.explained(said, parts, explain.Files(files))) + "\n" if said else ""


def tried_row(path, program):
    """The row as it is, and as the program and explain.py have it."""
    row = row_of(path)
    now = dict(row)
    with tempfile.TemporaryDirectory() as folder:
        files = [name for name in row if name not in OWN]
        for name in files:
            pathlib.Path(folder, name).write_bytes(row[name].encode("latin-1"))
        if program and row["command"].strip() and not row["command"].startswith("--all"):
            now["line"] = line_of(program, row["command"], folder)
        before = os.getcwd()
        os.chdir(folder)
        try:
            words = "\n".join([*explain.all_of("k.c"), ""]) if row["command"].startswith("--all") else words_of(now["line"], files)
            now["words"] = words.encode("utf-8").decode("latin-1")
        finally:
            os.chdir(before)
    return row, now


def other_results(program, name, original, mended, inputs, call=None):
    """A line where the mended kernel is refused, or gives others results than the original by gcc."""
    if not program:
        return []
    if not shutil.which("gcc"):
        refused = subprocess.run([program, "compile", mended], capture_output=True, check=False).returncode
        return [f"{name}: the mended kernel is refused"] * bool(refused)
    wrong = with_gcc.agree(program, original, mended, inputs, call)
    return [f"{name}: {wrong}"] if wrong else []


def compared_row(path, row, program):
    """What gcc says against the mended kernel of a row, in lines, and whether it was asked."""
    if "mended" not in row:
        return [], 0
    with tempfile.TemporaryDirectory() as folder:
        for name, file in (("k.c", "k.c"), ("mended", "m.c"), ("inputs", "i.txt")):
            include = "#include <stdint.h>\n" * (file == "k.c" and "stdint.h" not in row[name])
            pathlib.Path(folder, file).write_text(include + row[name])
        return other_results(program, path.name, pathlib.Path(folder, "k.c"), pathlib.Path(folder, "m.c"), pathlib.Path(folder, "i.txt")), 1


def compared_kernel(folder, program):
    """The same of a refused kernel of examples."""
    if folder.name in OTHER or folder.name in NOT_C:
        return other_results(program, folder.name, folder / "mended.c", folder / "mended.c", folder / "inputs.txt"), 0
    call = (folder / "call.c").read_text() if (folder / "call.c").exists() else None
    return other_results(program, folder.name, folder / "kernel.c", folder / "mended.c", folder / "inputs.txt", call), 1


def first_refusal(name, text, line):
    """A line where the first refusal that the tool finds by itself is not the program's."""
    found = re.search(r":(\d+):(\d+): (\d+) ", line)
    if not found or int(found.group(3)) in (12, 13, 15, 80):
        return []
    own = first(Source(text.encode("latin-1")))
    told = own and (own[1], own[2], own[0])
    return [] if told == tuple(map(int, found.groups())) else [f"{name}: --all begins with {told}"]


def tried_kernel(folder, program):
    """The line and the words of a refused kernel as they are kept, and as they are now."""
    kept = [(folder / name).read_text() if (folder / name).exists() else "" for name in ("line.txt", "words.txt")]
    line = line_of(program, "compile kernel.c", folder) if program else kept[0]
    return kept, [line, words_of(line, [str(folder / "kernel.c")])]


def main():
    words = argparse.ArgumentParser(description=__doc__, formatter_class=argparse.RawDescriptionHelpFormatter)
    words.add_argument("--program", type=os.path.abspath, help="a program elastic")
    words.add_argument("--keep", action="store_true", help="write what is new")
    given = words.parse_args()
    wrong, numbers, compared = [], set(), 0
    for path in sorted(ROWS.glob("*.txt")):
        row, now = tried_row(path, given.program)
        numbers.update(int(it) for it in re.findall(r"(?:^|: )(\d+) [A-Z]", row["line"]))
        if now != row:
            wrong.append(f"{path.name}: line or words differ")
            if given.keep:
                path.write_text(text_of(now), encoding="latin-1")
        more, count = compared_row(path, row, given.program)
        wrong, compared = wrong + more + first_refusal(path.name, row.get("k.c", ""), now["line"]), compared + count
    wrong += [f"no row for {number} {explain.WORDS[number]}" for number in sorted(set(explain.WORDS) - numbers)]
    formats = (TOP / "docs" / "FORMATS.md").read_text()
    wrong += [f"docs/FORMATS.md does not name {word}" for number, word in explain.WORDS.items()
              if not re.search(rf"\b{word}\b", formats)]
    folders = sorted(path.parent for path in REFUSED.glob("*/kernel.c"))
    for folder in folders:
        kept, now = tried_kernel(folder, given.program)
        wrong += [] if kept == now else [f"{folder.name}: line or words differ"]
        more, count = compared_kernel(folder, given.program)
        wrong, compared = wrong + more + first_refusal(folder.name, (folder / "kernel.c").read_text(), now[0]), compared + count
        if given.keep:
            (folder / "line.txt").write_text(now[0])
            (folder / "words.txt").write_text(now[1])
    by_gcc = f"; {compared} mended kernels beside gcc" if given.program and shutil.which("gcc") else ""
    print(f"explain.py: {len(list(ROWS.glob('*.txt')))} rows and {len(folders)} refused kernels{by_gcc}, {len(wrong)} differ")
    print("\n".join(wrong), end="\n" * bool(wrong))
    sys.exit(bool(wrong) and not given.keep)


if __name__ == "__main__":
    main()
