#!/usr/bin/env python3
"""Tries tools/use/mend.py: on the kernels of examples/foreign and of examples/refused, on those of tools/use/explaining/rows that C takes, and on
the rows of tools/use/mending/rows.

    tools/house/check_mend.py [--program PROGRAM] [--drawn N] [--keep]

A folder of examples/foreign has a kernel as people write it (`kernel.c`), inputs, what gcc gives on them (`results.txt`), what mend.py makes
of it (`mended.c`), the lengths that it asks for (`lengths.txt`), where mend.py cannot do all of it the text after one round by hand
with the advice of `explain.py --all` (`edited.c`), and a call of the original where its parameters are others then (`call.c`). With a
program each mended kernel is run by `elastic ref`, and the results are compared with gcc's of the original; without a gcc with those
kept. A row of tools/use/mending/rows has a kernel, inputs, and either what its refusal says or gcc's word for the results. --drawn tries so many drawn functions too (tools/oracles/draw_foreign.py). --keep writes what is new."""
import argparse
import importlib.util
import os
import pathlib
import re
import shutil
import subprocess
import sys
import tempfile

TOP = pathlib.Path(__file__).resolve().parents[2]
sys.path[:0] = [str(TOP / folder) for folder in ("tools/use", "tools/oracles")]
if not importlib.util.find_spec("pycparser"):
    print("mend.py: not tried, since there is no pycparser (`apt-get install python3-pycparser`, or `pip install pycparser`)")
    sys.exit(0)
import mend  # noqa: E402  (its folder was named above)
import with_gcc  # noqa: E402
from check_explain import row_of  # noqa: E402

FOREIGN = TOP / "examples" / "foreign"
# What mend.py refuses, and the words that its refusal has.
NOT_MENDED = {"float": "floating point", "struct": "struct", "missing_semicolon": "no C", "10_unexpected_typedef_struct": "struct"}


def lengths(folder):
    file = folder / "lengths.txt"
    return mend.lengths_of(file.read_text().split()) if file.exists() else {}


def joined(inputs, added):
    """The text of inputs with the lines of added parameters in place of its own."""
    names = {name for name, _ in added}
    lines = [line for line in inputs.splitlines() if line.partition("=")[0].strip() not in names]
    return "\n".join(lines + [f"{name} = {' '.join(map(str, values))}" for name, values in added] + [""])


def differs(program, original, text, inputs, added, call=None, kept=None):
    """What is wrong with a mended text, in a line, or None; `kept` are results by gcc for where there is none."""
    with tempfile.TemporaryDirectory() as folder:
        kernel, file = pathlib.Path(folder, "mended.c"), pathlib.Path(folder, "inputs.txt")
        kernel.write_text(text)
        file.write_text(joined(inputs, added))
        if shutil.which("gcc"):
            return with_gcc.agree(program, original, kernel, file, call)
        ran = subprocess.run([program, "ref", kernel, file], capture_output=True, text=True, check=False)
        if ran.returncode:
            return ran.stderr.strip()
        wrong = [line for line in kept.splitlines() if line not in ran.stdout.splitlines()] if kept else []
        return f"other results: {wrong[0]}" if wrong else None


def by_gcc(program, folder, text, inputs, added):
    """The results of gcc on a foreign kernel, for those to be kept."""
    with tempfile.TemporaryDirectory() as room:
        kernel = pathlib.Path(room, "mended.c")
        kernel.write_text(text)
        _, netlist, _ = with_gcc.by_program(program, "compile", kernel)
        call = (folder / "call.c").read_text() if (folder / "call.c").exists() else None
        return with_gcc.by_gcc(folder / "kernel.c", with_gcc.Header(netlist), joined(inputs, added), call)[0]


def tried_foreign(folder, program, keep):
    """Whether a foreign kernel was mended at once, and what is wrong, in lines."""
    edited = folder / "edited.c"
    at_once, wrong = True, []
    try:
        text, _, added = mend.mended(str(folder / "kernel.c"), None, lengths(folder))
    except mend.Refused as refused:
        at_once = False
        if not edited.exists():
            return False, [f"{folder.name}: {refused.why}"]
        text, _, added = mend.mended(str(edited), None, lengths(folder))
    kept = (folder / "mended.c").read_text() if (folder / "mended.c").exists() else ""
    if kept != text:
        wrong.append(f"{folder.name}: mend.py makes another text")
        if keep:
            (folder / "mended.c").write_text(text)
    if program:
        inputs, results = (folder / "inputs.txt").read_text(), folder / "results.txt"
        if keep and shutil.which("gcc"):
            results.write_text(by_gcc(program, folder, text, inputs, added) or "")
        call = (folder / "call.c").read_text() if (folder / "call.c").exists() else None
        said = differs(program, folder / "kernel.c", text, inputs, added, call, results.read_text())
        wrong += [f"{folder.name}: {said}"] if said else []
    return at_once, wrong


def others():
    """The kernels of examples/refused and of the rows: their names, texts, mended texts by hand, inputs and calls."""
    for folder in sorted((TOP / "examples" / "refused").iterdir()):
        call = folder / "call.c"
        yield (folder.name, (folder / "kernel.c").read_text(), (folder / "mended.c").read_text(), (folder / "inputs.txt").read_text(),
               call.read_text() if call.exists() else None, folder)
    for path in sorted((TOP / "tools/use/explaining/rows").glob("*.txt")):
        row = row_of(path)
        if "mended" in row:
            include = "#include <stdint.h>\n" * ("stdint.h" not in row["k.c"])
            yield path.stem, include + row["k.c"], row["mended"], row["inputs"], None, None


def tried_other(name, text, by_hand, inputs, call, folder, program):
    """What is wrong with one of those, in lines, and whether it was compared."""
    with tempfile.TemporaryDirectory() as room:
        kernel = pathlib.Path(room, "kernel.c")
        kernel.write_text(text)
        for extra in folder.glob("*.h") if folder else []:
            pathlib.Path(room, extra.name).write_text(extra.read_text())
        found = {it: int(length) for it, length in re.findall(r"(\w+)\[(\d+)\]", by_hand.split("{", 1)[0])}
        try:
            made, _, added = mend.mended(str(kernel), None, found)
        except mend.Refused as refused:
            expected = NOT_MENDED.get(name)
            return ([] if expected and expected in refused.why else [f"{name}: {refused.why}"]), False
        if name in NOT_MENDED:
            return [f"{name}: is mended, and was not expected to be"], False
        said = differs(program, kernel, made, inputs, added, call) if program else None
        return ([f"{name}: {said}"] if said else []), bool(program)


def tried_row(path, program):
    """What is wrong with a row of mend.py, in lines, and whether it was compared."""
    row = row_of(path)
    with tempfile.TemporaryDirectory() as room:
        kernel = pathlib.Path(room, "kernel.c")
        kernel.write_text(row["k.c"])
        try:
            made, _, added = mend.mended(str(kernel), None, mend.lengths_of(row.get("lengths", "").split()))
        except mend.Refused as refused:
            wanted = row.get("refused", "").strip()
            return ([] if wanted and wanted in refused.why else [f"{path.name}: {refused.why}"]), False
        if "refused" in row:
            return [f"{path.name}: is mended, and was not expected to be"], False
        said = differs(program, kernel, made, row["inputs"], added) if program else None
        return ([f"{path.name}: {said}"] if said else []), bool(program)


def main():
    words = argparse.ArgumentParser(description=__doc__, formatter_class=argparse.RawDescriptionHelpFormatter)
    words.add_argument("--program", type=os.path.abspath, help="a program elastic")
    words.add_argument("--drawn", type=int, default=0, metavar="N")
    words.add_argument("--keep", action="store_true", help="write what is new")
    given = words.parse_args()
    folders = sorted(path.parent for path in FOREIGN.glob("*/kernel.c"))
    wrong, at_once, compared = [], 0, 0
    for folder in folders:
        once, said = tried_foreign(folder, given.program, given.keep)
        at_once, wrong, compared = at_once + once, wrong + said, compared + bool(given.program)
    for parts in others():
        said, done = tried_other(*parts, given.program)
        wrong, compared = wrong + said, compared + done
    for path in sorted((TOP / "tools/use/mending/rows").glob("*.txt")):
        said, done = tried_row(path, given.program)
        wrong, compared = wrong + said, compared + done
    by_hand = sum((folder / "edited.c").exists() for folder in folders)
    print(f"mend.py: {at_once} of {len(folders)} foreign kernels at once, {by_hand} more after one round by hand; {compared} kernels beside "
          f"{'gcc' if shutil.which('gcc') else 'what gcc gave'}, {len(wrong)} differ")
    print("\n".join(wrong), end="\n" * bool(wrong))
    if given.drawn and given.program:
        subprocess.run([sys.executable, TOP / "tools/oracles/draw_foreign.py", "--program", given.program, "--count", str(given.drawn)], check=False)
    sys.exit(bool(wrong) and not given.keep)


if __name__ == "__main__":
    main()
