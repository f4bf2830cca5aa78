#!/usr/bin/env python3
"""What gcc gives of a C function on inputs, beside what `elastic ref` gives of the kernel that was made of it.

    tools/oracles/with_gcc.py --program PROGRAM ORIGINAL.c KERNEL.c INPUTS

It compiles both texts with gcc, calls the function of the kernel's name on the inputs (those of the kernel, arrays with the
kernel's lengths), and compares the results with `elastic ref` of the kernel: all arrays that the original has as parameters of
the same name, and the result. `agree(..)` is the same for other tools; a text `call` replaces the call of the original where
its parameters are others: statements over the kernel's parameters, with `result = ..` for the result."""
import argparse
import pathlib
import re
import shutil
import subprocess
import sys
import tempfile

sys.path.insert(0, str(pathlib.Path(__file__).resolve().parents[1] / "use"))
from explaining.source import Source  # noqa: E402  (its folder was just named)

C_TYPES = {f"{sign}{bits}": f"{'u' * (sign == 'u')}int{bits}_t" for sign in "iu" for bits in (8, 16, 32, 64)}
SECONDS = 20


class Header:
    """The name, the parameters and the result of a kernel, from its netlist."""

    def __init__(self, netlist):
        self.name = re.search(r"^kernel (\w+)$", netlist, re.M).group(1)
        self.scalars = re.findall(r"^scalar (\w+) (\w+)$", netlist, re.M)
        self.arrays = [(name, kind, int(length)) for name, kind, length in re.findall(r"^array (\w+) (\w+) (\d+)$", netlist, re.M)]
        self.result = re.search(r"^result (\w+)$", netlist, re.M).group(1)


def parameters(text, name):
    """The names of the parameters of a function in a C text, in order; None where there is no such function."""
    source = Source(text.encode("latin-1", "replace"))
    for at, token in enumerate(source.tokens):
        if token.text == name and at + 1 < len(source.tokens) and source.tokens[at + 1].text == "(":
            closes = source.partner(at + 1)
            if closes + 1 < len(source.tokens) and source.tokens[closes + 1].text == "{":
                parts, depth = [[]], 0
                for it in source.tokens[at + 2:closes]:
                    depth += (it.text in "([") - (it.text in ")]")
                    if it.text == "," and not depth:
                        parts.append([])
                    else:
                        parts[-1].append(it.text)
                return [name_of(part) for part in parts if part and part != ["void"]]
    return None


def name_of(part):
    before = part[:part.index("[")] if "[" in part else part
    return next((it for it in reversed(before) if re.match(r"[A-Za-z_]", it)), "")


def numbers(inputs):
    """The numbers of a text of inputs, by name."""
    return {name.strip(): values.split() for name, _, values in (line.partition("=") for line in inputs.splitlines()
                                                                  if "=" in line and not line.startswith("#"))}


def literal(word, kind):
    value = int(word)
    return f"(-{-value - 1}ll - 1)" if value < 0 else f"{value}{'ull' if kind[0] == 'u' else 'll'}"


def program_text(path, header, given, names, call):
    """A program that calls the function of a text, and prints its arrays and its result."""
    lines = ["#include <stdint.h>", "#include <stdio.h>", f'#include "{path}"', "int main(void) {"]
    for name, kind in header.scalars:
        lines.append(f"  static {C_TYPES[kind]} in_{name} = {literal(given[name][0], kind)};")
    for name, kind, length in header.arrays:
        values = ", ".join(literal(word, kind) for word in given[name])
        lines.append(f"  static {C_TYPES[kind]} in_{name}[{length}] = {{{values}}};")
    kind = header.result
    if kind != "none":
        lines.append(f"  {C_TYPES[kind]} result = 0;")
    arrays = {name for name, _, _ in header.arrays}
    arguments = ", ".join(f"(void *)in_{name}" if name in arrays else f"in_{name}" for name in names)
    lines.append(f"  {call}" if call else f"  {'result = ' * (kind != 'none')}{header.name}({arguments});")
    for name, type_, length in header.arrays:
        if call or name in names:
            form = "%llu" if type_[0] == "u" else "%lld"
            lines.append(f'  printf("{name} ="); for (int at = 0; at < {length}; at++) printf(" {form}", '
                         f'({"unsigned " * (type_[0] == "u")}long long)in_{name}[at]); printf("\\n");')
    if kind != "none":
        form = "%llu" if kind[0] == "u" else "%lld"
        lines.append(f'  printf("return = {form}\\n", ({"unsigned " * (kind[0] == "u")}long long)result);')
    return "\n".join([*lines, "  return 0;", "}", ""])


def by_gcc(path, header, inputs, call=None):
    """The results of a C text by gcc; None where gcc refuses the text or the function has other parameters, with the reason."""
    path = pathlib.Path(path).resolve()
    names = parameters(path.read_text(encoding="latin-1"), header.name)
    known = {name for name, *_ in header.scalars + header.arrays}
    if not call and (names is None or not set(names) <= known):
        return None, f"the function `{header.name}` has other parameters: {names}"
    with tempfile.TemporaryDirectory() as folder:
        main, out = pathlib.Path(folder, "main.c"), pathlib.Path(folder, "out")
        main.write_text(program_text(path, header, numbers(inputs), names or [], call))
        made = subprocess.run(["gcc", "-std=gnu99", "-O1", "-w", "-I", str(path.parent), "-o", str(out), str(main)], capture_output=True,
                              text=True, check=False)
        if made.returncode:
            return None, "gcc refuses it: " + next((line for line in made.stderr.splitlines() if "error" in line), "")
        try:
            ran = subprocess.run([str(out)], capture_output=True, text=True, check=False, timeout=SECONDS)
        except subprocess.TimeoutExpired:
            return None, f"not over within {SECONDS} seconds"
        return (ran.stdout, "") if not ran.returncode else (None, f"status {ran.returncode}")


def by_program(program, command, *files):
    ran = subprocess.run([program, command, *map(str, files)], capture_output=True, text=True, check=False)
    return ran.returncode, ran.stdout, ran.stderr.strip()


def agree(program, original, kernel, inputs_path, call=None):
    """None where gcc's results of both texts and those of `elastic ref` are the same; else what differs, in a line."""
    if not shutil.which("gcc"):
        return "there is no gcc"
    status, netlist, error = by_program(program, "compile", kernel)
    if status:
        return f"the kernel is refused: {error}"
    header, inputs = Header(netlist), pathlib.Path(inputs_path).read_text()
    status, results, error = by_program(program, "ref", kernel, inputs_path)
    if status:
        return f"ref: {error}"
    own, why = by_gcc(kernel, header, inputs)
    if own != results:
        return f"gcc gives another result of the kernel itself: {why or own!r}"
    before, why = by_gcc(original, header, inputs, call)
    if before is None:
        return why
    kept = dict(line.split(" = ", 1) for line in results.splitlines())
    other = [line for line in before.splitlines() if kept.get(line.split(" = ", 1)[0]) != line.split(" = ", 1)[1]]
    return f"gcc gives of the original: {other[0]}" if other else None if before else "nothing is compared"


def main():
    words = argparse.ArgumentParser(description=__doc__, formatter_class=argparse.RawDescriptionHelpFormatter)
    words.add_argument("--program", required=True, help="a program elastic")
    words.add_argument("original")
    words.add_argument("kernel")
    words.add_argument("inputs")
    given = words.parse_args()
    wrong = agree(given.program, given.original, given.kernel, given.inputs)
    print(wrong or "the same results")
    sys.exit(bool(wrong))


if __name__ == "__main__":
    main()
