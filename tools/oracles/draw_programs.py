#!/usr/bin/env python3
"""Draws programs of helpers and a kernel, and tells their results by gcc: rows of given_calls that no program of ours made.

usage: tools/oracles/draw_programs.py [--seed N] [--count N] kernels|interpreted

Each program has at least three helpers, with calls in indices, in steps and in declarations, and with locals without a
value that are assigned before they are read. gcc runs each as it stands, with its tests for undefined behaviour, and with
-fwrapv; a program that is undefined, that differs between the two, or that has too many turns is drawn again. `kernels`
prints lines for data/kernels.tsv (kernel, inputs, results), `interpreted` lines of calls of ref, under both profiles,
each with what it answers after two tabs."""
import argparse
import pathlib
import random
import re
import subprocess
import sys
import tempfile

TYPES = ["int", "int32_t", "unsigned", "uint8_t", "int16_t", "uint16_t", "int8_t", "uint32_t"]
LENGTH = 8
# The nodes that a kernel may have once its calls are inlined, 1,024; tokens are more.
MOST = 1000


class Drawer:
    """Draws one program."""

    def __init__(self, draws):
        self.draws = draws
        self.helpers = []

    def pick(self, things):
        return self.draws.choice(things)

    def small(self):
        return str(self.draws.randrange(0, 12))

    def call(self, names, depth, known):
        name, count = self.pick(known)
        return f"{name}({', '.join(self.expr(names, depth - 1, known, True) for _ in range(count))})"

    def expr(self, names, depth, known, calls):
        """An expression over variables, with values that stay small. Calls stand only where a statement always makes them."""
        kinds = ["name", "name", "number"]
        if depth > 0:
            kinds += ["sum", "product", "bits", "shift", "quotient", "choice", "test"]
            if calls and known:
                kinds += ["call"] * 5
        kind = self.pick(kinds)
        one = lambda may=calls: self.expr(names, depth - 1, known, may)
        match kind:
            case "name":
                return self.pick(names) if names else self.small()
            case "number":
                return self.small()
            case "sum":
                return f"(({one()} & 255) {self.pick('+-')} ({one()} & 127))"
            case "product":
                return f"(({one()} & 31) * ({one()} & 15))"
            case "bits":
                return f"({one()} {self.pick('&|^')} {one()})"
            case "shift":
                return f"(({one()} & 63) {self.pick(['<<', '>>'])} ({one()} & 3))"
            case "quotient":
                return f"(({one()} & 255) {self.pick('/%')} (({one()} & 7) + 1))"
            case "choice":
                return f"({one()} ? {one(False)} : {one(False)})"
            case "test":
                return self.pick([f"({one()} < {one()})", f"({one()} && {one(False)})", f"({one()} || {one(False)})", f"!{one()}"])
            case "call":
                return self.call(names, depth, known)
        raise AssertionError(kind)

    def helper(self, place):
        """A helper, which may call those before it."""
        name, kind = f"h{place}", self.pick(TYPES)
        params = [(self.pick(TYPES), f"p{i}") for i in range(self.draws.randrange(1, 4))]
        names, known = [x for _, x in params], list(self.helpers)
        lines = []
        shape = self.pick(["local", "unset", "loop", "plain", "assigned"])
        if shape == "local":
            lines.append(f"{self.pick(TYPES)} t = {self.expr(names, 2, known, True)};")
            names = [*names, "t"]
        elif shape == "unset":
            cond = self.expr(names, 1, known, True)
            lines.append(f"int u; if ({cond}) u = {self.expr(names, 1, known, True)}; else {{ u = {self.small()}; u++; }}")
            names = [*names, "u"]
        elif shape == "loop":
            lines.append(f"int s = 0; for (int i = 0; i < ({self.pick(names)} & 3); i++) {{ s += {self.expr([*names, 'i'], 1, known, True)} & 63; if (s > 99) break; }}")
            names = [*names, "s"]
        elif shape == "assigned":
            lines.append(f"{names[0]} = {self.expr(names, 2, known, True)};")
        head = f"static {kind} {name}({', '.join(f'{t} {x}' for t, x in params)})"
        value = self.expr(names, 2, known, True)
        self.helpers.append((name, len(params)))
        return f"{head} {{ {' '.join(lines)} return {value}; }}"

    def statement(self, names):
        known, index = self.helpers, lambda: f"{self.call(names, 2, known)} & {LENGTH - 1}"
        number = self.draws.randrange(1000)
        match self.pick(["element", "compound", "step", "declared", "unset", "loop", "branch"]):
            case "element":
                return f"a[{index()}] = {self.expr(names, 2, known, True)};"
            case "compound":
                return f"b[{index()}] {self.pick(['+=', '-=', '^=', '|='])} {self.call(names, 2, known)} & 63;"
            case "step":
                return f"a[{index()}]{self.pick(['++', '--'])};"
            case "declared":
                return f"{{ {self.pick(TYPES)} v{number} = {self.call(names, 2, known)}, w{number} = v{number} & 7; b[w{number} & {LENGTH - 1}] = v{number}; }}"
            case "unset":
                return f"{{ int u{number}; if ({self.expr(names, 1, known, True)}) u{number} = {self.call(names, 1, known)}; else u{number} = {self.small()}; a[{self.draws.randrange(LENGTH)}] = u{number}; }}"
            case "loop":
                inner = f"b[i & {LENGTH - 1}] += {self.expr([*names, 'i'], 1, known, True)} & 31;"
                step = self.pick([f"i = i + ({self.call([*names, 'i'], 1, known)} & 3) + 1", "i++", f"i += 1 + ({self.call(['i'], 1, known)} & 1)"])
                return f"for (int i = {self.call(names, 1, known)} & 3; i < 9; {step}) {{ {self.pick(['', 'if (i == 5) continue; '])}{inner} }}"
            case "branch":
                return f"if ({self.call(names, 1, known)}) a[{index()}] ^= {self.small()}; else b[{self.draws.randrange(LENGTH)}] = {self.call(names, 1, known)};"
        raise AssertionError

    def program(self):
        """A program, with the type of its result."""
        helpers = [self.helper(place) for place in range(self.draws.randrange(3, 5))]
        names = ["x", "y"]
        body = [self.statement(names) for _ in range(self.draws.randrange(2, 4))]
        kind = self.pick(TYPES)
        kernel = f"{kind} f(int x, uint8_t y, int32_t a[{LENGTH}], {self.pick(['uint16_t', 'int16_t', 'unsigned'])} b[{LENGTH}])"
        text = " ".join([*helpers, kernel, "{", *body, f"return {self.call(names, 2, self.helpers)}; }}"])
        return text, kind


def size(text):
    """More than the nodes of the program's tree without calls: its tokens, each call with those of its helper."""
    sizes = {}
    for function in re.split(r"(?<=\}) (?=static |\w+ f\()", text):
        tokens = re.findall(r"\w+|<<|>>|&&|\|\||\S", function)
        name = tokens[tokens.index("(") - 1]
        sizes[name] = len(tokens) + sum(sizes.get(token, 0) for token in tokens if token != name)
    return sizes["f"]


def inputs(draws):
    values = {"x": [draws.randrange(-40, 200)], "y": [draws.randrange(256)]}
    values["a"] = [draws.randrange(-9, 99) for _ in range(LENGTH)]
    values["b"] = [draws.randrange(99) for _ in range(LENGTH)]
    return values


def as_text(values, names):
    return "".join(f"{name} = {' '.join(map(str, values[name]))}\n" for name in names)


def harness(text, kind, values):
    """The program with a main that runs it on the inputs and prints its results."""
    b_type = re.search(rf"(\w+) b\[{LENGTH}\]\) {{", text).group(1)
    rows = lambda name: ", ".join(map(str, values[name]))
    show = "".join(f'printf("{name} ="); for (int i = 0; i < {LENGTH}; i++) printf(" %lld", (long long)({name}[i])); printf("\\n");' for name in "ab")
    return f"""#include <stdint.h>
#include <stdio.h>
{text}
int main(void) {{
  int32_t a[{LENGTH}] = {{{rows('a')}}}; {b_type} b[{LENGTH}] = {{{rows('b')}}};
  long long r = (long long)f({values['x'][0]}, {values['y'][0]}, a, b);
  {show} printf("return = %lld\\n", r); return 0;
}}
"""


def by_gcc(source, flags, folder):
    """What the program prints by gcc, or nothing where it does not end well."""
    path = pathlib.Path(folder, "p.c")
    path.write_text(source)
    built = subprocess.run(["gcc", "-std=c99", "-w", *flags, "-o", f"{folder}/p", path], capture_output=True, text=True)
    if built.returncode:
        sys.exit(built.stderr)
    try:
        ran = subprocess.run([f"{folder}/p"], capture_output=True, text=True, timeout=5)
    except subprocess.TimeoutExpired:
        return None
    return None if ran.returncode or ran.stderr else ran.stdout


def escaped(text):
    return text.replace("\\", "\\\\").replace("\n", "\\n").replace("\t", "\\t")


def main():
    words = argparse.ArgumentParser(description=__doc__, formatter_class=argparse.RawDescriptionHelpFormatter)
    words.add_argument("--seed", type=int, default=1)
    words.add_argument("--count", type=int, default=60)
    words.add_argument("form", choices=["kernels", "interpreted"])
    said = words.parse_args()
    draws, made = random.Random(said.seed), 0
    tests = ["-O1", "-fsanitize=undefined,address", "-fno-sanitize-recover=all", "-ftrapv"]
    with tempfile.TemporaryDirectory() as folder:
        while made < said.count:
            text, kind = Drawer(draws).program()
            values = inputs(draws)
            if size(text) > MOST:
                continue
            source = harness(text, kind, values)
            plain = by_gcc(source, tests, folder)
            if plain is None or plain != by_gcc(source, ["-O0", "-fwrapv"], folder):
                continue
            given = as_text(values, ["x", "y", "a", "b"])
            if said.form == "kernels":
                print(f"{escaped(text)}\t{escaped(given)}\t{escaped(plain)}")
            else:
                for call in ("ref k i", "ref k i --wrap"):
                    print(f"{call}\tk:{escaped(text)}\ti:{escaped(given)}\t\t0\t{escaped(plain)}\t")
            made += 1


if __name__ == "__main__":
    main()
