#!/usr/bin/env python3
"""Draws C functions as people write them, mends them by tools/use/mend.py, and compares gcc's results of the original with `elastic ref` of
the mended text.

    tools/oracles/draw_foreign.py --program PROGRAM [--count N] [--seed N] [--keep FOLDER]

The functions have steps and assignments inside conditions, indices and arguments, commas, `switch` with cases that go on, `do` with
`continue`, `bool`, narrow types, tables, pointers that move, helpers with several returns and with arrays. They are drawn so that C
leaves none of their runs undefined: what an expression changes is not used beside. Those with more than 1,024 nodes are passed over."""
import argparse
import os
import pathlib
import random
import sys
import tempfile

import with_gcc

sys.path.insert(0, str(pathlib.Path(__file__).resolve().parents[1] / "use"))
import mend  # noqa: E402  (its folder was just named)

TYPES = {"u": "unsigned", "c": "unsigned char", "s": "short", "i": "int", "l": "unsigned long long", "b": "bool"}
LENGTH = 8
HEAD = """#include <stdint.h>
#include <stdbool.h>
#define MASK 7
#define LAST (MASK - 1)
#define MIX(x, y) (((x) ^ (unsigned)(y) << 1) & 0xfff)
enum kind { NONE, SOME = 3, ALL };
static const unsigned char table[8] = {3, 1, 4, 1, 5, 9, 2, 6};
static unsigned total = 5;
static int pick(int x, unsigned y)
{
    if (x > 40)
        return y & 63;
    switch (x & 3) {
    case 0: return 7;
    case 1: x += 2; break;
    default: if (y & 1) return x; x = 9;
    }
    return x + table[y & MASK];
}
static int plain(int x, int y)
{
    for (int i = 0; i < 3; i++) {
        if (x > y) return x - i;
        x += 5;
    }
    return y ? x : 1;
}
static void put(unsigned *to, int at, unsigned v)
{
    if (v == 3) return;
    to[at & MASK] += v;
    total ^= v;
}
static unsigned next(unsigned *a)
{
    unsigned r = *a;
    while (r-- > 4)
        *a += 1 + (r & 1);
    return r & 0xff;
}
"""


class Drawer:
    """Draws one function."""

    def __init__(self, seed):
        self.draw = random.Random(seed)
        self.count = self.fuel = 0

    def pick(self, *choices):
        return self.draw.choice(choices)

    def read(self, names):
        """A value that changes nothing."""
        name = self.draw.choice(sorted(names) or ["n"])
        return self.pick(name, name, str(self.draw.randint(0, 20)), f"a[{name} & MASK]", f"table[{name} & 7]", "LAST", "SOME",
                         f"(unsigned char){name}")

    def change(self, free, fixed):
        """A value that changes one variable, which nothing beside it uses."""
        name = self.draw.choice(sorted(free))
        others = fixed
        return self.pick(f"{name}++", f"{name}--", f"++{name}", f"--{name}", f"({name} = {self.read(others)})", f"a[{name}++ & MASK]",
                         f"({name} ^= {self.read(others)})", f"a[++{name} & 7]", f"pick({name}++ & 63, {self.read(others)})")

    def value(self, free, fixed, depth):
        """An expression that may change the free variables and reads the fixed ones."""
        if depth <= 0 or self.draw.random() < 0.15:
            return self.change(free, fixed) if free and self.draw.random() < 0.4 else self.read(fixed | free)
        form = self.draw.randrange(10)
        halves = self.halves(free)
        if form < 3:
            op = self.pick("+", "-", "&", "|", "^")
            return f"({self.value(halves[0], fixed, depth - 1)} {op} {self.value(halves[1], fixed, depth - 1)})"
        if form == 3:
            return f"({self.value(halves[0], fixed, depth - 1)} {self.pick('<', '>', '==', '!=', '<=')} {self.value(halves[1], fixed, depth - 1)})"
        if form == 4:
            return f"({self.value(free, fixed, depth - 1)} {self.pick('&&', '||')} {self.value(free, fixed, depth - 1)})"
        if form == 5:
            return (f"({self.value(free, fixed, depth - 1)} ? {self.value(free, fixed, depth - 1)} : "
                    f"{self.value(free, fixed, depth - 1)})")
        if form == 6:
            return f"({self.value(free, fixed, depth - 1)}, {self.value(free, fixed, depth - 1)})"
        if form == 7:
            return f"{self.pick('!', '~')}{self.value(free, fixed, depth - 1)}"
        if form == 8:
            return f"plain({self.value(halves[0], fixed, depth - 1)} & 127, {self.value(halves[1], fixed, depth - 1)} & 63)"
        return f"MIX({self.read(fixed)}, {self.value(free, fixed, 0) if not free else self.read(fixed)})"

    def halves(self, free):
        names = sorted(free)
        self.draw.shuffle(names)
        cut = self.draw.randint(0, len(names))
        return set(names[:cut]), set(names[cut:])

    def split(self, names):
        """Free and fixed ones of some names; the counters of loops are neither."""
        free = {name for name in names if self.draw.random() < 0.4}
        return free, (names - free) or {"n"}

    def expression(self, names, depth=2):
        return self.value(*self.split(names), depth)

    def masked(self, name, value):
        """A value that a variable may take so that later sums stay in range."""
        return f"({value}) & 0xfff" if name[0] in "isl" else value

    def statement(self, names, depth, loop):
        """A statement, in lines."""
        form = self.draw.randrange(15 if depth > 0 else 8)
        name = self.draw.choice(sorted(names))
        free, fixed = self.split(names - {name})
        if form == 0:
            return [f"{name} = {self.masked(name, self.value(free, fixed, 2))};"]
        if form == 1:
            return [f"{name} {self.pick('^=', '|=', '&=')} {self.value(free, fixed, 1)} & 0xff;"]
        if form == 2:
            return [f"a[{self.value(free, fixed, 1)} & MASK] {self.pick('=', '+=', '^=')} {self.read(fixed)};"]
        if form == 3:
            other = self.draw.choice(sorted(names - {name}))
            return [f"{name} = {other} = {self.masked(name, self.masked(other, self.value(free - {other}, fixed - {other} or {'n'}, 1)))};"]
        if form == 4:
            return [f"{self.pick(f'put(a, {name}++, {self.read(fixed)})', f'u = next(a)', f'total += {self.read(fixed)}', f'put(&a[1], 3, total)')};"]
        if form == 5:
            return [f"*p{self.pick('++', '')} = {self.read(fixed)};", "p = a + (n & 3);"]
        if form == 6:
            return [f"{name}{self.pick('++', '--')};"]
        if form == 7:
            jump = self.pick("break", "continue") if loop else "return u" if self.draw.random() < 0.2 else "u++"
            return [f"if ({self.expression(names)}) {jump};"]
        return self.larger(names, depth, loop, form)

    def larger(self, names, depth, loop, form):
        inner = lambda inside: self.block(names, depth - 1, inside)
        condition = self.expression(names)
        if form in (8, 9):
            return [f"if ({condition}) {{", *inner(loop), *(["} else {", *inner(loop)] if self.draw.random() < 0.5 else []), "}"]
        self.fuel += 1
        fuel = f"k{self.fuel}"
        turns = self.draw.randint(1, 5)
        if form == 10:
            return [f"int {fuel} = {turns};", f"while ({fuel}-- > 0 && ({condition})) {{", *inner(True), "}"]
        if form == 11:
            return [f"int {fuel} = {turns};", "do {", *inner(True), f"}} while (--{fuel} > 0 && {condition});"]
        if form == 12:
            name = self.draw.choice(sorted(names))
            other = f"z{self.fuel}"
            return [f"for (int {fuel} = 0, {other} = 9; {fuel} < {turns}; {fuel}++, {name}++, {other} -= 2) {{", *inner(True),
                    f"u ^= {other} & 15;", "}"]
        if form == 13:
            lines = [f"switch ({self.expression(names, 1)} & 7) {{"]
            for label in self.draw.sample(range(8), 4):
                lines += [f"case {label}:", *inner_case(self, names, depth, loop)]
            return [*lines, "default:", *self.block(names, 0, loop), "}"] if self.draw.random() < 0.7 else [*lines, "}"]
        self.count += 1
        name = f"{self.pick(*'ucsb')}{self.count}"
        return ["{", f"{TYPES[name[0]]} {name} = {self.expression(names)};", *self.block(names | {name}, depth - 1, loop), "}"]

    def block(self, names, depth, loop):
        return [line for _ in range(self.draw.randint(1, 3)) for line in self.statement(names, depth, loop)]

    def text(self):
        names = {"u", "c", "s", "i", "l", "b"}
        lines = [HEAD, "unsigned f(int n, unsigned a[8], const unsigned char *restrict q)", "{", "unsigned *p = a;"]
        lines += [f"{kind} {name} = {self.draw.randint(0, 9)};" for name, kind in TYPES.items()]
        lines += ["u += *q++;", "c = q[1];"] * self.draw.randint(0, 1)
        for _ in range(4):
            lines += self.statement(names, 2, False)
        return "\n".join([*lines, "a[0] ^= u + c + s + i + l + b + total;", "return u;", "}", ""])


def inner_case(drawer, names, depth, loop):
    """The statements of a case, with `break` at its end, inside or not at all."""
    lines = drawer.block(names, 0, loop)
    way = drawer.draw.randrange(3)
    if way == 0:
        return [*lines, "break;"]
    return [*lines, f"if ({drawer.read(names)} & 1) break;", *drawer.block(names, 0, loop), "break;"] if way == 1 else lines


def tried(program, seed, folder):
    """What differs for a drawn function, or None; `passed` where it is too large."""
    draw = random.Random(seed + 1_000_000)
    kernel, out, inputs = (pathlib.Path(folder, name) for name in ("drawn.c", "mended.c", "inputs.txt"))
    kernel.write_text(Drawer(seed).text())
    try:
        text, _, added = mend.mended(str(kernel), "f", {"q": LENGTH})
    except mend.Refused as refused:
        return f"line {refused.line}: {refused.why}"
    out.write_text(text)
    wrong = mend.compiled(program, text)
    if " 13 " in wrong or " 15 " in wrong or " 12 " in wrong:
        return "passed"
    if wrong:
        return wrong
    for _ in range(3):
        lines = [f"n = {draw.randint(0, 9)}", "a = " + " ".join(str(draw.randint(0, 12)) for _ in range(LENGTH)),
                 "q = " + " ".join(str(draw.randint(0, 255)) for _ in range(LENGTH))]
        inputs.write_text("\n".join(lines + [f"{name} = {' '.join(map(str, values))}" for name, values in added] + [""]))
        said = with_gcc.agree(program, kernel, out, inputs)
        if said:
            return said
    return None


def main():
    words = argparse.ArgumentParser(description=__doc__, formatter_class=argparse.RawDescriptionHelpFormatter)
    words.add_argument("--program", required=True, type=os.path.abspath)
    words.add_argument("--count", type=int, default=60)
    words.add_argument("--seed", type=int, default=1)
    words.add_argument("--keep", metavar="FOLDER", help="keeps the functions that differ")
    given = words.parse_args()
    same, passed, wrong = 0, 0, []
    for seed in range(given.seed, given.seed + given.count):
        with tempfile.TemporaryDirectory() as folder:
            said = tried(given.program, seed, folder)
            if said and said != "passed":
                wrong.append(f"seed {seed}: {said}")
                if given.keep:
                    for name in ("drawn.c", "mended.c", "inputs.txt"):
                        if pathlib.Path(folder, name).exists():
                            pathlib.Path(given.keep, f"{seed}_{name}").write_text(pathlib.Path(folder, name).read_text())
        same, passed = same + (said is None), passed + (said == "passed")
    print(f"drawn functions: {same} have gcc's results, {passed} are too large, {len(wrong)} differ")
    print("\n".join(wrong), end="\n" * bool(wrong))
    sys.exit(bool(wrong))


if __name__ == "__main__":
    main()
