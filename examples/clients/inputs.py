#!/usr/bin/env python3
"""A file of inputs for a kernel or a netlist, on the standard output.

    inputs.py FILE                        all zeros
    inputs.py FILE --counting             1 for the first scalar, 2 for the next, ..; 0 1 2 .. for the elements of an array
    inputs.py FILE --seed N [--most M]    numbers from -M to M (100 where nothing is said), drawn by the seed
    inputs.py FILE --seed 7 n=8 h=0       the same, but n is 8 and each element of h is 0

FILE is a kernel (a name that ends in .c) or a netlist, or `-`, a netlist on the standard input. No number leaves its type."""
import argparse
import random
import re
import sys

import netlist

WORDS = {"int": "i32", "signed": "i32", "signed int": "i32", "unsigned": "u32", "unsigned int": "u32"}
TYPES = {**WORDS, **{f"{'u' * (sign == 'u')}int{bits}_t": f"{sign}{bits}" for sign in "iu" for bits in (8, 16, 32, 64)}}


def header_of_kernel(path):
    """The scalars and the arrays of a kernel, as (name, type, number of elements), a scalar with None."""
    text = re.sub(r"/\*.*?\*/|//[^\n]*", " ", netlist.text_of(path), flags=re.S)
    sizes = dict(re.findall(r"^\s*#\s*define\s+(\w+)\s+(\w+)\s*$", text, re.M))
    text = re.sub(r"^\s*#.*$", "", text, flags=re.M)
    while "{" in text and text != (text := re.sub(r"\{[^{}]*\}", ";", text)):
        pass
    if "{" in text:
        sys.exit(f"{path}: a `{{` is never closed: `elastic compile {path}` says more")
    found = re.findall(r"\w+\s*\(([^()]*)\)\s*;", text)
    if not found:
        sys.exit(f"{path}: no kernel: a type, a name, parameters in parentheses and a block are looked for")
    parameters = [] if found[-1].strip() in ("", "void") else found[-1].split(",")
    return [parameter(path, " ".join(it.split()), sizes) for it in parameters]


def parameter(path, text, sizes):
    """The name, the type and the number of elements of one parameter."""
    form = re.fullmatch(r"([\w ]+?) (\w+) ?((?:\[ ?\w+ ?\] ?)*)", text)
    if not form or form.group(1) not in TYPES:
        sys.exit(f"{path}: the parameter `{text}` is none that a kernel may have: `elastic compile {path}` says more")
    count = 1
    for length in re.findall(r"\w+", form.group(3)):
        count *= number(path, sizes.get(length, length))
    return form.group(2), TYPES[form.group(1)], count if form.group(3) else None


def number(path, word):
    """The value of a number of C."""
    digits = word.rstrip("uUlL")
    try:
        return int(digits, 8 if re.fullmatch("0[0-7]+", digits) else 0)
    except ValueError:
        sys.exit(f"{path}: the length {word} is no number")


def header_of_netlist(path):
    """The same of a netlist."""
    net = netlist.load(path)
    return [(*scalar, None) for scalar in net.scalars] + list(net.arrays)


def fitting(value, kind):
    """The number of the type that has the lowest bits of the value."""
    bits = netlist.BITS[kind]
    value %= 1 << bits
    return value - (1 << bits) if kind[0] == "i" and value >> (bits - 1) else value


def numbers(header, way):
    """The line of each name; `way` gives a number for the number of the name and of the element (None in a scalar), and the type."""
    for at, (name, kind, count) in enumerate(header):
        values = [way(at, None, kind)] if count is None else [way(at, element, kind) for element in range(count)]
        yield name, [fitting(value, kind) for value in values]


def drawn(seed, most):
    """A way that draws numbers within the type, from -most to most."""
    draw = random.Random(seed)

    def way(_at, _element, kind):
        top = (1 << (netlist.BITS[kind] - (kind[0] == "i"))) - 1
        return draw.randint(-min(most, top) if kind[0] == "i" else 0, min(most, top))
    return way


def fixed(words, header, path):
    """The numbers that the words NAME=NUMBER give."""
    given = {}
    for word in words:
        form = re.fullmatch(r"(\w+)=(-?\d+)", word, re.ASCII)
        if not form or form.group(1) not in [name for name, _, _ in header]:
            sys.exit(f"{word}: NAME=NUMBER is looked for, and a name of {path}: {' '.join(name for name, _, _ in header)}")
        given[form.group(1)] = int(form.group(2))
    return given


def main():
    words = argparse.ArgumentParser(description=__doc__, formatter_class=argparse.RawDescriptionHelpFormatter)
    words.add_argument("file", metavar="FILE", help="a kernel (.c) or a netlist")
    words.add_argument("fixed", metavar="NAME=NUMBER", nargs="*", help="a scalar, or each element of an array, has this number")
    ways = words.add_mutually_exclusive_group()
    ways.add_argument("--counting", action="store_true", help="1, 2, .. for scalars and 0 1 2 .. for arrays")
    ways.add_argument("--seed", type=int, metavar="N", help="draw the numbers by this seed")
    words.add_argument("--most", type=int, default=100, metavar="M", help="draw from -M to M; 100 where nothing is said")
    given = words.parse_intermixed_args()
    header = (header_of_kernel if given.file.endswith(".c") else header_of_netlist)(given.file)
    same = fixed(given.fixed, header, given.file)
    if given.seed is not None:
        way = drawn(given.seed, abs(given.most))
    else:
        way = (lambda at, element, _: at + 1 if element is None else element) if given.counting else (lambda *_: 0)
    for (name, values), (_, kind, _) in zip(numbers(header, way), header):
        values = [fitting(same[name], kind)] * len(values) if name in same else values
        print(name, "=", *values)


if __name__ == "__main__":
    main()
