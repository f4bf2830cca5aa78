#!/usr/bin/env python3
"""Writes rows of given_middle that try passes over block graphs: data/folded.tsv, selected.tsv and copied.tsv, graphs that are told, and
data/optimized.tsv, kernels. tools/oracles/answers.py writes their answers.

usage: tools/oracles/graph_cases.py"""
import pathlib
import sys

import loop_cases
import rule_cases
from blocks import Graph, mg
from by_c import wrapped
from divide import divided
from fold import fold
from select_arms import select
from walking import escaped

TOP = pathlib.Path(__file__).resolve().parent.parent.parent
DATA = TOP / "crates" / "given_middle" / "data"
TOLD = "the scalars, the arrays, the type of the result and the blocks of a graph, and a text of inputs; \\n \\t \\r \\\\ \\xHH are bytes"
KINDS = ("add", "sub", "mul", "and", "or", "xor", "shl", "shru", "shrs", "divu", "remu", "divs", "rems", "eq", "ne", "ltu", "leu", "lts", "les")
TESTS = KINDS[13:]


class Block:
    """A block that is written step by step; each step gives the number of its value."""

    def __init__(self, *args):
        self.args, self.steps = args, []

    def step(self, *words):
        self.steps.append(" ".join(map(str, words)))
        return len(self.args) + len(self.steps) - 1

    def const(self, width, value):
        return self.step("const", width, value)

    def store(self, array, at, value):
        self.step("store", array, self.const(64, at), value)

    def text(self, jump):
        return " ; ".join([" ".join(map(str, ("block", *self.args))), *self.steps, jump])


def line(what, scalars, arrays, result, blocks, inputs, most=None):
    return "\t".join([what, *([] if most is None else [str(most)]), scalars, arrays, result, blocks, escaped(inputs)])


def stored(what, width, values, inputs, narrow=False):
    """A graph of one block over x and y of a width, whose values are stored one after another; of 32 bits where they are narrow."""
    ty = f"u{32 if narrow else width}"
    block = Block(width, width)
    found = values(block)
    for at, value in enumerate(found):
        block.store(0, at, value)
    inputs = f"x = {inputs[0]}\ny = {inputs[1]}\nr = {' '.join('9' for _ in found)}\n"
    return line(what, f"u{width}:x u{width}:y", f"{ty}:r:{len(found)}", "", block.text("return"), inputs)


# ---- folding

def with_constants(op, width):
    def values(block):
        right = [block.step("two", op, 0, block.const(width, c)) for c in (0, 1, 2, 3, width, (1 << width) - 1)]
        left = [block.step("two", op, block.const(width, c), 0) for c in (0, 1, (1 << width) - 1)]
        return right + left + [block.step("two", op, 0, 0), block.step("two", op, 1, 0), block.step("two", op, 0, 1)]

    return values


def of_test(op, width):
    """What may be done with a test: t of x and y."""
    def values(block):
        t = block.step("two", op, 0, 1)
        no, yes = block.const(32, 0), block.const(32, 1)
        zero = block.step("one", "zero32", t)
        return [t, zero, block.step("one", "zero32", zero), block.step("two", "eq32", t, no), block.step("two", "eq32", yes, t), block.step("two", "ne32", no, t),
                block.step("two", "ne32", t, yes), block.step("two", "and32", t, yes), block.step("select", 32, t, yes, no), block.step("select", 32, t, no, yes),
                block.step("select", 32, zero, yes, no), block.step("two", "eq32", t, block.const(32, 2)), block.step("two", "xor32", t, yes)]

    return values


def of_zero(width):
    def values(block):
        zero = block.step("one", f"zero{width}", 0)
        again = block.step("one", "zero32", zero)
        thrice = block.step("one", "zero32", again)
        return [zero, again, thrice, block.step("two", f"eq{width}", 0, block.const(width, 0)), block.step("two", f"ne{width}", block.const(width, 0), 0),
                block.step("two", "ne32", zero, block.const(32, 0)), block.step("two", "and32", again, block.const(32, 1))]

    return values


def on_constants(width):
    """Each operation on two constants, the second also 0 and the greatest."""
    def values(block):
        return [block.step("two", f"{kind}{width}", block.const(width, (1 << (width - 1)) + 5), block.const(width, c)) for kind in KINDS[:13] for c in (3, 0, (1 << width) - 1)]

    return values


def tests_on_constants(width):
    def values(block):
        return [block.step("two", f"{kind}{width}", block.const(width, (1 << width) - 2), block.const(width, c)) for kind in TESTS for c in (1, (1 << width) - 2)]

    return values


def conversions(width):
    """Each conversion from a width to 64 bits and back, of the argument and of a constant."""
    def values(block):
        found = []
        for to in (8, 16, 32, 64):
            for value in (0, block.const(width, 1 << (width - 1))):
                ops = [f"s{width}to{to}", f"u{width}to{to}"] if to > width else [f"cut{width}to{to}"] if to < width else []
                for op in ops:
                    made = block.step("one", op, value)
                    found.append(made if to == 64 else block.step("one", f"u{to}to64", made))
        return found

    return values


def selects(width):
    def values(block):
        c = block.step("one", "s32to64", block.step("one", f"zero{width}" if width > 16 else "zero32", 0 if width > 16 else block.step("one", f"u{width}to32", 0)))
        t = block.step("one", "cut64to32", c)
        not_t, is_t = block.step("one", "zero32", t), block.step("two", "ne32", t, block.const(32, 0))
        one, other = block.const(width, 1), block.const(width, 0)
        return [block.step("select", width, *rest) for rest in (
            (t, 0, 1), (not_t, 0, 1), (is_t, 0, 1), (block.step("one", "zero32", not_t), 0, 1), (block.const(32, 5), 0, 1), (block.const(32, 0), 0, 1), (t, 1, 1),
            (t, one, other), (not_t, one, other), (t, other, one), (t, block.const(width, 1), one))]

    return values


def arithmetic():
    for width in (32, 64):
        least = 1 << (width - 1)
        for kind in KINDS:
            yield stored(f"{kind}{width} with a constant, and of one value", width, with_constants(f"{kind}{width}", width), (least, least + 7), kind in TESTS)
        for kind in TESTS:
            yield stored(f"tests of {kind}{width}", width, of_test(f"{kind}{width}", width), (least, 3), True)
        yield stored(f"zero{width}", width, of_zero(width), (0, least), True)
        yield stored(f"operations of {width} bits on constants", width, on_constants(width), (0, 0))
        yield stored(f"comparisons of {width} bits on constants", width, tests_on_constants(width), (0, 0), True)
    for width in (8, 16, 32, 64):
        yield stored(f"selects of {width} bits", width, selects(width), (0, 77))
        made = stored(f"conversions of {width} bits", width, conversions(width), ((1 << (width - 1)) + 1, 0))
        yield made.replace(f"\tu{width}:r:", "\tu64:r:")


# What is tried, the scalars, arrays, result, blocks and inputs of graphs with accesses and jumps.
ARRAY = "u64:n u64:m u32:v", "u32:a:8 u32:b:8"
ON_ARRAY = "n = {}\nm = {}\nv = 70\na = 0 1 2 3 4 5 6 7\nb = 10 11 12 13 14 15 16 17\n"
FOLDED = [
    ("a load after a load", *ARRAY, "u32", "block 64 64 32 ; load 0 0 ; load 0 0 ; load 0 1 ; two add32 3 4 ; two add32 6 5 ; return 7", (3, 5)),
    ("loads of two arrays at one address", *ARRAY, "u32", "block 64 64 32 ; load 0 0 ; load 1 0 ; load 1 0 ; two add32 3 4 ; two add32 6 5 ; return 7", (3, 5)),
    ("a load after a store", *ARRAY, "u32", "block 64 64 32 ; store 0 0 2 ; load 0 0 ; load 1 0 ; two add32 4 5 ; return 6", (3, 5)),
    ("a load after a store to what may be its address", *ARRAY, "u32", "block 64 64 32 ; store 0 0 2 ; load 1 1 ; store 0 1 4 ; load 0 0 ; return 6", (5, 5)),
    ("a load after a load and a store to surely another address", *ARRAY, "u32",
     "block 64 64 32 ; const 64 1 ; two add64 0 3 ; load 0 0 ; store 0 4 2 ; load 0 0 ; load 0 4 ; two add32 5 7 ; two add32 9 8 ; return 10", (3, 5)),
    ("constant addresses", *ARRAY, "u32", "block 64 64 32 ; const 64 2 ; const 64 3 ; load 0 3 ; store 0 4 2 ; load 0 3 ; load 0 4 ; two sub32 5 7 ; two add32 9 8 ; return 10", (3, 5)),
    ("a constant address and one that is not", *ARRAY, "u32", "block 64 64 32 ; const 64 2 ; load 0 3 ; store 0 0 2 ; load 0 3 ; two sub32 4 6 ; return 7", (2, 5)),
    ("one value with two constants, and with none", *ARRAY, "u32",
     "block 64 64 32 ; const 64 18446744073709551615 ; const 64 2 ; two add64 0 3 ; two add64 4 0 ; load 0 0 ; load 0 5 ; store 0 6 2 ; load 0 0 ; load 0 5 ; two sub32 7 10 ; two sub32 8 11 ; two or32 12 13 ; return 14",
     (3, 5)),
    ("a constant that is added to another value", *ARRAY, "u32", "block 64 64 32 ; const 64 1 ; two add64 0 3 ; two add64 1 3 ; load 0 4 ; store 0 5 2 ; load 0 4 ; two sub32 6 8 ; return 9", (3, 3)),
    ("an overwritten store", *ARRAY, "", "block 64 64 32 ; const 32 5 ; store 0 0 2 ; store 1 0 2 ; store 0 0 3 ; return", (3, 5)),
    ("an overwritten store with a load of the array between", *ARRAY, "u32", "block 64 64 32 ; const 32 5 ; store 0 0 2 ; load 0 1 ; store 0 0 3 ; return 5", (3, 3)),
    ("an overwritten store with a load of another array between", *ARRAY, "u32", "block 64 64 32 ; const 32 5 ; store 0 0 2 ; load 1 1 ; store 0 0 3 ; return 5", (3, 3)),
    ("an overwritten store whose load is known", *ARRAY, "u32", "block 64 64 32 ; const 32 5 ; store 0 0 2 ; load 0 0 ; store 0 0 3 ; return 5", (3, 3)),
    ("three stores to one address, one to another", *ARRAY, "", "block 64 64 32 ; const 32 5 ; store 0 0 2 ; store 0 1 3 ; store 0 0 3 ; store 0 0 2 ; return", (3, 3)),
    ("a store of the value that stands there", *ARRAY, "", "block 64 64 32 ; load 0 0 ; store 0 0 3 ; store 0 1 2 ; return", (3, 3)),
    ("a load past the array whose value nothing needs", *ARRAY, "u32", "block 64 64 32 ; load 0 0 ; load 0 0 ; return 2", (8, 3)),
    ("overwritten stores past the array", *ARRAY, "", "block 64 64 32 ; store 0 0 2 ; store 0 0 2 ; return", (8, 3)),
    ("a load after a store past the array", *ARRAY, "u32", "block 64 64 32 ; store 0 0 2 ; load 0 0 ; return 4", (9, 3)),
    ("steps that nothing needs", "u32:n", "", "u32", "block 32 ; const 32 7 ; two mul32 0 1 ; two add32 2 2 ; two divs32 3 0 ; return 0", None),
    ("an equal step, an equal one of another operation, and equal constants", "u32:n", "", "u32",
     "block 32 ; const 32 7 ; const 32 7 ; two mul32 0 1 ; two mul32 2 0 ; two add32 0 1 ; two sub32 3 4 ; two add32 6 5 ; const 64 7 ; one cut64to32 8 ; two add32 7 9 ; return 10", None),
    ("constants of equal value and other widths", "u32:n", "u8:a:2 u16:b:2", "", "block 32 ; const 8 1 ; const 16 1 ; const 64 1 ; store 0 3 1 ; store 1 3 2 ; return", None),
    ("a jump on a constant that holds", "u32:n", "", "u32", "block 32 ; const 32 4 ; if 1 1 0 else 2 1 | block 32 ; return 0 | block 32 ; two add32 0 0 ; return 1", None),
    ("a jump on a constant that does not hold", "u32:n", "", "u32", "block 32 ; const 32 0 ; if 1 1 0 else 2 1 | block 32 ; return 0 | block 32 ; const 32 9 ; return 1", None),
    ("a jump on a sum that is a constant", "u32:n", "", "u32", "block 32 ; two sub32 0 0 ; if 1 1 0 else 2 | block 32 ; return 0 | block ; const 32 9 ; return 0", None),
    ("a jump to one side", "u32:n", "", "u32", "block 32 ; if 0 1 0 else 1 0 | block 32 ; return 0", None),
    ("a jump to one block with two values", "u32:n", "", "u32", "block 32 ; const 32 3 ; if 0 1 0 else 1 1 | block 32 ; return 0", None),
    ("a jump to one block with two values that become one", "u32:n", "", "u32", "block 32 ; const 32 0 ; two add32 0 1 ; if 0 1 0 else 1 2 | block 32 ; return 0", None),
    ("a jump by a zero", "u32:n", "", "u32", "block 32 ; one zero32 0 ; if 1 1 0 else 2 0 | block 32 ; const 32 1 ; two sub32 0 1 ; return 2 | block 32 ; return 0", None),
    ("a jump by a zero of a zero", "u32:n", "", "u32", "block 32 ; one zero32 0 ; one zero32 1 ; if 2 1 0 else 2 0 | block 32 ; const 32 1 ; two sub32 0 1 ; return 2 | block 32 ; return 0", None),
    ("a jump by a comparison with 0", "u32:n", "", "u32", "block 32 ; const 32 0 ; two ne32 0 1 ; if 2 1 0 else 2 0 | block 32 ; const 32 1 ; two sub32 0 1 ; return 2 | block 32 ; return 0", None),
    ("a jump by a zero of a comparison with 0", "u32:n", "", "u32", "block 32 ; const 32 0 ; two ne32 1 0 ; one zero32 2 ; if 3 1 0 else 2 0 | block 32 ; const 32 1 ; two sub32 0 1 ; return 2 | block 32 ; return 0", None),
    ("a jump by a comparison of 64 bits with 0", "u64:n", "", "u64", "block 64 ; const 64 0 ; two ne64 0 1 ; if 2 1 0 else 2 0 | block 64 ; const 64 1 ; two sub64 0 1 ; return 2 | block 64 ; return 0", None),
    ("a loop", "u32:n", "", "u32", "block 32 ; const 32 0 ; go 1 0 1 | block 32 32 ; const 32 0 ; two add32 1 2 ; two ne32 0 2 ; if 4 2 0 3 else 3 3 | block 32 32 ; const 32 1 ; two sub32 0 2 ; const 32 4 ; two mul32 4 1 ; go 1 3 5 | block 32 ; return 0", None),
    ("blocks that nothing leads to are folded too", "u32:n", "", "u32", "block 32 ; return 0 | block 32 ; const 32 0 ; two add32 0 1 ; go 1 2", None),
    ("a graph of nothing", "", "", "", "block ; return", None),
    ("an endless loop", "u32:n", "", "", "block 32 ; go 1 0 | block 32 ; const 32 8 ; two mul32 1 0 ; go 1 2", None),
]


def told_folded():
    for what, scalars, arrays, result, blocks, numbers in FOLDED:
        usual = ("n = 5\n" if scalars else "") + ("a = 3 4\nb = 5 6\n" if arrays else "")
        yield line(what, scalars, arrays, result, blocks, ON_ARRAY.format(*numbers) if numbers else usual)


def examples():
    """The name, the text and the inputs of each kernel of examples/."""
    for kernel in sorted(TOP.glob("examples/*/kernel.c")):
        yield kernel.parent.name, kernel.read_text(), (kernel.parent / "inputs.txt").read_text()


def example_graphs():
    for name, text, inputs in examples():
        yield name, Graph.of_kernel(text), inputs


def folded():
    yield from arithmetic()
    yield from told_folded()
    for name, graph, inputs in example_graphs():
        yield line(f"examples/{name}", *graph.fields(), inputs)


# ---- selecting: what is tried, what a block may weigh, and the graph

LONG = 10_000
SUMS = lambda count, first=1: " ; ".join(f"two add32 {at} {at - 1}" for at in range(first, first + count))


def diamond(yes, no, most=LONG):
    """Two arms over x and y, with steps that are told, each of which hands on its last value and y."""
    return most, f"block 32 32 ; two lts32 0 1 ; if 2 1 0 1 else 2 0 1 | block 32 32 ; {yes[0]} ; go 3 {yes[1]} 1 | block 32 32 ; {no[0]} ; go 3 {no[1]} 1 | block 32 32 ; two sub32 0 1 ; return 2"


SELECTED = [
    ("two arms", *diamond(("two add32 0 1", 2), ("two sub32 0 1", 2))),
    ("arms of cost 12", *diamond((SUMS(12), 13), (SUMS(12), 13))),
    ("an arm of cost 13, and one of 12", *diamond((SUMS(13), 14), (SUMS(12), 13))),
    ("an arm of cost 12, and one of 13", *diamond((SUMS(12), 13), (SUMS(13), 14))),
    ("arms of three products, and of twelve constants more", *diamond(("two mul32 0 1 ; two mul32 2 1 ; two mul32 3 1", 4), (" ; ".join(f"const 32 {at}" for at in range(12)) + " ; " + SUMS(12, 13), 25))),
    ("arms of three products and a sum", *diamond(("two mul32 0 1 ; two mul32 2 1 ; two mul32 3 3 ; two add32 4 1", 5), ("const 32 3", 2))),
    ("an arm with a division", *diamond(("two divu32 0 1", 2), ("const 32 3", 2))),
    ("an arm with a remainder", *diamond(("const 32 3", 2), ("two rems32 0 1", 2))),
    ("an arm without steps", LONG, "block 32 32 ; if 0 1 0 1 else 2 1 0 | block 32 32 ; go 2 1 1 | block 32 32 ; two sub32 0 1 ; return 2"),
    ("sides that meet at once", LONG, "block 32 32 ; if 0 1 0 1 else 1 1 0 | block 32 32 ; two sub32 0 1 ; return 2"),
    ("sides that meet at once, one pair twice and equal ones", LONG, "block 32 32 ; if 0 1 0 0 1 else 1 1 1 1 | block 32 32 32 ; two sub32 0 1 ; two add32 3 2 ; return 4"),
    ("the first side is an arm of the second", LONG, "block 32 32 ; if 0 1 0 1 else 2 1 0 | block 32 32 ; two add32 0 1 ; go 2 2 0 | block 32 32 ; two sub32 0 1 ; return 2"),
    ("the second side is an arm of the first", LONG, "block 32 32 ; if 0 1 0 1 else 2 1 0 | block 32 32 ; two sub32 0 1 ; return 2 | block 32 32 ; two add32 0 1 ; go 1 2 0"),
    ("both sides are one arm", LONG, "block 32 32 ; if 0 1 0 1 else 1 1 0 | block 32 32 ; two sub32 0 1 ; go 2 2 | block 32 ; two add32 0 0 ; return 1"),
    ("an arm that another block leads to too", LONG,
     "block 32 32 ; if 0 1 0 1 else 4 1 | block 32 32 ; if 1 2 0 1 else 3 0 1 | block 32 32 ; two add32 0 1 ; go 5 2 | block 32 32 ; two sub32 0 1 ; go 5 2 | block 32 ; two add32 0 0 ; go 3 1 0 | block 32 ; return 0"),
    ("an arm with a load", *diamond(("one u32to64 0 ; load 0 2", 3), ("const 32 3", 2))),
    ("an arm with a store", *diamond(("one u32to64 0 ; store 0 2 1", 0), ("const 32 3", 2))),
    ("an arm that returns", LONG, "block 32 32 ; if 0 1 0 1 else 2 1 0 | block 32 32 ; two add32 0 1 ; return 2 | block 32 32 ; two sub32 0 1 ; return 2"),
    ("an arm that chooses", LONG, "block 32 32 ; if 0 1 0 1 else 2 0 | block 32 32 ; if 1 2 0 else 2 1 | block 32 ; return 0"),
    ("a choice before its inner one, which alone becomes a select", LONG,
     "block 32 32 ; if 0 1 0 1 else 4 0 1 | block 32 32 ; if 1 2 0 1 else 3 0 1 | block 32 32 ; two add32 0 1 ; go 5 2 | block 32 32 ; two sub32 0 1 ; go 5 2 | block 32 32 ; two xor32 0 1 ; go 5 2 | block 32 ; return 0"),
    ("a choice behind its inner one", LONG,
     "block 32 32 ; go 5 0 1 | block 32 32 ; two add32 0 1 ; go 4 2 | block 32 32 ; two sub32 0 1 ; go 4 2 | block 32 32 ; if 1 1 0 1 else 2 0 1 | block 32 ; return 0 | block 32 32 ; if 0 3 0 1 else 6 0 1 | block 32 32 ; two xor32 0 1 ; go 4 2"),
    ("both sides meet at the block itself", LONG,
     "block 32 32 ; go 1 0 1 | block 32 32 ; const 32 1 ; two sub32 0 2 ; two and32 0 2 ; if 4 2 3 1 else 3 3 1 | block 32 32 ; two add32 0 1 ; go 4 0 2 | block 32 32 ; two sub32 0 1 ; go 4 0 2 | block 32 32 ; if 0 1 0 1 else 5 1 | block 32 ; return 0"),
    ("a loop of one block that steps on by two sides", LONG, "block 32 32 ; go 1 0 1 | block 32 32 ; two and32 0 1 ; if 2 1 1 0 else 1 0 1"),
    ("an arm that is the block itself", LONG, "block 32 32 ; go 1 0 1 | block 32 32 ; two sub32 0 1 ; if 0 1 2 1 else 2 1 | block 32 ; return 0"),
    ("a block that would weigh what it may", *diamond(("two add32 0 1", 2), ("two sub32 0 1", 2), 9)),
    ("a block that would weigh one more", *diamond(("two add32 0 1", 2), ("two sub32 0 1", 2), 8)),
    ("values of 8, 16 and 64 bits", LONG,
     "block 32 32 ; one cut32to8 0 ; one cut32to16 1 ; one u32to64 0 ; const 8 7 ; const 16 7 ; const 64 7 ; if 0 1 2 3 4 else 1 5 6 7 | block 8 16 64 ; one u8to32 0 ; one u16to32 1 ; two add32 3 4 ; one cut64to32 2 ; two add32 5 6 ; return 7"),
    ("no condition", LONG, "block 32 32 ; go 1 0 | block 32 ; return 0"),
]


def selected():
    for what, most, blocks in SELECTED:
        has_array = "load" in blocks or "store" in blocks
        yield line(what, "u32:x u32:y", "u32:a:4" * has_array, "u32", blocks, "x = 3\ny = 5\n" + "a = 1 2 3 4\n" * has_array, most)
    for name, graph, inputs in example_graphs():
        made = fold(graph, divided)
        made = made.with_blocks(mg.merged(made.blocks))
        yield line(f"examples/{name}, folded and merged", *made.fields(), inputs, 10 * graph.nodes)
    for name, text, given in rule_cases.KERNELS[19:] + rule_cases.COSTS:
        graph = Graph.of_kernel(" ".join(text.split()))
        yield line(name, *graph.fields(), inputs_text(graph, given), 10 * graph.nodes)


# ---- copying: what is tried, what a block may weigh, and the graph

def turns(count, sums, end="return 0", most=LONG):
    """A loop of so many turns, each of so many sums of what stands: block 0 leads to it with constants."""
    body = f"const 32 1 ; two add32 0 2 ; two add32 1 3 ; {SUMS(sums - 1, 4)}".rstrip(" ;")
    return most, (f"block 32 32 ; const 32 0 ; go 1 2 0 | block 32 32 ; const 32 {count} ; two ltu32 0 2 ; if 3 2 0 1 else 3 1 | "
                  f"block 32 32 ; {body} ; go 1 3 {sums + 3} | block 32 ; {end}")


def empty_turns(count):
    return LONG, (f"block 32 32 ; const 32 0 ; go 1 2 | block 32 ; const 32 {count} ; two ltu32 0 1 ; if 2 2 0 else 3 | "
                  "block 32 ; const 32 1 ; two add32 0 1 ; go 1 2 | block ; const 32 7 ; return 0")


def by_way_of(count):
    """A decided block that leads into a loop back to it, by way of so many blocks."""
    chain = " | ".join(["block 32 ; go {} 0".format(5 + at) for at in range(count - 1)] + ["block 32 ; const 32 1 ; go 1 1 0"])
    return LONG, ("block 32 32 ; const 32 1 ; go 1 2 0 | block 32 32 ; if 0 2 1 else 3 1 | "
                  f"block 32 ; const 32 1 ; two sub32 0 1 ; if 0 4 2 else 3 0 | block 32 ; return 0 | {chain}")


def loads(count):
    """A block with so many loads that leads to a decided one with a load more."""
    steps = " ; ".join(f"const 64 {at} ; load 0 {2 * at + 2}" for at in range(count))
    return LONG, f"block 32 32 ; {steps} ; const 32 1 ; go 1 {2 * count + 2} | block 32 ; const 64 1090 ; load 0 1 ; if 0 2 2 else 2 0 | block 32 ; return 0"


COPIED = [
    ("a loop of four turns", *turns(4, 2)),
    ("a loop of no turn", *turns(0, 2)),
    ("96 steps more", *turns(96, 1)),
    ("97 steps more", *turns(97, 1)),
    ("192 steps that nothing needs at the end", *turns(1, 192, "const 32 0 ; two mul32 0 1 ; return 2")),
    ("193 steps that nothing needs at the end", *turns(1, 193, "const 32 0 ; two mul32 0 1 ; return 2")),
    ("4,087 of weight looked at", *empty_turns(408)),
    ("4,097 of weight looked at", *empty_turns(409)),
    ("a block that would weigh what it may", *turns(4, 2, most=15)),
    ("a block that would weigh one more", *turns(4, 2, most=14)),
    ("a loop whose block is the 16th that is seen behind the row", *by_way_of(13)),
    ("a loop whose block would be the 17th that is seen behind the row", *by_way_of(14)),
    ("1,024 accesses", *loads(1023)),
    ("1,025 accesses", *loads(1024)),
    ("two ways with a flag", LONG,
     "block 32 32 ; two ltu32 0 1 ; if 2 1 0 else 2 1 | block 32 ; const 32 4 ; go 3 1 0 | block 32 ; const 32 0 ; go 3 1 0 | block 32 32 ; if 0 4 1 else 5 1 | block 32 ; two add32 0 0 ; return 1 | block 32 ; two mul32 0 0 ; return 1"),
    ("a flag behind a block that only leads on", LONG,
     "block 32 32 ; const 32 1 ; go 1 2 0 | block 32 32 ; two add32 1 1 ; go 2 0 2 | block 32 32 ; if 0 3 1 else 4 1 | block 32 ; return 0 | block 32 ; two mul32 0 0 ; return 1"),
    ("blocks that lead on behind a decided one, and another decided one", LONG,
     "block 32 32 ; const 32 1 ; go 1 2 0 | block 32 32 ; if 0 2 0 1 else 5 1 | block 32 32 ; two add32 1 1 ; go 3 0 2 | block 32 32 ; two mul32 1 1 ; go 4 0 2 | block 32 32 ; one zero32 0 ; if 2 5 0 else 6 1 | block 32 ; return 0 | block 32 ; two xor32 0 0 ; two add32 0 1 ; go 5 2"),
    ("a block that leads on, and one that is not decided, behind a decided one", LONG,
     "block 32 32 ; const 32 1 ; go 1 2 0 | block 32 32 ; if 0 2 0 1 else 4 1 | block 32 32 ; two add32 1 1 ; go 3 2 | block 32 ; if 0 4 0 else 5 | block 32 ; return 0 | block ; const 32 9 ; return 0"),
    ("a return that nothing decides", LONG, "block 32 32 ; two add32 0 1 ; go 1 2 | block 32 ; two mul32 0 0 ; return 1"),
    ("a return behind a block that leads on, which nothing decides", LONG, "block 32 32 ; go 1 0 | block 32 ; two mul32 0 0 ; go 2 1 | block 32 ; return 0"),
    ("a row that comes back to its block", LONG, "block 32 32 ; go 1 0 | block 32 ; const 32 1 ; two sub32 0 1 ; go 2 1 2 | block 32 32 ; if 0 1 1 else 3 1 | block 32 ; return 0"),
    ("a block that leads to itself", LONG, "block 32 32 ; go 1 0 | block 32 ; const 32 1 ; two sub32 0 1 ; go 1 2"),
    ("conditions that are decided without an end", LONG, "block 32 32 ; const 32 1 ; go 1 2 | block 32 ; if 0 1 0 else 2 0 | block 32 ; return 0"),
    ("no condition but an own one", LONG, "block 32 32 ; const 32 1 ; if 2 1 0 else 1 1 | block 32 ; return 0"),
    ("loaded flags, and stores that are overwritten", LONG,
     "block 32 32 ; const 64 1 ; const 32 0 ; store 0 2 3 ; go 1 2 0 | block 64 32 ; load 0 0 ; if 2 2 1 else 3 0 1 | block 32 ; return 0 | block 64 32 ; const 32 5 ; store 0 0 2 ; store 0 0 1 ; load 0 0 ; two sub32 5 2 ; go 4 6 | block 32 ; const 32 0 ; two lts32 1 1 ; if 2 2 0 else 5 0 | block 32 ; const 32 3 ; two divu32 0 1 ; return 2"),
    ("a row over a block that has its own row", LONG,
     "block 32 32 ; go 3 0 1 | block 32 32 ; const 32 0 ; go 2 2 1 | block 32 32 ; if 0 4 1 else 5 1 | block 32 32 ; const 32 1 ; if 0 6 2 1 else 4 1 | block 32 ; return 0 | block 32 ; const 32 7 ; two remu32 0 1 ; return 2 | block 32 32 ; if 0 1 0 1 else 4 1"),
    ("a row behind a block that took one in", LONG,
     "block 32 32 ; if 0 2 0 1 else 1 0 1 | block 32 32 ; const 32 0 ; go 3 2 1 | block 32 32 ; const 32 1 ; go 3 2 1 | block 32 32 ; const 32 2 ; if 0 4 2 1 else 5 1 | block 32 32 ; go 3 0 1 | block 32 ; return 0"),
    ("values of 8, 16 and 64 bits", LONG,
     "block 32 32 ; one cut32to8 0 ; const 16 3 ; one u32to64 1 ; go 1 2 3 4 | block 8 16 64 ; one u16to32 1 ; if 3 2 0 1 2 else 3 2 | block 8 16 64 ; one u8to32 0 ; one u16to32 1 ; two add32 3 4 ; one u32to64 5 ; two add64 6 2 ; go 3 7 | block 64 ; one cut64to32 0 ; return 1"),
    ("a block that nothing leads to", LONG, "block 32 32 ; return 0 | block 32 ; const 32 1 ; go 2 1 0 | block 32 32 ; if 0 3 1 else 3 0 | block 32 ; two add32 0 0 ; return 1"),
    ("a graph that returns", LONG, "block 32 32 ; return 1"),
]


def copied():
    for what, most, blocks in COPIED:
        length = 4 if "store" in blocks else 1091
        has_array = "load" in blocks or "store" in blocks
        yield line(what, "u32:x u32:y", f"u32:a:{length}" * has_array, "u32", blocks, "x = 3\ny = 5\n" + f"a = {' '.join(map(str, range(1, length + 1)))}\n" * has_array, most)
    for name, graph, inputs in example_graphs():
        made = select(fold(graph, divided), 10 * graph.nodes)
        yield line(f"examples/{name}, folded and selected", *made.fields(), inputs, 10 * graph.nodes)
    for name, text, given in loop_cases.CASES:
        graph = Graph.of_kernel(" ".join(text.split()))
        yield line(name, *graph.fields(), inputs_text(graph, given), 10 * graph.nodes)


# ---- kernels

def inputs_text(graph, given):
    """The inputs of a kernel; an array that is not given is of zeros."""
    lines = [f"{name} = {wrapped(given[name], ty)}" for name, ty in graph.scalars]
    for name, ty, length in graph.arrays:
        lines.append(f"{name} = {' '.join(str(wrapped(value, ty)) for value in given.get(name, [0] * length))}")
    return "".join(f"{each}\n" for each in lines)


def optimized():
    for _, text, inputs in examples():
        yield f"{escaped(text)}\t{escaped(inputs)}"
    for _, text, given in rule_cases.KERNELS + rule_cases.COSTS + loop_cases.CASES:
        text = " ".join(text.split())
        yield f"{escaped(text)}\t{escaped(inputs_text(Graph.of_kernel(text), given))}"


def write(name, head, rows):
    rows = list(rows)
    (DATA / name).write_text("\n".join([f"# {head}", *rows, ""]))
    print(f"{name}: {len(rows)} rows")


def main(words):
    if words:
        sys.exit(__doc__)
    sys.setrecursionlimit(100_000)
    write("folded.tsv", f"what it is, {TOLD}", folded())
    write("selected.tsv", f"what it is, what a block may weigh, {TOLD}", selected())
    write("copied.tsv", f"what it is, what a block may weigh, {TOLD}", copied())
    write("optimized.tsv", "a kernel text and the text of its inputs; \\n \\t \\r \\\\ \\xHH are bytes", optimized())


if __name__ == "__main__":
    main(sys.argv[1:])
