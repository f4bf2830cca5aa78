"""Folding: each block made anew from left to right, with a table from its old values to its new ones.

Each step is renamed by the table, and then the first rule that fits is taken; the steps that a rule makes go through the rules too, eight
deep. A pure step that stands in the block already is that value. `TAKEN` counts the rules that were taken, by their names."""
import collections

from blocks import (TESTS, Word, is_conversion, is_pure, kind_of, one_result, renamed, two_result, width_out, widths_in, with_values,
                    without_dead, without_overwritten)
from divide import Division

COMMUTE = ("add", "mul", "and", "or", "xor", "eq", "ne")
OPPOSITE = {"eq": "ne", "ne": "eq"}
TURNED = {"ltu": "leu", "lts": "les", "leu": "ltu", "les": "lts"}
DIVISIONS = ("divu", "remu", "divs", "rems")
# How deep the steps that rules make go through rules, how many tests around a condition are left out, and how deep the greatest value of
# a value is looked for.
DEPTH, MOST_TESTS, MOST_LOOKS = 8, 8, 8
ANY_TOP = (1 << 64) - 1
TAKEN = collections.Counter()


class Folder:
    """A block under construction. `divided` is the rule of divisions by constants, or None. A rule gives None where it does not fit, else
    its name and what a step becomes: a value, or a list of steps, which are numbered from the next value on."""

    def __init__(self, args, divided=None):
        self.args, self.steps, self.divided = list(args), [], divided
        self.stands, self.held = {}, {}

    # ---- what is known of a value

    def count(self):
        return len(self.args) + len(self.steps)

    def step(self, value):
        return self.steps[value - len(self.args)] if value >= len(self.args) else ("argument",)

    def const(self, value):
        step = self.step(value)
        return step[2] if step[0] == "const" else None

    def is_zero(self, value):
        """Whether the value is that of zero32 or zero64."""
        step = self.step(value)
        return step[0] == "one" and not is_conversion(step[1]) and kind_of(step[1])[0] == "zero"

    def is_test(self, value):
        """Whether the value is that of a comparison or of a zero, and so 0 or 1."""
        step = self.step(value)
        return self.is_zero(value) or step[0] == "two" and kind_of(step[1])[0] in TESTS

    # ---- a step at the end, or the equal one that stands there

    def append(self, step):
        self.steps.append(step)
        return self.count() - 1

    def add(self, step):
        """A pure step."""
        if step in self.stands:
            TAKEN["an equal step"] += step[0] != "const"
            return self.stands[step]
        self.stands[step] = self.append(step)
        return self.stands[step]

    def put(self, step, depth=DEPTH):
        """The value of a pure step, put by the rules."""
        found = self.rewritten(step) if depth else None
        if found is None:
            return self.add(step)
        rule, made = found
        TAKEN[rule] += 1
        if not isinstance(made, list):
            return made
        first, numbers = self.count(), []
        for each in made:
            numbers.append(self.put(renamed(each, lambda value: value if value < first else numbers[value - first]), depth - 1))
        return numbers[-1]

    def rewritten(self, step):
        kind, *words = step
        return {"const": lambda width, value: None, "one": self.one, "two": self.two, "select": self.select}[kind](*words)

    # ---- operations

    def one(self, op, a):
        value = self.const(a)
        if value is not None:
            return "a constant", [constant(width_out(op), one_result(op, value))]
        return self.zero(a) if op in ("zero32", "zero64") else None

    def zero(self, a):
        """A test for 0 of a value that is itself told by a test."""
        step = self.step(a)
        if step[0] == "two":
            kind, width = kind_of(step[1])
            if kind in OPPOSITE:
                return "zero of an equality", [("two", f"{OPPOSITE[kind]}{width}", step[2], step[3])]
            if kind in TURNED:
                return "zero of an order", [("two", f"{TURNED[kind]}{width}", step[3], step[2])]
        return ("zero of zero of a test", step[2]) if self.is_zero(a) and self.is_test(step[2]) else None

    def two(self, op, a, b):
        (kind, width), left, right = kind_of(op), self.const(a), self.const(b)
        if left is not None and right is not None:
            return "a constant", [constant(width_out(op), two_result(op, left, right))]
        if left is not None:
            if kind in COMMUTE:
                return "operands in order", [("two", op, b, a)]
            return ("0 - x", [("one", f"neg{width}", b)]) if (kind, left) == ("sub", 0) else None
        if right is not None:
            return self.of_constant(kind, width, a, b, right) or self.of_division(kind, width, a, b, right)
        if a == b:
            return of_equals(kind, width, a)
        return ("operands in order", [("two", op, b, a)]) if kind in COMMUTE and a > b else None

    def of_constant(self, kind, width, a, b, right):
        """What the operation is for a constant as the second operand."""
        ones = (1 << width) - 1
        if kind in ("shl", "shru", "shrs") and right % width == 0:
            return "a shift by 0", a
        if right == 0 and kind in ("add", "sub", "or", "xor"):
            return "x + 0, x - 0, x | 0, x ^ 0", a
        if right == 0 and kind in ("mul", "and"):
            return "x * 0, x & 0", b
        if right == 1 and kind in ("mul", "divu", "divs"):
            return "x * 1, x / 1", a
        if right == 1 and kind in ("remu", "rems"):
            return "x % 1", [constant(width, 0)]
        if right == ones and kind in ("and", "or"):
            return "x & ~0, x | ~0", a if kind == "and" else b
        if right == ones and kind == "xor":
            return "x ^ ~0", [("one", f"not{width}", a)]
        if right == 1 and kind == "and" and self.is_test(a):
            return "t & 1", a
        return self.of_test(kind, width, a, right) or self.of_power(kind, width, a, right)

    def of_test(self, kind, width, a, right):
        """A comparison with 0, and one of a test with 0 or 1."""
        if (kind, right) == ("eq", 0):
            return "x == 0", [("one", f"zero{width}", a)]
        if self.is_test(a) and (kind, right) in (("ne", 0), ("eq", 1)):
            return "t != 0, t == 1", a
        if self.is_test(a) and (kind, right) == ("ne", 1):
            return "t != 1", [("one", f"zero{width}", a)]
        return None

    def of_power(self, kind, width, a, right):
        """A product, an unsigned quotient or remainder by a power of two above 1."""
        if right < 2 or right & (right - 1):
            return None
        places, next_value = right.bit_length() - 1, self.count()
        if kind == "mul":
            return "x * 2^k", [constant(width, places), ("two", f"shl{width}", a, next_value)]
        if kind == "divu":
            return "x / 2^k, unsigned", [constant(width, places), ("two", f"shru{width}", a, next_value)]
        if kind == "remu":
            return "x % 2^k, unsigned", [constant(width, right - 1), ("two", f"and{width}", a, next_value)]
        return None

    def of_division(self, kind, width, a, b, right):
        """A division by a constant of at least 2 without its sign bit."""
        if not self.divided or kind not in DIVISIONS or not 1 < right < 1 << (width - 1):
            return None
        found = self.divided(kind, width, Division(self.count(), a, b, right, narrowed(width, self.top(a))))
        return (found[1], found[0]) if found else None

    # ---- choices

    def stripped(self, c):
        """A value that is 0 exactly where a condition is, or exactly where it is not, and whether it is the latter."""
        turned = False
        for _ in range(MOST_TESTS):
            step = self.step(c)
            if step[:2] == ("one", "zero32"):
                c, turned = step[2], not turned
            elif step[:2] == ("two", "ne32") and self.const(step[3]) == 0:
                c = step[2]
            else:
                break
            TAKEN["a condition of a test"] += 1
        return c, turned

    def select(self, width, condition, yes, no):
        c, turned = self.stripped(condition)
        yes, no = (no, yes) if turned else (yes, no)
        value, one, other = self.const(c), self.const(yes), self.const(no)
        if value is not None:
            return "a select on a constant", yes if value else no
        if yes == no:
            return "a select of equal sides", yes
        if width == 32 and (one, other) == (1, 0) and self.is_test(c):
            return "t ? 1 : 0", c
        if width == 32 and (one, other) == (0, 1):
            return "c ? 0 : 1", [("one", "zero32", c)]
        return None if c == condition else ("a select by another condition", [("select", width, c, yes, no)])

    # ---- accesses: an earlier one may tell what stands at an address

    def base(self, address):
        """The value (None for a constant address) to which a constant is added, and the constant."""
        number, step = self.const(address), self.step(address)
        if number is not None:
            return None, number
        if step[:2] == ("two", "add64") and self.const(step[3]) is not None:
            return step[2], self.const(step[3])
        return address, 0

    def surely_differ(self, one, other):
        """Whether two addresses are one value with different constants added."""
        (x, c), (y, d) = self.base(one), self.base(other)
        return x == y and c != d

    def load(self, array, address):
        held = self.held.setdefault(array, {})
        if address in held:
            TAKEN["a load of what is known"] += 1
        else:
            held[address] = self.append(("load", array, address))
        return held[address]

    def store(self, array, address, value):
        kept = {at: v for at, v in self.held.get(array, {}).items() if self.surely_differ(at, address)}
        self.held[array] = {**kept, address: value}
        return self.append(("store", array, address, value))

    # ---- the greatest that a value may be, for divisions

    def top(self, value, looks=MOST_LOOKS):
        """By so many steps before it; an argument and what is loaded may be anything."""
        kind, *words = self.step(value) if looks else ("argument",)
        if kind == "const":
            return words[1]
        if kind == "one":
            return greatest1(words[0], narrowed(widths_in(words[0]), self.top(words[1], looks - 1)))
        if kind == "two":
            width, right = widths_in(words[0]), self.const(words[2])
            x = narrowed(width, self.top(words[1], looks - 1))
            return greatest_by(words[0], x, right) if right else greatest2(words[0], x, narrowed(width, self.top(words[2], looks - 1)))
        if kind == "select":
            return max(self.top(words[2], looks - 1), self.top(words[3], looks - 1))
        return ANY_TOP

    # ---- the block

    def jump(self, jump):
        """The jump; on a constant, and where both sides are one, it is a Go."""
        if jump[0] != "if":
            return jump
        c, turned = self.stripped(jump[1])
        yes, no = (jump[3], jump[2]) if turned else jump[2:]
        value = self.const(c)
        TAKEN["a jump on a constant"] += value is not None
        TAKEN["a jump to one side"] += value is None and yes == no
        if value is not None:
            return "go", (yes if value else no)
        return ("go", yes) if yes == no else ("if", c, yes, no)

    def name(self, value, names):
        """Gives names to the step of a value."""
        at = value - len(self.args)
        if names and at >= 0:
            word, *words = self.steps[at]
            self.steps[at] = (Word.of(word, names), *words)

    def take(self, step):
        """The value of a step on new values."""
        value = self.put(step) if is_pure(step) else {"load": self.load, "store": self.store}[step[0]](*step[1:])
        self.name(value, getattr(step[0], "names", ()))
        return value


def constant(width, value):
    return "const", width, value & ((1 << width) - 1)


def of_equals(kind, width, a):
    """An operation on one value twice."""
    if kind in ("sub", "xor"):
        return "x - x, x ^ x", [constant(width, 0)]
    if kind in ("ne", "ltu", "lts"):
        return "x != x, x < x", [constant(32, 0)]
    if kind in ("eq", "leu", "les"):
        return "x == x, x <= x", [constant(32, 1)]
    return ("x & x, x | x", a) if kind in ("and", "or") else None


# ---- the greatest results

def narrowed(width, value):
    """No more than the greatest pattern of a width."""
    return min(value, (1 << width) - 1)


def greatest1(op, x):
    """Of an operand up to x."""
    if op.startswith("zero"):
        return 1
    if op.startswith("u"):
        return x
    if op.startswith("cut"):
        return narrowed(width_out(op), x)
    is_extended = is_conversion(op) and x < 1 << (widths_in(op) - 1)
    return x if is_extended else (1 << width_out(op)) - 1


def greatest2(op, x, y):
    """Of operands up to x and y."""
    kind, width = kind_of(op)
    if kind in TESTS:
        return 1
    if kind == "and":
        return min(x, y)
    if kind in ("or", "xor"):
        return (1 << max(x, y).bit_length()) - 1
    if kind in ("shru", "divu", "remu"):
        return x
    return narrowed(width, {"add": x + y, "mul": x * y}.get(kind, ANY_TOP))


def greatest_by(op, x, c):
    """Of a first operand up to x and a constant other than 0."""
    kind, width = kind_of(op)
    if kind == "shl":
        return narrowed(width, x << c % width)
    if kind == "shru":
        return x >> c % width
    if kind == "divu":
        return x // c
    return min(x, c - 1) if kind == "remu" else greatest2(op, x, c)


# ---- blocks and graphs

def fold_block(block, divided=None):
    """The block made anew, without overwritten stores and then without dead steps."""
    args, steps, jump = block
    folder, new = Folder(args, divided), list(range(len(args)))
    for step in steps:
        new.append(folder.take(renamed(step, new.__getitem__)))
    jump = folder.jump(with_values(jump, new.__getitem__))
    stored = without_overwritten((list(args), folder.steps, jump))
    TAKEN["an overwritten store"] += len(folder.steps) - len(stored[1])
    return without_dead(stored)


def fold(graph, divided=None):
    """Each block folded."""
    return graph.with_blocks([fold_block(block, divided) for block in graph.blocks])
