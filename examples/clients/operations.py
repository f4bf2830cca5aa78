"""The operations of nets on patterns, by docs/FORMATS.md, section 6."""
import re


def signed(value, width):
    return value - (1 << width) if value >> (width - 1) & 1 else value


def divided(left, right):
    """The quotient, truncated toward zero, and the remainder; 0 and 0 for the divisor 0."""
    quotient = abs(left) // abs(right) * (1 if (left < 0) == (right < 0) else -1) if right else 0
    return quotient, left - quotient * right if right else 0


def operation2(name, left, right):
    """The result of an operation of two operands."""
    width, kind = int(name[-2:]), name[:-2]
    mask = (1 << width) - 1
    left, right = left & mask, right & mask
    low, high, by = signed(left, width), signed(right, width), right % width
    ways = {"add": lambda: left + right, "sub": lambda: left - right, "mul": lambda: left * right, "and": lambda: left & right,
            "or": lambda: left | right, "xor": lambda: left ^ right, "shl": lambda: left << by, "shru": lambda: left >> by,
            "shrs": lambda: low >> by, "divu": lambda: divided(left, right)[0], "remu": lambda: divided(left, right)[1],
            "divs": lambda: divided(low, high)[0], "rems": lambda: divided(low, high)[1], "eq": lambda: left == right,
            "ne": lambda: left != right, "ltu": lambda: left < right, "leu": lambda: left <= right, "lts": lambda: low < high,
            "les": lambda: low <= high}
    return int(ways[kind]()) & mask


def operation1(name, value):
    """The result of an operation of one operand."""
    form = re.fullmatch(r"(s|u|cut)(\d+)to(\d+)", name)
    if form:
        before, after = int(form.group(2)), int(form.group(3))
        value &= (1 << before) - 1
        return (signed(value, before) if form.group(1) == "s" else value) & ((1 << after) - 1)
    mask = (1 << int(name[-2:])) - 1
    value &= mask
    return {"neg": -value & mask, "not": value ^ mask, "zero": int(value == 0)}[name[:-2]]
