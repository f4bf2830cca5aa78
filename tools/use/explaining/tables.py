"""Values of arrays as C initializes them, and constants as `#define` can say them."""
import re

from explaining.constants import fitting
from explaining.source import FIXED, constant_type, value_of

CONTROL = {"n": 10, "t": 9, "r": 13, "0": 0, "a": 7, "b": 8, "f": 12, "v": 11, "\\": 92, "'": 39, '"': 34}


def pieces(text):
    """A list in braces as nested lists of texts; None where brackets do not fit."""
    whole, stack, part = [], [], ""
    for piece in re.findall(r"\"(?:\\.|[^\"\\])*\"|'(?:\\.|[^'\\])*'|[{},]|[^{},\"']+", text):
        if piece == "{":
            stack.append([])
        elif piece in ("}", ","):
            if not stack:
                return None
            if part.strip():
                stack[-1].append(part.strip())
            part = ""
            if piece == "}":
                done = stack.pop()
                if not stack:
                    return done
                stack[-1].append(done)
        else:
            part += piece
    return whole or None


def number_of(text, defines):
    """The value of one element."""
    char = re.fullmatch(r"'(\\?)(.)'", text, re.S)
    if char:
        return CONTROL.get(char.group(2)) if char.group(1) else ord(char.group(2))
    return value_of(re.sub(r"\(\s*(?:u?int\d+_t|unsigned|int|char|short)\s*\)", "", text), defines)


def filled(values, sizes, defines):
    """The numbers of an array in the order of its elements, with 0 for those that the list leaves out; None where one is not known."""
    if not sizes:
        if isinstance(values, list):
            return filled(values[0], sizes, defines) if values else [0]
        number = number_of(values, defines)
        return None if number is None else [number]
    rest = 1
    for size in sizes[1:]:
        rest *= size
    numbers = []
    flat = not any(isinstance(it, list) for it in values) if isinstance(values, list) else False
    if not isinstance(values, list):
        return None
    if flat and len(sizes) > 1:
        numbers = [number_of(it, defines) for it in values]
    else:
        for it in values:
            if isinstance(it, str) and it.lstrip().startswith(("[", ".")):
                return None
            part = filled(it, sizes[1:], defines)
            if part is None:
                return None
            numbers += part
    if None in numbers or sizes[0] is not None and len(numbers) > sizes[0] * rest:
        return None
    return numbers + [0] * ((sizes[0] * rest if sizes[0] is not None else len(numbers)) - len(numbers))


def initial(lengths, value, defines):
    """The lengths of a table, the first counted where it is left out, and its numbers, or None where they are not known."""
    sizes = [value_of(it, defines) if it.strip() else None for it in re.findall(r"\[([^\]]*)\]", lengths)]
    values = pieces(value.strip()) if value and value.strip().startswith("{") else None
    if None in sizes[1:] or values is None:
        return lengths, None
    numbers = filled(values, sizes, defines)
    if numbers is not None and sizes[0] is None:
        rest = 1
        for size in sizes[1:]:
            rest *= size
        lengths = re.sub(r"^\s*\[[^\]]*\]", f"[{-(-len(numbers) // rest)}]", lengths, count=1)
        numbers += [0] * (-len(numbers) % rest)
    return lengths, numbers


def spelled_constant(value, kind):
    """A number with the suffix that gives it the type that a constant of that type has in an expression."""
    value = fitting(value, kind) if kind in FIXED else value
    kind = "int32_t" if kind in FIXED and int(re.search(r"\d+", kind).group()) < 32 else kind
    suffix = {"uint32_t": "u", "int64_t": "ll", "uint64_t": "ull"}.get(kind, "")
    if value < 0:
        least = re.fullmatch(r"int(32|64)_t", kind or "") and value == -2 ** (int(kind[3:5]) - 1)
        plain = f"{-value - 1 if least else -value}{suffix}"
        return f"(-{plain}{' - 1' if least else ''})"
    return str(value) if constant_type(str(value)) == kind or kind not in FIXED else f"{value}{suffix}"
