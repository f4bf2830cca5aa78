"""What can be undefined at a place of a kernel: the operations whose place it is, by the grammar and the types of kernels."""
import re

from explaining.habits import ASSIGNING, Spot
from explaining.source import FIXED

LEVELS = [["||"], ["&&"], ["|"], ["^"], ["&"], ["==", "!="], ["<", ">", "<=", ">="], ["<<", ">>"], ["+", "-"], ["*", "/", "%"]]
LEVEL = {mark: at for at, marks in enumerate(LEVELS) for mark in marks}
TYPES = FIXED | {"int", "signed", "unsigned"}
COMPOUND = {"/=": "the divisor is 0, or the quotient out of range", "%=": "the divisor is 0, or the quotient out of range",
            "<<=": "the amount is negative or not below the width, or the result out of range",
            ">>=": "the amount is negative or not below the width"}
WORDS = {"+": "sum", "-": "difference", "*": "product"}


class Reader:
    """Reads the expression that begins at a token, and notes of each part that begins there what can be undefined."""

    def __init__(self, source, at):
        self.source, self.at, self.first, self.found = source, at, at, []

    def word(self, by=0):
        at = self.at + by
        return self.source.tokens[at].text if at < len(self.source.tokens) else ""

    def note(self, begins, text):
        if begins == self.first:
            self.found.append(text)

    def part(self, begins):
        return self.source.between(begins, self.at)

    def skip(self):
        """Goes behind the bracket that is open at the token."""
        self.at = min(self.source.partner(self.at) + 1, len(self.source.tokens))

    def expression(self, level):
        """An expression whose operators have at least this level; its type as (signed, width)."""
        begins, kind = self.at, self.unary()
        while LEVEL.get(self.word(), -1) >= level:
            mark, middle = self.word(), self.at + 1
            self.at += 1
            right = self.expression(LEVEL[mark] + 1)
            kind = self.joined(begins, middle, mark, kind, right)
        return kind

    def joined(self, begins, middle, mark, left, right):
        """Notes what a binary operation can have undefined; its type."""
        both, text = usual(left, right), self.part(begins)
        if mark in ("<<", ">>"):
            kind = promoted(left)
            self.note(begins, f"`{text}`: the amount `{self.part(middle)}` is negative, or not below {kind[1]}")
            if mark == "<<" and kind[0]:
                self.note(begins,
                          f"`{text}`: the left side is negative, or the result leaves the range of {named(kind)} (not with --wrap)")
            return kind
        if mark in ("/", "%"):
            self.note(begins, f"`{text}`: the divisor `{self.part(middle)}` is 0" +
                      (f", or -1 where the left side is the least number of {named(both)}" if both[0] else ""))
        elif mark in WORDS and both[0]:
            self.note(begins, f"`{text}`: the {WORDS[mark]} leaves the range of {named(both)} (not with --wrap)")
        return both if mark in ("*", "/", "%", "+", "-", "&", "^", "|") else (True, 32)

    def unary(self):
        begins, mark = self.at, self.word()
        if mark in ("-", "+", "~", "!"):
            self.at += 1
            kind = promoted(self.unary())
            if mark == "-" and kind[0]:
                self.note(begins,
                          f"`{self.part(begins)}`: the value is the least number of {named(kind)}, which has no opposite (not "
                          f"with --wrap)")
            return (True, 32) if mark == "!" else kind
        if mark == "(" and self.word(1) in TYPES:
            words = self.source.between(self.at + 1, self.source.partner(self.at))
            self.skip()
            self.unary()
            return type_of(words)
        return self.primary()

    def primary(self):
        begins, text = self.at, self.word()
        if text == "(":
            inner = Reader(self.source, self.at + 1)
            kind = inner.expression(0)
            self.skip()
            return kind
        self.at += 1
        kind, lengths, unset = declared(self.source, text, begins) if re.match("[A-Za-z_]", text) else (number_type(text), [],
                                                                                                        False)
        while self.word() == "[":
            self.skip()
        if lengths:
            ranges = " or ".join(f"outside 0 to {length - 1}" if isinstance(length, int)
                                 else f"not below {length}" for length in lengths)
            self.note(begins, f"`{self.part(begins)}`: an index is {ranges}" if len(lengths) == 1 else
                      f"`{self.part(begins)}`: an index is outside its dimension, " + " and ".join(f"0 to {it - 1}" for it in lengths))
        elif unset:
            self.note(begins, f"`{text}`: it has no value yet on some way here; give it one where it is declared, `= 0`")
        return kind


def promoted(kind):
    """The type after the integer promotions."""
    return (True, 32) if kind[1] < 32 else kind


def usual(left, right):
    """The common type of two operands."""
    left, right = promoted(left), promoted(right)
    width = max(left[1], right[1])
    return all(kind[0] for kind in (left, right) if kind[1] == width), width


def named(kind):
    return f"`{'' if kind[0] else 'u'}int{kind[1]}_t`"


def type_of(words):
    found = re.search(r"(u?)int(\d+)_t", words)
    return (not found.group(1), int(found.group(2))) if found else ("unsigned" not in words, 32)


def number_type(text):
    """The type of an integer constant."""
    digits = text.rstrip("uUlL")
    suffix = text[len(digits):].lower()
    value = int(digits, 8 if re.fullmatch("0[0-7]+", digits) else 0) if re.fullmatch(r"0[xX][0-9a-fA-F]+|\d+", digits) else 0
    octal = digits.startswith("0")
    for width in (32, 64):
        if "l" in suffix and width == 32:
            continue
        if "u" not in suffix and value < 2 ** (width - 1):
            return True, width
        if ("u" in suffix or octal) and value < 2 ** width:
            return False, width
    return False, 64


def declared(source, name, before):
    """The type of a name that is used at a token, the lengths of its dimensions, and whether it is declared without a value."""
    if name in source.defines:
        return number_type(source.defines[name]), [], False
    kind, lengths, unset = (True, 32), [], False
    for at in range(1, before):
        words = at - 1
        while words > 0 and source.tokens[words].text not in TYPES | {";", "{", "}", "("}:
            words -= 1
        token = source.tokens[at]
        if token.text == name and source.tokens[words].text in TYPES and source.tokens[at - 1].text in TYPES | {","}:
            found = re.match(rf"{name}((?:\s*\[\s*\w+\s*\])*)\s*(=?)", source.text[token.start:])
            sizes = [source.defines.get(it, it) for it in re.findall(r"\w+", found.group(1))]
            lengths = [int(it.rstrip("uUlL"), 0) if re.match(r"0[xX]|[1-9]", it) else 1 for it in sizes]
            kind = type_of(f"{source.tokens[words - 1].text} {source.tokens[words].text}")
            unset = not lengths and not found.group(2) and bool(Spot(source, at).braces)
    return kind, lengths, unset


def begin_level(source, at):
    """The least level of the operators that still belong to what begins at a token."""
    before = source.tokens[at - 1].text if at else ""
    two = source.tokens[at - 2] if at > 1 else None
    if before in ("-", "+") and (two is None
                                 or not (two.kind in ("name", "number") and two.text != "return" or two.text in (")", "]"))):
        return len(LEVELS)
    if before in ("~", "!") or before == ")" and two and two.text in TYPES:
        return len(LEVELS)
    return LEVEL[before] + 1 if before in LEVEL else 0


def possible(source, line, column):
    """What can be undefined at a place, one text for each."""
    at = source.at(line, column)
    if at == len(source.tokens):
        return []
    spot = Spot(source, at)
    if spot.is_name(0) and spot.text(1) == "(" and not spot.braces:
        return ["the kernel ended without a `return`: a way through it lacks one"]
    reader = Reader(source, at)
    kind = reader.expression(begin_level(source, at))
    mark, stepped = reader.word(), at and source.tokens[at - 1].text in ("++", "--")
    if mark in ("++", "--") or stepped:
        reader.found += [] if promoted(kind)[1] > kind[1] or not kind[0] else [
            f"`{reader.part(at)}`: one more, or one less, leaves the range of {named(kind)} (not with --wrap)"]
    elif mark in ASSIGNING and mark != "=":
        text = COMPOUND.get(mark) or (kind != (False, 32) and kind != (False, 64) and
                                      f"the result of `{mark[:-1]}` leaves the range of its type (not with --wrap)")
        reader.found += [f"`{reader.part(at)} {mark} ..`: {text}"] if text and mark not in ("&=", "|=", "^=") else []
    return reader.found
