"""Constant expressions of C: their values and types, by the rules for integers of C99 with `int` of 32 bits and `long` of 64."""
import re

LEVELS = [["||"], ["&&"], ["|"], ["^"], ["&"], ["==", "!="], ["<", ">", "<=", ">="], ["<<", ">>"], ["+", "-"], ["*", "/", "%"]]
WORD = re.compile(r"\s*(\d\w*|[A-Za-z_]\w*|<<|>>|<=|>=|==|!=|&&|\|\||[-+*/%&|^~!<>?:()])")
FIXED = {f"{sign}int{bits}_t" for sign in ("", "u") for bits in (8, 16, 32, 64)}
DEEPEST = 60


class NotConstant(Exception):
    """A text that is no constant expression, or one that C leaves undefined."""


def constant_type(text):
    """The type of an integer constant as C99 has it; None where it is none, False where no type holds it."""
    form = re.fullmatch(r"(0[xX][0-9a-fA-F]+|0[0-7]*|[1-9][0-9]*)([uU]?(?:ll|LL|[lL])?|(?:ll|LL|[lL])[uU])", text)
    if not form:
        return None
    digits, suffix = form.group(1), form.group(2).lower()
    value = int(digits, 8 if re.fullmatch("0[0-7]+", digits) else 0)
    for bits in (64,) if "l" in suffix else (32, 64):
        if "u" not in suffix and value < 2 ** (bits - 1):
            return f"int{bits}_t"
        if ("u" in suffix or digits.startswith("0")) and value < 2 ** bits:
            return f"uint{bits}_t"
    return False


def width(kind):
    return int(re.search(r"\d+", kind).group())


def fitting(value, kind):
    """A number as a type holds it."""
    value &= (1 << width(kind)) - 1
    return value - (1 << width(kind)) if kind[0] == "i" and value >> (width(kind) - 1) else value


def promoted(kind):
    return "int32_t" if width(kind) < 32 else kind


def usual(left, right):
    """The common type of two operands."""
    left, right = promoted(left), promoted(right)
    most = max(width(left), width(right))
    return f"{'u' if any(it[0] == 'u' and width(it) == most for it in (left, right)) else ''}int{most}_t"


class Reader:
    """Reads an expression; each part is a value and its type."""

    def __init__(self, text, defines):
        self.words, self.at, self.defines, self.depth = [], 0, defines, 0
        at = 0
        while text[at:].strip():
            found = WORD.match(text, at)
            if not found or len(self.words) > 400:
                raise NotConstant(text)
            self.words.append(found.group(1))
            at = found.end()

    def word(self):
        return self.words[self.at] if self.at < len(self.words) else ""

    def take(self, text):
        if self.word() != text:
            raise NotConstant(self.word())
        self.at += 1

    def whole(self):
        found = self.expression()
        if self.word():
            raise NotConstant(self.word())
        return found

    def expression(self):
        self.depth += 1
        if self.depth > DEEPEST:
            raise NotConstant("nesting")
        test = self.binary(0)
        if self.word() == "?":
            self.take("?")
            yes = self.expression()
            self.take(":")
            no = self.expression()
            kind = usual(yes[1], no[1])
            test = fitting((yes if test[0] else no)[0], kind), kind
        self.depth -= 1
        return test

    def binary(self, level):
        left = self.unary()
        while any(self.word() in LEVELS[at] for at in range(level, len(LEVELS))):
            own = next(at for at in range(len(LEVELS)) if self.word() in LEVELS[at])
            mark = self.word()
            self.at += 1
            left = joined(mark, left, self.binary(own + 1))
        return left

    def unary(self):
        mark = self.word()
        if mark in ("-", "+", "~", "!"):
            self.at += 1
            value, kind = self.unary()
            if mark == "!":
                return int(not value), "int32_t"
            kind = promoted(kind)
            return within({"-": -value, "+": value, "~": ~value}[mark], kind), kind
        if mark == "(" and self.at + 2 < len(self.words) and self.words[self.at + 1] in FIXED and self.words[self.at + 2] == ")":
            kind = self.words[self.at + 1]
            self.at += 3
            return fitting(self.unary()[0], kind), kind
        return self.primary()

    def primary(self):
        word = self.word()
        self.at += 1
        if word == "(":
            found = self.expression()
            self.take(")")
            return found
        text = self.defines.get(word, word)
        if text != word and not re.match(r"\d", text):
            if self.depth > DEEPEST // 2:
                raise NotConstant(word)
            return Reader(text, {name: value for name, value in self.defines.items() if name != word}).whole()
        kind = constant_type(text)
        if not kind:
            raise NotConstant(word)
        digits = text.rstrip("uUlL")
        return int(digits, 8 if re.fullmatch("0[0-7]+", digits) else 0), kind


def within(value, kind):
    """A result that a type holds; an unsigned one wraps."""
    if kind[0] == "i" and fitting(value, kind) != value:
        raise NotConstant("out of range")
    return fitting(value, kind)


def joined(mark, left, right):
    """The value and the type of a binary operation."""
    if mark in ("&&", "||"):
        both = (bool(left[0]), bool(right[0]))
        return int(all(both) if mark == "&&" else any(both)), "int32_t"
    if mark in ("<<", ">>"):
        kind, by = promoted(left[1]), right[0]
        if not 0 <= by < width(kind) or mark == "<<" and left[0] < 0:
            raise NotConstant("shift")
        return within(left[0] << by if mark == "<<" else left[0] >> by, kind), kind
    kind = usual(left[1], right[1])
    a, b = fitting(left[0], kind), fitting(right[0], kind)
    if mark in ("==", "!=", "<", ">", "<=", ">="):
        return int({"==": a == b, "!=": a != b, "<": a < b, ">": a > b, "<=": a <= b, ">=": a >= b}[mark]), "int32_t"
    if mark in ("/", "%"):
        if not b:
            raise NotConstant("zero divisor")
        quotient = abs(a) // abs(b) * (1 if (a < 0) == (b < 0) else -1)
        return within(quotient if mark == "/" else a - quotient * b, kind), kind
    return within({"+": a + b, "-": a - b, "*": a * b, "&": a & b, "|": a | b, "^": a ^ b}[mark], kind), kind


def typed_value(text, defines):
    """The value and the type of a constant expression over numbers and defined names; None where it is none."""
    try:
        return Reader(text, defines).whole()
    except (NotConstant, RecursionError):
        return None


def value_of(text, defines):
    """The value of a constant expression; None where it is none."""
    found = typed_value(text, defines)
    return None if found is None else found[0]
