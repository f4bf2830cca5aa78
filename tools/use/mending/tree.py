"""The language of kernels as a tree: types, expressions with their types, statements, and their text."""
from dataclasses import dataclass, field, replace

PROMOTED = {8: "int32_t", 16: "int32_t"}
LEVELS = [["||"], ["&&"], ["|"], ["^"], ["&"], ["==", "!="], ["<", ">", "<=", ">="], ["<<", ">>"], ["+", "-"], ["*", "/", "%"]]
LEVEL = {mark: at for at, marks in enumerate(LEVELS) for mark in marks}
COMPARING = {"==", "!=", "<", ">", "<=", ">=", "&&", "||"}
BOOL = "bool"


# ---- types: the names of kernels' types, and `bool`, a uint8_t of 0 and 1

def bits(kind):
    return 8 if kind == BOOL else int("".join(it for it in kind if it.isdigit()))


def is_signed(kind):
    return kind != BOOL and not kind.startswith("u")


def promoted(kind):
    return "int32_t" if bits(kind) < 32 else kind


def usual(left, right):
    """The common type of two operands."""
    left, right = promoted(left), promoted(right)
    width = max(bits(left), bits(right))
    signed = all(is_signed(kind) for kind in (left, right) if bits(kind) == width)
    return f"{'' if signed else 'u'}int{width}_t"


def spelled(kind):
    return "uint8_t" if kind == BOOL else kind


def fitting(value, kind):
    """A number as a type holds it."""
    if kind == BOOL:
        return int(value != 0)
    value &= (1 << bits(kind)) - 1
    return value - (1 << bits(kind)) if is_signed(kind) and value >> (bits(kind) - 1) else value


# ---- expressions

@dataclass(frozen=True)
class Num:
    """A number; `text` is its spelling where it has one, as a name that `#define` gives it."""
    value: int
    type: str = "int32_t"
    text: str = ""


@dataclass(frozen=True)
class Var:
    name: str
    type: str


@dataclass(frozen=True)
class Index:
    """An element of an array."""
    array: str
    indices: tuple
    type: str


@dataclass(frozen=True)
class Un:
    op: str
    part: object
    type: str


@dataclass(frozen=True)
class Cast:
    part: object
    type: str


@dataclass(frozen=True)
class Bin:
    op: str
    left: object
    right: object
    type: str


@dataclass(frozen=True)
class Cond:
    test: object
    yes: object
    no: object
    type: str


@dataclass(frozen=True)
class Call:
    name: str
    args: tuple
    type: str


def number(value, kind="int32_t"):
    return Num(fitting(value, kind), kind)


def unary(op, part):
    return Un(op, part, "int32_t" if op == "!" else promoted(part.type))


def binary(op, left, right):
    if op in COMPARING:
        return Bin(op, left, right, "int32_t")
    return Bin(op, left, right, promoted(left.type) if op in ("<<", ">>") else usual(left.type, right.type))


def added(left, right):
    """A sum of indices; 0 adds nothing."""
    if isinstance(right, Num) and right.value == 0:
        return left
    if isinstance(left, Num) and left.value == 0:
        return right
    if isinstance(left, Num) and isinstance(right, Num) and not left.text and not right.text:
        return number(left.value + right.value)
    if isinstance(right, Num) and right.value < 0 and not right.text:
        return binary("-", left, replace(right, value=-right.value))
    if isinstance(right, Un) and right.op == "-":
        return binary("-", left, right.part)
    return binary("+", left, right)


def is_truth(part):
    """Whether an expression is 0 or 1 for certain."""
    return (isinstance(part, Bin) and part.op in COMPARING or isinstance(part, Un) and part.op == "!" or part.type == BOOL
            or isinstance(part, Num) and part.value in (0, 1))


def truth(part):
    """1 where a value is not 0, else 0."""
    return part if is_truth(part) else binary("!=", part, number(0))


def negation(part):
    """1 where a value is 0, else 0."""
    opposite = {"==": "!=", "!=": "==", "<": ">=", ">=": "<", ">": "<=", "<=": ">"}
    if isinstance(part, Bin) and part.op in opposite:
        return replace(part, op=opposite[part.op])
    return part.part if isinstance(part, Un) and part.op == "!" and is_truth(part.part) else unary("!", part)


def converted(part, kind):
    """A value as it is when a variable of a type has taken it."""
    return truth(part) if kind == BOOL else part


def children(part):
    if isinstance(part, Index):
        return list(part.indices)
    if isinstance(part, (Un, Cast)):
        return [part.part]
    if isinstance(part, Bin):
        return [part.left, part.right]
    if isinstance(part, Cond):
        return [part.test, part.yes, part.no]
    return list(part.args) if isinstance(part, Call) else []


def walk(part):
    yield part
    for it in children(part):
        yield from walk(it)


def constant(part):
    """The value of an expression of numbers alone; None where it is none, or C leaves it undefined."""
    if isinstance(part, Num):
        return part.value
    parts = [constant(it) for it in children(part)]
    if not parts or None in parts or isinstance(part, (Index, Call)):
        return None
    if isinstance(part, Cast):
        return fitting(parts[0], part.type)
    if isinstance(part, Cond):
        return parts[1] if parts[0] else parts[2]
    if isinstance(part, Un):
        value = {"-": -parts[0], "+": parts[0], "~": ~parts[0], "!": int(not parts[0])}[part.op]
        return within(value, part.type)
    return of_binary(part, *parts)


def within(value, kind):
    return fitting(value, kind) if not is_signed(kind) or fitting(value, kind) == value else None


def of_binary(part, left, right):
    op = part.op
    if op in ("&&", "||"):
        return int(bool(left) and bool(right)) if op == "&&" else int(bool(left) or bool(right))
    if op in ("<<", ">>"):
        if not 0 <= right < bits(part.type) or op == "<<" and left < 0:
            return None
        return within(left << right if op == "<<" else left >> right, part.type)
    kind = usual(part.left.type, part.right.type)
    left, right = fitting(left, kind), fitting(right, kind)
    if op in COMPARING:
        return int({"==": left == right, "!=": left != right, "<": left < right, ">": left > right, "<=": left <= right,
                    ">=": left >= right}[op])
    if op in ("/", "%"):
        if not right:
            return None
        quotient = abs(left) // abs(right) * (1 if (left < 0) == (right < 0) else -1)
        return within(quotient if op == "/" else left - quotient * right, kind)
    return within({"+": left + right, "-": left - right, "*": left * right, "&": left & right, "|": left | right,
                   "^": left ^ right}[op], kind)


# ---- statements; `line` is that of the text they come from, or 0

@dataclass
class Decl:
    type: str
    name: str
    value: object = None
    line: int = 0


@dataclass
class Assign:
    target: object
    op: str
    value: object
    line: int = 0


@dataclass
class Step:
    target: object
    op: str
    line: int = 0


@dataclass
class If:
    test: object
    yes: list
    no: list = field(default_factory=list)
    line: int = 0


@dataclass
class While:
    test: object
    body: list
    line: int = 0


@dataclass
class Do:
    body: list
    test: object
    line: int = 0


@dataclass
class For:
    """`first` is a list of declarations of one type, or of at most one assignment; `step` at most one statement."""
    first: list
    test: object
    step: list
    body: list
    line: int = 0


@dataclass
class Jump:
    """`break` or `continue`."""
    word: str
    line: int = 0


@dataclass
class Return:
    value: object = None
    line: int = 0


@dataclass
class Block:
    body: list
    line: int = 0


def lists(statement):
    """The lists of statements inside a statement."""
    if isinstance(statement, If):
        return [statement.yes, statement.no]
    return [statement.body] if isinstance(statement, (While, Do, For, Block)) else []


def any_of(statements, wanted, into_loops=True):
    """Whether a statement that is wanted stands among some, at any depth; into loops too, if asked."""
    return any(wanted(it) or any(any_of(inner, wanted, into_loops) for inner in lists(it)
                                 if into_loops or not isinstance(it, (While, Do, For))) for it in statements)


# ---- text

def text_of_number(it):
    if it.text:
        return it.text
    suffix = {"uint32_t": "u", "int64_t": "ll", "uint64_t": "ull"}.get(it.type, "")
    if it.type == "int64_t" and abs(it.value) >= 2 ** 31:
        suffix = ""
    if it.value >= 0:
        return f"{it.value}{suffix}"
    least = it.value == -2 ** 31 and it.type == "int32_t" or it.value == -2 ** 63
    return f"(-{-it.value - 1 if least else -it.value}{suffix}{' - 1' if least else ''})"


def text(part, level=0, side=""):
    """The text of an expression where operators of a level or a tighter one need no parentheses."""
    if isinstance(part, Num):
        return text_of_number(part)
    if isinstance(part, Var):
        return part.name
    if isinstance(part, Index):
        return part.array + "".join(f"[{text(it)}]" for it in part.indices)
    if isinstance(part, Call):
        return f"{part.name}({', '.join(text(it) for it in part.args)})"
    if isinstance(part, Un):
        inner = text(part.part, len(LEVELS))
        return part.op + (f"({inner})" if inner[0] in "+-" and part.op in "+-" else inner)
    if isinstance(part, Cast):
        return f"({spelled(part.type)}){text(part.part, len(LEVELS))}"
    if isinstance(part, Cond):
        yes = f"({text(part.yes)})" if isinstance(part.yes, Cond) else text(part.yes)
        said = f"{text(part.test, 1)} ? {yes} : {text(part.no)}"
        return f"({said})" if level or side else said
    own = LEVEL[part.op]
    said = f"{text(part.left, own, 'l')} {part.op} {text(part.right, own + 1, 'r')}"
    mixed = side and level and own in (2, 3, 4) and own > level
    return f"({said})" if own < level or mixed else said


class Writer:
    """Writes statements, with the comments that stood at their lines."""

    def __init__(self, comments=()):
        self.comments, self.lines = list(comments), []

    def put(self, depth, said, line=0):
        """A line of text; before it the comments that stood above, behind it the one that stood beside."""
        while line and self.comments and self.comments[0][0] < line:
            self.lines.append("  " * depth + self.comments.pop(0)[1])
        beside = ""
        while line and self.comments and self.comments[0][0] == line:
            beside += "  " + self.comments.pop(0)[1]
        self.lines.append("  " * depth + said + beside)

    def statements(self, listed, depth):
        at = 0
        while at < len(listed):
            it = listed[at]
            more = self.alike(listed, at)
            if more > 1:
                self.put(depth, f"{spelled(it.type)} {', '.join(other.name for other in listed[at:at + more])};", it.line)
            else:
                getattr(self, type(it).__name__.lower())(it, depth)
            at += more

    def alike(self, listed, at):
        """How many declarations without values and of one type begin here, which go on one line."""
        end = at
        while end < len(listed) and end < at + 8 and isinstance(listed[end], Decl) and listed[end].value is None and (
                listed[end].type == listed[at].type and listed[end].line == listed[at].line):
            end += 1
        return max(1, end - at)

    def body(self, said, listed, depth, line=0, tail=""):
        """A head and the statements that belong to it; one simple statement needs no braces."""
        if len(listed) == 1 and not isinstance(listed[0], (Decl, If, Block, Do)) and not tail:
            self.put(depth, said, line)
            self.statements(listed, depth + 1)
        elif not listed and not tail:
            self.put(depth, said + " ;" if said != "else" else said + " ;", line)
        else:
            inner = listed[0].body if len(listed) == 1 and isinstance(listed[0], Block) else listed
            self.put(depth, said + " {", line)
            self.statements(inner, depth + 1)
            self.put(depth, "}" + tail)

    def decl(self, it, depth):
        self.put(depth, declared(it) + ";", it.line)

    def assign(self, it, depth):
        self.put(depth, simple(it) + ";", it.line)

    step = assign

    def if_(self, it, depth, lead=""):
        said = f"{lead}if ({text(it.test)})"
        if not it.no:
            self.body(said, it.yes, depth, it.line)
            return
        if len(it.yes) == 1 and isinstance(it.yes[0], (Assign, Step, Jump, Return)):
            self.body(said, it.yes, depth, it.line)
            lead = "else "
        else:
            self.put(depth, said + " {", it.line)
            self.statements(it.yes, depth + 1)
            lead = "} else "
        if len(it.no) == 1 and isinstance(it.no[0], If):
            self.if_(replace(it.no[0], line=0), depth, lead)
        elif lead == "else " and len(it.no) == 1 and isinstance(it.no[0], (Assign, Step, Jump, Return)):
            self.body("else", it.no, depth)
        else:
            self.put(depth, lead + "{")
            self.statements(it.no, depth + 1)
            self.put(depth, "}")

    def while_(self, it, depth):
        self.body(f"while ({text(it.test)})", it.body, depth, it.line)

    def do(self, it, depth):
        self.body("do", it.body, depth, it.line, tail=f" while ({text(it.test)});")

    def for_(self, it, depth):
        if it.first and isinstance(it.first[0], Decl):
            first = declared(it.first[0]) + "".join(", " + declared(more).split(" ", 1)[1] for more in it.first[1:])
        else:
            first = simple(it.first[0]) if it.first else ""
        test, step = " " + text(it.test) if it.test is not None else "", " " + simple(it.step[0]) if it.step else ""
        self.body(f"for ({first};{test};{step})", it.body, depth, it.line)

    def jump(self, it, depth):
        self.put(depth, it.word + ";", it.line)

    def return_(self, it, depth):
        self.put(depth, "return" + (f" {text(it.value)}" if it.value is not None else "") + ";", it.line)

    def block(self, it, depth):
        self.put(depth, "{", it.line)
        self.statements(it.body, depth + 1)
        self.put(depth, "}")


for _name, _method in {"if": "if_", "while": "while_", "for": "for_", "return": "return_"}.items():
    setattr(Writer, _name, getattr(Writer, _method))


def declared(it):
    return f"{spelled(it.type)} {it.name}" + (f" = {text(it.value)}" if it.value is not None else "")


def simple(it):
    return f"{text(it.target)}{it.op}" if isinstance(it, Step) else f"{text(it.target)} {it.op} {text(it.value)}"
