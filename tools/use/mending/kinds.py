"""What names are in C: kinds of declared things, from pycparser's trees, and the symbols that take their place in a kernel."""
from dataclasses import dataclass, field

from pycparser import c_ast

from mending.prepare import Refused
from mending.tree import BOOL, bits

PLAIN = {"char": "int8_t", "signed char": "int8_t", "char unsigned": "uint8_t", "short": "int16_t", "short unsigned": "uint16_t",
         "": "int32_t", "unsigned": "uint32_t", "long": "int64_t", "long unsigned": "uint64_t", "long long": "int64_t",
         "long long unsigned": "uint64_t", "_Bool": BOOL}
NAMED = {f"{sign}int{bits_}_t": f"{sign}int{bits_}_t" for sign in ("", "u") for bits_ in (8, 16, 32, 64)}
# As gcc and the C library have them on Linux with 64 bits.
NAMED.update({f"{sign}int_least{bits_}_t": f"{sign}int{bits_}_t" for sign in ("", "u") for bits_ in (8, 16, 32, 64)})
NAMED.update({f"{sign}int_fast{bits_}_t": f"{sign}int{8 if bits_ == 8 else 64}_t" for sign in ("", "u") for bits_ in (8, 16, 32, 64)})
NAMED.update({"size_t": "uint64_t", "ssize_t": "int64_t", "ptrdiff_t": "int64_t", "intmax_t": "int64_t", "uintmax_t": "uint64_t",
              "intptr_t": "int64_t", "uintptr_t": "uint64_t", "bool": BOOL})
PRELUDE = "".join(f"typedef int {name};\n" for name in NAMED)

LIMITS = {f"INT{b}_MAX": (2 ** (b - 1) - 1, "int64_t" if b == 64 else "int32_t") for b in (8, 16, 32, 64)}
LIMITS.update({f"INT{b}_MIN": (-2 ** (b - 1), "int64_t" if b == 64 else "int32_t") for b in (8, 16, 32, 64)})
LIMITS.update({f"UINT{b}_MAX": (2 ** b - 1, {32: "uint32_t", 64: "uint64_t"}.get(b, "int32_t")) for b in (8, 16, 32, 64)})
LIMITS.update({"CHAR_BIT": (8, "int32_t"), "INT_MAX": LIMITS["INT32_MAX"], "INT_MIN": LIMITS["INT32_MIN"], "UINT_MAX": LIMITS["UINT32_MAX"],
               "SHRT_MAX": LIMITS["INT16_MAX"], "SHRT_MIN": LIMITS["INT16_MIN"], "USHRT_MAX": LIMITS["UINT16_MAX"],
               "SCHAR_MAX": LIMITS["INT8_MAX"], "SCHAR_MIN": LIMITS["INT8_MIN"], "UCHAR_MAX": LIMITS["UINT8_MAX"],
               "CHAR_MAX": LIMITS["INT8_MAX"], "CHAR_MIN": LIMITS["INT8_MIN"], "LONG_MAX": LIMITS["INT64_MAX"],
               "LONG_MIN": LIMITS["INT64_MIN"], "ULONG_MAX": LIMITS["UINT64_MAX"], "LLONG_MAX": LIMITS["INT64_MAX"],
               "LLONG_MIN": LIMITS["INT64_MIN"], "ULLONG_MAX": LIMITS["UINT64_MAX"], "SIZE_MAX": LIMITS["UINT64_MAX"],
               "true": (1, "int32_t"), "false": (0, "int32_t")})


class Size(int):
    """A length, with its spelling where a name stands for it."""

    def __new__(cls, value, text=""):
        made = super().__new__(cls, value)
        made.text = text
        return made

    def __str__(self):
        return self.text or int.__repr__(self)

    __format__ = lambda self, _: str(self)


@dataclass
class Kind:
    """The type of a declared thing: `base` is a kernel's type, `bool` or `void`; `sizes` its dimensions, None one that is not known;
    `pointer` where the first dimension is that of a pointer; `size_nodes` the expressions of the lengths."""
    base: str
    sizes: list = field(default_factory=list)
    pointer: bool = False


# ---- symbols

@dataclass
class Scalar:
    name: str
    type: str
    value: object = None  # of one that never changes, where it is known


@dataclass
class Array:
    name: str
    type: str
    sizes: list


@dataclass
class State:
    """A variable that outlives a call: element 0 of an array."""
    name: str
    type: str


@dataclass
class Pointer:
    """Where a pointer points to: an array or a scalar, the indices before, and the index."""
    target: object = None
    before: tuple = ()
    index: object = None
    type: str = ""
    name: str = ""
    sizes: list = field(default_factory=list)


@dataclass
class Constant:
    value: int
    type: str
    text: str = ""


@dataclass
class Function:
    node: object
    name: str


def line_of(node):
    return getattr(getattr(node, "coord", None), "line", 0) or 0


class Kinds:
    """Resolves types; `value` gives the value of a constant expression."""

    def __init__(self, notes, value, named_number):
        self.notes, self.value, self.named_number = notes, value, named_number
        self.named, self.enums, self.constants = {name: Kind(kind) for name, kind in NAMED.items()}, {}, {}

    def define(self, node):
        """A `typedef` of the text."""
        if getattr(node.coord, "file", "") == "prelude":
            return
        self.named[node.name] = self.of(node.type)
        self.notes.add(line_of(node), f"the type `{node.name}` written out")

    def of(self, node):
        """The kind of a declared thing."""
        if isinstance(node, (c_ast.Decl, c_ast.Typename, c_ast.TypeDecl)):
            self.qualifiers(node)
            return self.of(node.type)
        if isinstance(node, c_ast.IdentifierType):
            return self.plain(node)
        if isinstance(node, c_ast.Enum):
            return Kind(self.enum(node))
        if isinstance(node, c_ast.ArrayDecl):
            inner = self.of(node.type)
            return Kind(inner.base, [None if node.dim is None else self.length(node.dim), *inner.sizes])
        if isinstance(node, c_ast.PtrDecl):
            self.qualifiers(node)
            if isinstance(node.type, c_ast.FuncDecl):
                raise Refused(line_of(node), "a pointer to a function", "call the function by its name")
            inner = self.of(node.type)
            if inner.pointer:
                raise Refused(line_of(node), "a pointer to a pointer", "make the array that it leads to a parameter")
            return Kind(inner.base, [None, *inner.sizes], True)
        if isinstance(node, (c_ast.Struct, c_ast.Union)):
            word = "union" if isinstance(node, c_ast.Union) else "struct"
            raise Refused(line_of(node), f"`{word}` has no place in a kernel",
                          "make each member a variable, or an array, of its own")
        raise Refused(line_of(node), f"{type(node).__name__} is not known here")

    def length(self, node):
        """A length, by its name where it has one."""
        value = self.value(node)
        named = value is not None and isinstance(node, c_ast.ID) and self.named_number(node)
        return None if value is None else Size(value, named or "")

    def plain(self, node):
        names = [name for name in node.names if name != "int"]
        if len(names) == 1 and names[0] in self.named:
            kind = self.named[names[0]]
            if names[0] not in NAMED or NAMED[names[0]] != names[0]:
                self.notes.add(line_of(node), f"`{names[0]}` is {'`uint8_t` of 0 and 1' if kind.base == BOOL else f'`{kind.base}`'}")
            return Kind(kind.base, list(kind.sizes), kind.pointer)
        if names == ["void"]:
            return Kind("void")
        if set(names) & {"float", "double", "_Complex"}:
            raise Refused(line_of(node), f"`{' '.join(node.names)}` is floating point", "scale by hand to integers")
        text = " ".join(sorted(name for name in names if name != "signed" or names.count("char")))
        text = "signed char" if sorted(names) == ["char", "signed"] else text
        if text not in PLAIN:
            raise Refused(line_of(node), f"the type `{' '.join(node.names)}` is not known", "write a type with its width in the name")
        if text and text != "unsigned":
            self.notes.add(line_of(node), f"`{' '.join(node.names)}` is `{'uint8_t` of 0 and 1' if PLAIN[text] == BOOL else PLAIN[text] + '`'}")
        return Kind(PLAIN[text])

    def enum(self, node):
        """The type of an enumeration, as gcc chooses it; its constants are known from here on."""
        if node.values:
            last, least = -1, 0
            for it in node.values.enumerators:
                last = self.value(it.value) if it.value is not None else last + 1
                if last is None:
                    raise Refused(line_of(it), f"the value of `{it.name}` is not known")
                self.constants[it.name] = last
                least = min(least, last)
            kind = "int32_t" if least < 0 else "uint32_t"
            self.notes.add(line_of(node), f"the enumeration `{node.name or ''}` is `#define`s, and `{kind}` for its variables".replace("`` ", ""))
            self.enums[node.name] = kind
        if node.name not in self.enums:
            raise Refused(line_of(node), f"`enum {node.name}` has no list")
        return self.enums[node.name]

    def qualifiers(self, node):
        for word in [*(getattr(node, "quals", None) or []), *(getattr(node, "funcspec", None) or [])]:
            self.notes.add(line_of(node), f"`{word}` left away")

    def size(self, kind, node):
        """The bytes of a kind."""
        if kind.pointer:
            return 8
        count = bits(kind.base) // 8
        for size in kind.sizes:
            if size is None:
                raise Refused(line_of(node), "the size of an array whose length is not known")
            count *= size
        return count
