"""Expressions of C as expressions of kernels: what they change goes into statements before or behind.

`value(node)` answers an expression, puts the statements that come before it into `out`, and those that come behind the whole
expression, as steps behind a name, into `later`. C leaves the order of changes inside an expression open but for `&&`, `||`,
`?:` and the comma, and there the order is kept: their parts become statements where they change something."""
import re

from pycparser import c_ast

from explaining.source import constant_type
from explaining.tables import CONTROL
from mending.kinds import Array, Constant, Pointer, Scalar, State, line_of
from mending.prepare import Refused
from mending.tree import (BOOL, Assign, Call, Cast, Cond, If, Index, Num, Step, Var, added, binary, bits, constant, converted,
                          fitting, is_truth, negation, number, promoted, truth, unary, usual, walk)

ABSOLUTE = {"abs": "int32_t", "labs": "int64_t", "llabs": "int64_t"}


class Expressions:
    """What reads expressions; `lookup`, `fresh`, `temporary` and `inlined` come from the classes above."""

    # ---- constants

    def constant_value(self, node):
        """The value of a constant expression, or None."""
        before, self.out, later, self.later = self.out, [], self.later, []
        try:
            part = self.value(node)
            return constant(part) if not self.out and not self.later else None
        except Refused:
            return None
        finally:
            self.out, self.later = before, later

    def number_of(self, node):
        """A constant of the text."""
        text, kind = node.value, node.type
        if "float" in kind or "double" in kind:
            raise Refused(line_of(node), f"`{text}` is floating point", "scale by hand to integers")
        if kind == "string":
            raise Refused(line_of(node), "a string", "make it an array parameter")
        if kind == "char":
            return number(character(text, line_of(node)))
        if text[:2] in ("0b", "0B"):
            digits = text.rstrip("uUlL")
            text = hex(int(digits[2:], 2)) + text[len(digits):]
        return spelled_number(text, line_of(node))

    # ---- names and places

    def name(self, node):
        """A name as a value."""
        symbol = self.lookup(node)
        if isinstance(symbol, Scalar):
            return Var(symbol.name, symbol.type)
        if isinstance(symbol, State):
            return Index(symbol.name, (number(0),), symbol.type)
        if isinstance(symbol, Constant):
            return Num(symbol.value, symbol.type, symbol.text)
        raise Refused(line_of(node), f"`{node.name}` stands here without an index", "name an element of it")

    def target(self, node):
        """What an assignment or a step changes."""
        if isinstance(node, c_ast.ID):
            symbol = self.lookup(node)
            if isinstance(symbol, Pointer):
                raise Refused(line_of(node), f"`{node.name}` is a pointer, and is changed here as a number")
            return self.name(node)
        if isinstance(node, c_ast.ArrayRef) or isinstance(node, c_ast.UnaryOp) and node.op == "*":
            return self.element(node)
        if isinstance(node, c_ast.StructRef):
            raise Refused(line_of(node), "a member of a structure", "make each member a variable, or an array, of its own")
        raise Refused(line_of(node), "this cannot be assigned to in a kernel")

    def element(self, node):
        """An element by its index or its address."""
        indices = []
        while isinstance(node, c_ast.ArrayRef):
            indices.insert(0, node.subscript)
            node = node.name
        if isinstance(node, c_ast.UnaryOp) and node.op == "*":
            place = self.pointer(node.expr)
        else:
            place = self.pointer(node)
            first = self.value(indices.pop(0))
            place = self.moved(place, first, "+")
        rest = tuple(self.value(it) for it in indices)
        return self.at(place, rest, node)

    def at(self, place, rest, node):
        """The element at a place."""
        if isinstance(place.target, Scalar):
            if constant(place.index) != 0 or rest:
                raise Refused(line_of(node), f"an element behind `{place.target.name}`, which is no array")
            return Var(place.target.name, place.target.type)
        if isinstance(place.target, State):
            return Index(place.target.name, (number(0),), place.target.type)
        if place.target is None:
            raise Refused(line_of(node), "a pointer that points to nothing yet", "give it an array where it is declared")
        indices = (*place.before, place.index, *rest)
        if len(indices) != len(place.target.sizes):
            raise Refused(line_of(node), f"`{place.target.name}` has {len(place.target.sizes)} dimensions, and here {len(indices)} indices")
        return Index(place.target.name, indices, place.target.type)

    def is_pointer(self, node):
        """Whether an expression is an address or an array."""
        if isinstance(node, c_ast.ID):
            return isinstance(self.lookup(node), (Array, Pointer))
        if isinstance(node, c_ast.ArrayRef):
            depth, inner = 0, node
            while isinstance(inner, c_ast.ArrayRef):
                depth, inner = depth + 1, inner.name
            symbol = self.lookup(inner) if isinstance(inner, c_ast.ID) else None
            return isinstance(symbol, (Array, Pointer)) and len(symbol.sizes) > depth
        if isinstance(node, c_ast.UnaryOp):
            return node.op == "&" or node.op in ("++", "--", "p++", "p--") and self.is_pointer(node.expr)
        if isinstance(node, c_ast.BinaryOp):
            return node.op in ("+", "-") and self.is_pointer(node.left) != self.is_pointer(node.right)
        if isinstance(node, c_ast.Cast):
            return isinstance(node.to_type.type, c_ast.PtrDecl)
        return isinstance(node, c_ast.Assignment) and self.is_pointer(node.lvalue)

    def pointer(self, node):
        """The place that an address leads to."""
        if isinstance(node, c_ast.ID):
            symbol = self.lookup(node)
            if isinstance(symbol, Array):
                return Pointer(symbol, (), number(0), symbol.type, "", symbol.sizes)
            if isinstance(symbol, Pointer):
                return symbol
            raise Refused(line_of(node), f"`{node.name}` is used as an address, and is none")
        if isinstance(node, c_ast.UnaryOp) and node.op == "&":
            return self.address(node.expr)
        if isinstance(node, c_ast.UnaryOp) and node.op in ("++", "--", "p++", "p--"):
            return self.pointer_step(node)
        if isinstance(node, c_ast.BinaryOp) and node.op in ("+", "-"):
            left, right = (node.left, node.right) if self.is_pointer(node.left) else (node.right, node.left)
            place = self.pointer(left)
            return self.moved(place, self.value(right), node.op)
        if isinstance(node, c_ast.Cast):
            kind = self.kinds.of(node.to_type)
            place = self.pointer(node.expr)
            if kind.base not in ("void", place.type) or len(kind.sizes) > 1:
                raise Refused(line_of(node), f"an address of `{place.type}` is read as one of `{kind.base}`",
                              "put the bytes together with shifts")
            return place
        if isinstance(node, c_ast.ArrayRef):
            place, first = self.pointer(node.name), self.value(node.subscript)
            place = self.moved(place, first, "+")
            return Pointer(place.target, (*place.before, place.index), number(0), place.type, "", place.sizes[1:])
        if isinstance(node, c_ast.Assignment):
            self.assignment(node)
            return self.pointer(node.lvalue)
        raise Refused(line_of(node), "an address that is not known when the circuit is made", "keep an index in its place")

    def moved(self, place, by, op):
        """A place so many elements further."""
        index = added(place.index, by) if op == "+" else added(place.index, unary("-", by)) if constant(place.index) != 0 or isinstance(
            place.index, Var) else unary("-", by)
        return Pointer(place.target, place.before, index, place.type, "", place.sizes)

    def address(self, node):
        """The place of what `&` stands before."""
        if isinstance(node, c_ast.ID) and isinstance(self.lookup(node), (Scalar, State)):
            symbol = self.lookup(node)
            return Pointer(symbol, (), number(0), symbol.type, "", [1])
        if isinstance(node, c_ast.ID):
            return self.pointer(node)
        part = self.element(node)
        if isinstance(part, Var):
            return Pointer(Scalar(part.name, part.type), (), number(0), part.type, "", [1])
        symbol = self.arrays[part.array]
        return Pointer(symbol, part.indices[:-1], part.indices[-1], part.type, "", symbol.sizes[-1:])

    def pointer_step(self, node):
        """A pointer that moves by one; its place before or behind the move."""
        if not isinstance(node.expr, c_ast.ID):
            raise Refused(line_of(node), "a step of an address that is no variable")
        symbol = self.lookup(node.expr)
        if not isinstance(symbol, Pointer) or not isinstance(symbol.index, Var):
            raise Refused(line_of(node), f"`{node.expr.name}` moves, and was not expected to")
        step = Step(symbol.index, node.op[-2:], self.line)
        if node.op.startswith("p"):
            self.later.append(step)
        else:
            self.out.append(step)
        self.note(node, f"the pointer `{node.expr.name}` is the index `{symbol.index.name}`")
        return symbol

    def assign_pointer(self, node):
        """An assignment to a pointer: its index is assigned."""
        symbol = self.lookup(node.lvalue)
        if node.op in ("+=", "-="):
            self.out.append(Assign(symbol.index, node.op, self.value(node.rvalue), self.line))
        elif node.op == "=":
            self.bind(symbol, self.pointer(node.rvalue), node)
            self.out.append(Assign(symbol.index, "=", self.bound_index, self.line))
        else:
            raise Refused(line_of(node), "a pointer is changed as a number")
        self.note(node, f"the pointer `{node.lvalue.name}` is the index `{symbol.index.name}`")

    def bind(self, symbol, place, node):
        """Notes what a pointer points to, which is one array in all its life; its index is in `bound_index`."""
        if symbol.target is None:
            symbol.target, symbol.before, symbol.sizes = place.target, self.steady(place.before), place.sizes
        elif symbol.target is not place.target or symbol.before != place.before:
            raise Refused(line_of(node), f"the pointer `{symbol.name}` points to two arrays", "write two loops, or two indices")
        self.bound_index = place.index

    def steady(self, parts):
        """Indices that stay as they are: variables are copied."""
        return tuple(it if isinstance(it, Num) else self.temporary("row", "int32_t", it) for it in parts)

    # ---- values

    def value(self, node):
        """The value of an expression."""
        if isinstance(node, c_ast.Constant):
            return self.number_of(node)
        if isinstance(node, c_ast.ID):
            return self.name(node)
        if isinstance(node, c_ast.ArrayRef):
            return self.element(node)
        ways = {c_ast.UnaryOp: self.unary, c_ast.BinaryOp: self.binary, c_ast.TernaryOp: self.choice, c_ast.Assignment: self.assigned,
                c_ast.Cast: self.cast, c_ast.FuncCall: self.call, c_ast.ExprList: self.comma}
        if type(node) in ways:
            return ways[type(node)](node)
        if isinstance(node, c_ast.StructRef):
            raise Refused(line_of(node), "a member of a structure", "make each member a variable, or an array, of its own")
        raise Refused(line_of(node), f"{type(node).__name__} is not known here")

    def unary(self, node):
        op = node.op
        if op == "sizeof":
            return self.sizeof(node)
        if op == "*":
            return self.element(node)
        if op == "&":
            raise Refused(line_of(node), "an address as a number")
        if op in ("++", "--", "p++", "p--"):
            return self.step(node)
        if op == "!" and self.is_pointer(node.expr):
            self.note(node, "a test for a null pointer left away: an array is always there")
            return number(0)
        part = self.value(node.expr)
        return negation(part) if op == "!" else unary(op, part)

    def step(self, node):
        """A step inside an expression."""
        target = self.target(node.expr)
        self.note(node, f"`{node.op[-2:]}` is a statement of its own")
        statement = self.step_of(target, node.op[-2:])
        (self.later if node.op.startswith("p") else self.out).append(statement)
        return target

    def step_of(self, target, op):
        """A step as a statement; one of a `bool` gives 0 or 1."""
        if target.type == BOOL:
            return Assign(target, "=", number(1) if op == "++" else negation(target), self.line)
        return Step(target, op, self.line)

    def binary(self, node):
        if node.op in ("&&", "||"):
            return self.either(node)
        if self.is_pointer(node.left) or self.is_pointer(node.right):
            return self.compared(node)
        left = self.value(node.left)
        return binary(node.op, left, self.value(node.right))

    def compared(self, node):
        """Two addresses of one array compared, or their distance."""
        if any(isinstance(it, c_ast.ID) and it.name == "NULL" or isinstance(it, c_ast.Constant) and it.value == "0"
               or isinstance(it, c_ast.Cast) and isinstance(it.expr, c_ast.Constant) and it.expr.value == "0"
               for it in (node.left, node.right)) and node.op in ("==", "!="):
            self.note(node, "a test for a null pointer left away: an array is always there")
            return number(int(node.op == "!="))
        left, right = self.pointer(node.left), self.pointer(node.right)
        if left.target is not right.target or left.before != right.before:
            raise Refused(line_of(node), "addresses of two arrays are compared")
        if node.op == "-":
            return Cast(binary("-", left.index, right.index), "int64_t")
        return binary(node.op, left.index, right.index)

    def apart(self, node, conditional=True):
        """The value of an expression that is not always evaluated, and its statements before and behind."""
        out, later, depth = self.out, self.later, self.conditional
        self.out, self.later, self.conditional = [], [], depth + conditional
        part = self.condition_value(node)
        before, behind = self.out, self.later
        self.out, self.later, self.conditional = out, later, depth
        return part, before, behind

    def condition_value(self, node):
        """A value that is tested; an address is always there."""
        if self.is_pointer(node):
            self.note(node, "a test for a null pointer left away: an array is always there")
            return number(1)
        return self.value(node)

    def either(self, node):
        """`&&` and `||`."""
        later, self.later = self.later, []
        left = self.condition_value(node.left)
        own, self.later = self.later, later
        written, self.written = self.written, set()
        right, before, behind = self.apart(node.right)
        self.written |= written
        if not (own or before or behind):
            return joined(node.op, left, right)
        result = self.temporary("go", "int32_t", truth(left))
        self.out += own
        inner = before + [Assign(result, "=", truth(right), self.line)] + behind
        self.out.append(If(result if node.op == "&&" else negation(result), inner))
        self.note(node, f"what stands behind `{node.op}` changes something, and is in an `if`")
        return result

    def choice(self, node):
        """`?:`."""
        later, self.later = self.later, []
        test = self.condition_value(node.cond)
        own, self.later = self.later, later
        written, self.written = self.written, set()
        yes, yes_before, yes_behind = self.apart(node.iftrue)
        first, self.written = self.written, set()
        no, no_before, no_behind = self.apart(node.iffalse)
        self.written |= written | first
        kind = usual(yes.type, no.type)
        if not (yes_before or yes_behind or no_before or no_behind):
            if own:
                test = self.temporary("go", "int32_t", truth(test))
                self.out += own
            return Cond(test, yes, no, kind)
        if own:
            test = self.temporary("go", "int32_t", truth(test))
            self.out += own
        result = self.temporary("value", kind)
        self.out.append(If(test, yes_before + [Assign(result, "=", yes, self.line)] + yes_behind,
                           no_before + [Assign(result, "=", no, self.line)] + no_behind))
        self.note(node, "a part of `?:` changes something, and is in an `if`")
        return result

    def assigned(self, node):
        """An assignment inside an expression; its value is that of the target afterwards."""
        self.assignment(node)
        self.note(node, "an assignment is a statement of its own")
        return self.target(node.lvalue)

    def assignment(self, node):
        """An assignment as statements in `out`."""
        if isinstance(node.lvalue, c_ast.ID) and isinstance(self.lookup(node.lvalue), Pointer):
            self.assign_pointer(node)
            return
        if self.is_pointer(node.rvalue):
            raise Refused(line_of(node), "an address as a number")
        part = self.value(node.rvalue)
        target = self.target(node.lvalue)
        read = [it.array for it in walk(target) if isinstance(it, Index) and (it is not target or node.op != "=")]
        if set(read) & self.written:
            raise Refused(line_of(node), f"`{read[0]}` is read beside a call that changes it, in an order that C leaves open",
                          "call in a statement of its own")
        self.out.append(self.assign(target, node.op, part))

    def assign(self, target, op, part):
        """An assignment as a statement; a `bool` takes 0 or 1."""
        if target.type == BOOL:
            if op != "=":
                part, op = binary(op[:-1], target, part), "="
            if not is_truth(part):
                self.notes.add(self.source_line, "a value for a `bool` is compared with 0")
            return Assign(target, "=", truth(part), self.line)
        return Assign(target, op, part, self.line)

    def cast(self, node):
        kind = self.kinds.of(node.to_type)
        if kind.base == "void":
            self.value(node.expr)
            return number(0)
        if kind.sizes:
            raise Refused(line_of(node), "a number as an address")
        part = self.value(node.expr)
        if kind.base == BOOL:
            self.note(node, "a cast to `bool` is `!= 0`")
            return truth(part)
        return Cast(part, kind.base)

    def sizeof(self, node):
        """`sizeof`, an unsigned number of 64 bits."""
        inner = node.expr
        if isinstance(inner, c_ast.Typename):
            size = self.kinds.size(self.kinds.of(inner), node)
        elif isinstance(inner, c_ast.ID) and isinstance(self.lookup(inner), (Array, Pointer)):
            symbol = self.lookup(inner)
            if isinstance(symbol, Pointer) or inner.name in self.parameters:
                size = 8
                self.note(node, f"`sizeof({inner.name})` is 8, the size of a pointer, since `{inner.name}` is a parameter")
            else:
                size = bytes_of(symbol.type, symbol.sizes)
        elif self.is_pointer(inner):
            raise Refused(line_of(node), "the size of a part of an array", "write the number of bytes")
        else:
            before, self.out, later, self.later = self.out, [], self.later, []
            size = bytes_of(self.value(inner).type, [])
            self.out, self.later = before, later
        self.note(node, f"`sizeof` is {size}")
        return Num(size, "uint64_t", f"{size}ul")

    def comma(self, node):
        """`a, b`: all but the last are statements."""
        *first, last = node.exprs
        later, self.later = self.later, []
        for it in first:
            self.expression_statement(it)
        self.later = later
        self.note(node, "what the comma joins is statements of their own")
        return self.value(last)

    # ---- calls

    def call(self, node):
        name = node.name.name if isinstance(node.name, c_ast.ID) else None
        if name is None:
            raise Refused(line_of(node), "a call of what is no name", "call the function by its name")
        args = list(node.args.exprs) if node.args else []
        if name in ABSOLUTE and len(args) == 1 and name not in self.functions:
            self.note(node, f"`{name}` written out")
            part = self.value(args[0])
            part = part if isinstance(part, Var) and part.type == ABSOLUTE[name] else self.temporary("value", ABSOLUTE[name], part)
            return Cond(binary("<", part, number(0)), unary("-", part), part, ABSOLUTE[name])
        symbol = self.functions.get(name)
        if symbol is None:
            raise Refused(line_of(node), f"`{name}` is called, and its text is not there", "write it before the kernel")
        if name in self.helpers:
            kinds, result = self.helpers[name]
            if len(kinds) != len(args):
                raise Refused(line_of(node), f"`{name}` is called with {len(args)} arguments")
            part = Call(self.helper_name(name), tuple(converted(self.value(it), kind) for it, kind in zip(args, kinds)), result)
            return self.temporary("value", result, part) if self.conditional else part
        return self.inlined(symbol.node, args, node)

    def full(self, node, tested=True):
        """The value of a whole expression, or what a test asks of it; the statements behind it are put into `out` at once."""
        part = self.condition_value(node) if tested else self.value(node)
        behind, self.later = self.later, []
        changed = {it.target for it in behind}
        if behind and any(it in changed for it in walk(part)):
            part = self.temporary("go", "int32_t", truth(part)) if tested else self.temporary("which", promoted(part.type), part)
        self.out += behind
        self.judge_order(part)
        return part

    def judge_order(self, part):
        """Refuses an expression that reads an array which a call inside it writes: C leaves open which comes first."""
        arrays = {it.array for it in walk(part) if isinstance(it, Index)}
        written, self.written = self.written, set()
        if arrays & written:
            raise Refused(self.source_line, f"`{sorted(arrays & written)[0]}` is read beside a call that changes it, in an order that C leaves "
                          "open", "call in a statement of its own")


def joined(op, left, right):
    """`&&` or `||` of two values; a number that decides nothing is left away."""
    nothing = op == "&&"
    for one, other in ((left, right), (right, left)):
        if isinstance(one, Num) and not one.text and bool(one.value) == nothing:
            return truth(other)
    return binary(op, left, right)


def character(text, line):
    """The number of a character constant."""
    found = characters(text[text.index("'"):], line)
    if len(found) != 1:
        raise Refused(line, f"the character {text}")
    return found[0]


def characters(text, line):
    """The numbers of the characters between quotes, as `char` with a sign has them."""
    found = []
    for it in re.finditer(r"\\x([0-9a-fA-F]+)|\\([0-7]{1,3})|\\(.)|([^\\])", text[1:-1], re.S):
        hexadecimal, octal, control, plain = it.groups()
        if control and control not in CONTROL:
            raise Refused(line, f"the character `\\{control}`")
        value = int(hexadecimal, 16) if hexadecimal else int(octal, 8) if octal else CONTROL[control] if control else ord(plain)
        found.append(fitting(value, "int8_t"))
    return found


def spelled_number(text, line):
    """A number of the text, with its type and its spelling."""
    kind = constant_type(text)
    if not kind:
        raise Refused(line, f"`{text}` is no integer constant of C99")
    digits = text.rstrip("uUlL")
    value = int(digits, 8 if digits.isdigit() and digits[0] == "0" and len(digits) > 1 else 0)
    return Num(value, kind, text)


def bytes_of(kind, sizes):
    count = bits(kind) // 8
    for size in sizes:
        count *= size
    return count

