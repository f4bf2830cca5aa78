"""A C text as a kernel text: which function is the kernel, which are helpers, which are written out, and what becomes a parameter."""
from pycparser import c_ast, c_parser

from explaining.source import KEYWORDS
from explaining.tables import spelled_constant
from mending.exits import single_return
from mending.expressions import characters
from mending.kinds import LIMITS, Array, Constant, Function, Kind, Kinds, Pointer, Scalar, State, line_of
from mending.prepare import Refused
from mending.statements import Statements
from mending.tree import (BOOL, Assign, Decl, Index, Num, Return, Step, Var, any_of, constant, converted, fitting, lists, number, promoted,
                          spelled, walk)


def walked(node, kinds):
    """The nodes of some kinds in a tree."""
    if isinstance(node, kinds):
        yield node
    for _, inner in node.children() if node is not None else ():
        yield from walked(inner, kinds)


def parameters_of(function):
    """The declarations of a function's parameters."""
    if not isinstance(function.decl.type, c_ast.FuncDecl):
        raise Refused(line_of(function), f"`{function.decl.name}` is no plain function")
    args = function.decl.type.args
    return [it for it in (args.params if args else []) if isinstance(it, c_ast.Decl)]


def changed_names(node):
    """The names that are assigned to or stepped in a tree."""
    found = set()
    for it in walked(node, (c_ast.Assignment, c_ast.UnaryOp)):
        target = it.lvalue if isinstance(it, c_ast.Assignment) else it.expr if it.op in ("++", "--", "p++", "p--") else None
        if isinstance(target, c_ast.ID):
            found.add(target.name)
    return found


class Program(Statements):
    """A C text that becomes a kernel text."""

    def __init__(self, tree, prepared, notes, kernel=None, lengths=None):
        self.tree, self.prepared, self.notes = tree, prepared, notes
        self.lengths, self.asked = lengths or {}, []
        self.kinds = Kinds(notes, self.constant_value, self.named_number)
        self.functions, self.helpers, self.globals_, self.arrays = {}, {}, {}, {}
        self.defines, self.added, self.lasting = [], [], {}
        self.reset()
        self.reserved = set(KEYWORDS) | {f"{sign}int{bits}_t" for sign in ("", "u") for bits in (8, 16, 32, 64)}
        self.collect()
        self.kernel = self.chosen(kernel)
        self.own = {it.name for it in parameters_of(self.kernel)}
        self.addressed = {it.expr.name for function in self.functions.values() for it in walked(function.node.body, c_ast.UnaryOp)
                          if it.op == "&" and isinstance(it.expr, c_ast.ID)}

    def reset(self):
        """What belongs to one function."""
        self.out, self.later, self.scopes, self.written = [], [], [{}], set()
        self.conditional = self.in_loop = self.inline_depth = 0
        self.line = self.source_line = 0
        self.result, self.parameters, self.taken = "void", set(), set()
        self.wanted_labels, self.active, self.tails, self.outermost = set(), [], {}, 1

    # ---- the text as a whole

    def collect(self):
        """The functions, types and names outside of functions."""
        for name, (value, line) in self.prepared.numbers.items():
            part = self.macro(value, line)
            self.globals_[name] = part
            self.reserved.add(name)
        for node in self.tree.ext:
            self.at_line(node)
            if isinstance(node, c_ast.Typedef):
                self.kinds.define(node)
            elif isinstance(node, c_ast.FuncDef):
                self.functions[node.decl.name] = Function(node, node.decl.name)
                self.reserved.add(node.decl.name)
            elif isinstance(node, c_ast.Decl) and not isinstance(node.type, c_ast.FuncDecl):
                self.outside(node)

    def macro(self, value, line):
        """The constant that a `#define` names, as a number where it is an expression."""
        try:
            parsed = c_parser.CParser().parse(f"int x = {value};").ext[0].init
        except Exception as wrong:  # pycparser's class of errors moved between versions
            raise Refused(line, f"`{value}` is no expression") from wrong
        part = self.value(parsed)
        number_, = [constant(part)]
        return Constant(number_, part.type, value), line

    def outside(self, node):
        """A variable or a table outside of functions; it is made when it is used."""
        if node.name is None:
            self.kinds.of(node.type)
            return
        if "extern" in node.storage and node.init is None:
            return
        self.globals_[node.name] = node

    def chosen(self, wanted):
        """The function that is the kernel: the one that is named, else the last that no other calls."""
        self.functions.pop("main", None)
        if wanted:
            if wanted not in self.functions:
                raise Refused(0, f"there is no function `{wanted}`")
            return self.functions[wanted].node
        called = {it.name.name for function in self.functions.values() for it in walked(function.node.body, c_ast.FuncCall)
                  if isinstance(it.name, c_ast.ID) and it.name.name != function.name}
        left = [name for name in self.functions if name not in called]
        if not left:
            raise Refused(0, "there is no function that no other calls", "name the kernel by `--kernel NAME`")
        if len(left) > 1:
            self.notes.add(line_of(self.functions[left[-1]].node), f"`{left[-1]}` is the kernel (`--kernel` names another: {', '.join(left[:-1])})")
        return self.functions[left[-1]].node

    def at_line(self, node):
        self.source_line = line_of(node) or self.source_line
        self.line = 0 if self.inline_depth else self.source_line

    def note(self, node, text):
        self.notes.add(line_of(node) or self.source_line, text)

    # ---- names

    def lookup(self, node):
        """The symbol of a name."""
        name = node.name
        for scope in reversed(self.scopes):
            if name in scope:
                return scope[name]
        if name in self.globals_:
            return self.global_symbol(name)
        if name in self.kinds.constants:
            value = self.kinds.constants[name]
            if value >= 0:
                self.use_define(name, f"{value}")
                return Constant(value, "int32_t", name)
            return Constant(value, "int32_t")
        if name in LIMITS:
            self.note(node, f"`{name}` is its number")
            return Constant(*LIMITS[name])
        if name in self.functions:
            raise Refused(line_of(node), f"the function `{name}` without a call")
        raise Refused(line_of(node), f"`{name}` is declared nowhere")

    def named_number(self, node):
        """The name of a constant, where it stays one in the kernel."""
        symbol = self.lookup(node)
        return symbol.text if isinstance(symbol, Constant) else ""

    def use_define(self, name, value):
        if name not in dict(self.defines):
            self.defines.append((name, value))

    def global_symbol(self, name):
        """What a name outside of functions becomes."""
        found = self.globals_[name]
        if isinstance(found, tuple):
            constant_, line = found
            plain = constant_.text.isalnum() and not constant_.text[0].isalpha()
            if constant_.value is None:
                raise Refused(line, f"the value of `{name}` is not known")
            if constant_.value < 0:
                self.notes.add(line, f"`{name}` is its number, {constant_.value}")
                return Constant(constant_.value, constant_.type)
            said = constant_.text if plain else spelled_constant(constant_.value, constant_.type)
            if not plain and name not in dict(self.defines):
                self.notes.add(line, f"`#define {name}` is its number, {said}")
            self.use_define(name, said)
            return Constant(constant_.value, constant_.type, name)
        if not isinstance(found, c_ast.Decl):
            return found
        self.globals_[name] = symbol = self.made_global(name, found)
        return symbol

    def made_global(self, name, node):
        """A table, a constant or a variable outside of functions, at its first use."""
        before, self.source_line = self.source_line, line_of(node)
        kind = self.kinds.of(node)
        try:
            if kind.pointer:
                raise Refused(line_of(node), f"the pointer `{name}` outside of functions", "make it a parameter of the kernel")
            if kind.sizes:
                sizes = self.sizes_of(kind, node)
                values = self.numbers_of(node.init, sizes, kind.base) if node.init is not None else [0] * product(sizes)
                if values is None:
                    raise Refused(line_of(node), f"the values of `{name}` are not known")
                return self.new_array(name, kind.base, sizes, values, node, what="a table outside of functions")
            value = self.constant_value(node.init) if node.init is not None else 0
            changed = name in self.addressed or any(name in changed_names(it.node.body) for it in self.functions.values())
            if value is None:
                raise Refused(line_of(node), f"the value of `{name}` is not known")
            value = fitting(value, kind.base)
            if changed:
                array = self.new_array(name, kind.base, [1], [value], node, what="a variable outside of functions")
                return State(array.name, kind.base)
            if value < 0:
                return Constant(value, "int32_t" if kind.base == BOOL else kind.base)
            self.note(node, f"`{name}` is a `#define`")
            said = spelled_constant(value, spelled(kind.base))
            self.use_define(name, said)
            return Constant(value, wide(kind.base), name)
        finally:
            self.source_line = before

    def fresh(self, name):
        """A name that is free: the wanted one, or with a number behind."""
        taken = self.reserved | self.taken | {name for name, _ in self.defines}
        visible = {symbol.name for scope in self.scopes for symbol in scope.values() if hasattr(symbol, "name")}
        wanted, count = name, 1
        while name in taken or name in visible:
            count += 1
            name = f"{wanted}_{count}"
        if self.inline_depth or wanted in TEMPORARIES:
            self.taken.add(name)
        return name

    def temporary(self, name, kind, value=None):
        """A new variable with a value, declared in `out`."""
        name = self.fresh(name)
        self.out.append(Decl(kind, name, value, self.line))
        return Var(name, kind)

    # ---- arrays that become parameters

    def new_array(self, name, kind, sizes, values, node, what=None):
        """A parameter more, with its values."""
        existing = {it.name for it in self.arrays.values()} | self.own | self.reserved | self.taken | {name for scope in self.scopes for name in scope}
        wanted, count = name, 1
        while name in existing:
            count += 1
            name = f"{wanted}_{count}"
        array = Array(name, kind, sizes)
        self.arrays[name] = array
        self.reserved.add(name)
        self.added.append((array, values or [0] * product(sizes)))
        shown = f"`{spelled(kind)} {name}{''.join(f'[{size}]' for size in sizes)}`"
        self.note(node, f"`{wanted}`, {what or 'an array of a body'}, is a parameter, {shown}; its values are inputs")
        return array

    def numbers_of(self, node, sizes, kind):
        """The numbers of an array's list, with 0 for those that are left out; None where one is not known."""
        found = [0] * product(sizes)
        if isinstance(node, c_ast.Constant) and node.type == "string":
            given = characters(node.value, line_of(node))[:len(found)]
            return [fitting(value, kind) for value in given] + found[len(given):]
        if not isinstance(node, c_ast.InitList):
            return None
        if not self.fill(found, node, sizes, 0, kind):
            return None
        return found

    def fill(self, found, node, sizes, start, kind):
        """Fills the numbers of a list from a place on; whether all are known."""
        rest = product(sizes[1:])
        at = 0
        for it in node.exprs:
            inner = it
            if isinstance(it, c_ast.NamedInitializer):
                where = [self.constant_value(name) if not isinstance(name, c_ast.ID) else None for name in it.name]
                if len(where) != 1 or where[0] is None:
                    return False
                at, inner = where[0] * rest, it.expr
            if isinstance(inner, c_ast.InitList):
                if len(sizes) > 1:
                    at = -(-at // rest) * rest
                    if not self.fill(found, inner, sizes[1:], start + at, kind):
                        return False
                    at += rest
                    continue
                inner = inner.exprs[0]
            value = self.constant_value(inner)
            if value is None or start + at >= len(found):
                return False
            found[start + at] = fitting(value, kind)
            at += 1
        return True

    # ---- functions

    def helper_name(self, name):
        return name

    def is_helper(self, name, seen=()):
        """Whether a function may stay one: scalars alone, a result, nothing of outside changed or read as an array."""
        if name in seen:
            raise Refused(line_of(self.functions[name].node), f"`{name}` calls itself", "write a loop")
        node = self.functions[name].node
        if any(isinstance(it.type, (c_ast.ArrayDecl, c_ast.PtrDecl)) for it in parameters_of(node)):
            return False
        result = self.kinds.of(node.decl.type.type)
        if result.base == "void" or result.sizes or any(self.kinds.of(it).sizes for it in parameters_of(node)):
            return False
        for it in walked(node.body, c_ast.Decl):
            kind = self.kinds.of(it) if not isinstance(it.type, c_ast.FuncDecl) else Kind("void")
            if kind.sizes or "static" in it.storage:
                return False
        locals_ = {it.name for it in walked(node.body, c_ast.Decl)} | {it.name for it in parameters_of(node)}
        for it in walked(node.body, c_ast.ID):
            found = self.globals_.get(it.name) if it.name not in locals_ else None
            if isinstance(found, (Array, State)) or isinstance(found, c_ast.Decl) and not isinstance(self.global_symbol(it.name), Constant):
                return False
        for it in walked(node.body, c_ast.FuncCall):
            inner = it.name.name if isinstance(it.name, c_ast.ID) else None
            if inner in self.functions and not self.is_helper(inner, (*seen, name)):
                return False
        return True

    def whole(self):
        """The kernel and its helpers: (text of the head, statements, line), helpers first."""
        written, needed = [], self.needed()
        for name in needed:
            if self.is_helper(name):
                written.append(self.helper(name))
        dropped = [name for name in self.functions if name not in needed and name != self.kernel.decl.name]
        if dropped:
            self.notes.add(line_of(self.functions[dropped[0]].node), f"not used, left away: {', '.join(dropped)}")
        written.append(self.main())
        return written

    def needed(self):
        """The functions that the kernel calls, those that are called first."""
        order = []

        def visit(name, path):
            for it in walked(self.functions[name].node.body, c_ast.FuncCall):
                inner = it.name.name if isinstance(it.name, c_ast.ID) else None
                if inner in path:
                    raise Refused(line_of(it), f"`{inner}` calls itself", "write a loop")
                if inner in self.functions and inner not in order:
                    visit(inner, path | {inner})
                    order.append(inner)
        visit(self.kernel.decl.name, {self.kernel.decl.name})
        return order

    def helper(self, name):
        """A helper, with one `return`."""
        node = self.functions[name].node
        self.reset()
        self.labels(node)
        self.storage(node, helper=True)
        kinds, said = [], []
        for it in parameters_of(node):
            kind = self.kinds.of(it)
            out = self.fresh(it.name)
            self.scopes[-1][it.name] = Scalar(out, kind.base)
            kinds.append(kind.base)
            said.append(f"{spelled(kind.base)} {out}")
        self.result = self.kinds.of(node.decl.type.type).base
        body = self.nested(*(node.body.block_items or []))
        if not (body and isinstance(body[-1], Return) and not any_of(body[:-1], lambda it: isinstance(it, Return))):
            value = Var(self.fresh("result"), self.result)
            self.note(node, f"`{name}` has one `return`")
            body = [Decl(self.result, value.name), *single_return(body, value, self.fresh), Return(value)]
        self.helpers[name] = (kinds, self.result)
        return f"static {spelled(self.result)} {name}({', '.join(said) or 'void'})", body, node

    def storage(self, node, helper=False):
        for word in [*node.decl.storage, *(node.decl.funcspec or [])]:
            if word != "static" or not helper:
                self.note(node, f"`{word}` of `{node.decl.name}` left away")
        if helper and "static" not in node.decl.storage:
            self.note(node, f"`{node.decl.name}` is a helper, `static`")

    def labels(self, node):
        """The labels that a function goes to, and of those in its own block what stands from there to the end."""
        self.wanted_labels = {it.name for it in walked(node.body, c_ast.Goto)}
        items = node.body.block_items or []
        self.tails = {it.name: [it.stmt, *items[at + 1:]] for at, it in enumerate(items) if isinstance(it, c_ast.Label)
                      and not any(True for rest in (it.stmt, *items[at + 1:]) for _ in walked(rest, (c_ast.Goto, c_ast.Label)))}
        self.outermost = len(self.scopes) + 1

    def main(self):
        """The kernel itself."""
        node = self.kernel
        self.reset()
        self.labels(node)
        self.storage(node)
        moved, said, first = changed_names(node.body), [], []
        self.parameters = {it.name for it in parameters_of(node)}
        for it in parameters_of(node):
            said.append(self.parameter(it, moved, first))
        kind = self.kinds.of(node.decl.type.type)
        if kind.sizes:
            raise Refused(line_of(node), "a function whose result is an address", "write the result into an array")
        self.result = kind.base
        if self.asked:
            words = " ".join(f"--length {name}=N" for name in self.asked)
            raise Refused(line_of(node), f"the length of {', '.join(f'`{name}`' for name in self.asked)} is not told", f"say {words}")
        self.out = []
        body = first + self.nested(*(node.body.block_items or []))
        said += [f"{spelled(array.type)} {array.name}{''.join(f'[{size}]' for size in array.sizes)}" for array, _ in self.added]
        return f"{spelled(self.result) if self.result != 'void' else 'void'} {node.decl.name}({', '.join(said) or 'void'})", body, node

    def parameter(self, node, moved, first):
        """A parameter of the kernel; statements that make the index of a pointer that moves go into `first`."""
        kind = self.kinds.of(node)
        if not kind.sizes:
            self.scopes[-1][node.name] = Scalar(node.name, kind.base)
            if kind.base == BOOL:
                self.note(node, f"the inputs of `{node.name}` are 0 or 1")
            return f"{spelled(kind.base)} {node.name}"
        if kind.base == "void":
            raise Refused(line_of(node), f"`{node.name}` is a pointer to anything", "write the type of its elements")
        sizes = list(kind.sizes)
        if node.name in self.lengths:
            if sizes[0] is None:
                self.note(node, f"`{node.name}` is an array of {self.lengths[node.name]}")
            sizes[0] = self.lengths[node.name]
        if sizes[0] is None:
            self.asked.append(node.name)
            sizes[0] = 1
        if None in sizes:
            raise Refused(line_of(node), f"the lengths of `{node.name}` are not known", "write numbers")
        array = Array(node.name, kind.base, sizes)
        self.arrays[node.name] = array
        self.reserved.add(node.name)
        if node.name in moved:
            name = self.fresh(f"{node.name}_at")
            self.scopes[-1][node.name] = Pointer(array, (), Var(name, "int32_t"), kind.base, node.name, sizes)
            first.append(Decl("int32_t", name, number(0), 0))
            self.note(node, f"the pointer `{node.name}` is an array and the index `{name}`")
        else:
            self.scopes[-1][node.name] = array
        return f"{spelled(kind.base)} {node.name}{''.join(f'[{size}]' for size in sizes)}"

    def inlined(self, node, args, call):
        """A call of a function that is no helper: its statements in place of the call."""
        name = node.decl.name
        if name in self.active:
            raise Refused(line_of(call), f"`{name}` calls itself", "write a loop")
        parameters = parameters_of(node)
        if len(parameters) != len(args):
            raise Refused(line_of(call), f"`{name}` is called with {len(args)} arguments, and has {len(parameters)} parameters")
        self.note(call, f"`{name}` written out, since it has arrays, no result, or variables of outside")
        result = self.kinds.of(node.decl.type.type)
        if result.sizes:
            raise Refused(line_of(node), f"`{name}` has an address as its result", "give its index back")
        outer = (self.scopes, self.result, self.parameters, self.wanted_labels, self.tails, self.outermost, self.later)
        self.active.append(name)
        self.inline_depth += 1
        scope = self.bound(node, parameters, args)
        self.later = []
        out, self.out = self.out, []
        visible = [dict(it) for it in self.scopes]
        self.scopes = [*({f" {at}": it for at, it in enumerate(old.values())} for old in visible), scope]
        self.result, self.parameters = result.base, {it.name for it in parameters}
        self.labels(node)
        body = self.nested(*(node.body.block_items or []))
        self.scopes, self.result, self.parameters, self.wanted_labels, self.tails, self.outermost, self.later = outer
        self.active.pop()
        self.out = out
        value = self.result_of(body, result.base)
        self.inline_depth -= 1
        return value

    def result_of(self, body, kind):
        """Puts the statements of a call into `out`; its value. Two calls in one expression may not touch what one of them changes."""
        touched = arrays_written(body)
        if self.written & (touched | arrays_read(body)):
            raise Refused(self.source_line, "two calls in one expression change the same, in an order that C leaves open",
                          "call in statements of their own")
        self.written |= touched
        if kind == "void":
            self.out += single_return(body, None, self.fresh)
            return number(0)
        if body and isinstance(body[-1], Return) and not any_of(body[:-1], lambda it: isinstance(it, Return)):
            self.out += body[:-1]
            return self.temporary("value", kind, body[-1].value)
        value = self.temporary("value", kind)
        self.out += single_return(body, value, self.fresh)
        return value

    def bound(self, node, parameters, args):
        """The symbols of a function's parameters for a call."""
        moved, scope = changed_names(node.body), {}
        for it, arg in zip(parameters, args):
            before = self.scopes
            kind = self.kinds.of(it)
            if not kind.sizes:
                value = self.value(arg)
                if isinstance(value, Var) and value.type == kind.base and it.name not in moved and not self.addressed:
                    scope[it.name] = Scalar(value.name, value.type)
                elif constant(value) is not None and it.name not in moved and fitting(constant(value), kind.base) == constant(value):
                    scope[it.name] = Constant(constant(value), kind.base if kind.base != BOOL else BOOL,
                                              getattr(value, "text", ""))
                    if kind.base not in ("int32_t",) and value.type != kind.base:
                        scope[it.name] = Constant(constant(value), wide(kind.base))
                else:
                    self.inline_depth -= 1
                    name = self.fresh(f"{node.decl.name}_{it.name}")
                    self.inline_depth += 1
                    self.taken.add(name)
                    self.out.append(Decl(kind.base, name, converted(value, kind.base), 0))
                    scope[it.name] = Scalar(name, kind.base)
            else:
                place = self.pointer(arg)
                if place.target is None or kind.base not in (place.type, "void"):
                    raise Refused(line_of(arg), f"an address of `{place.type}` for one of `{kind.base}`")
                scope[it.name] = self.bound_pointer(node, it, place, it.name in moved)
            self.scopes = before
        return scope

    def bound_pointer(self, node, it, place, moves):
        """A pointer parameter for a call: the array itself, or an index into it."""
        if isinstance(place.target, Array) and not place.before and constant(place.index) == 0 and not moves:
            return place.target
        before = self.steady(place.before)
        index = place.index
        if moves or not isinstance(index, Num):
            index = self.temporary(f"{node.decl.name}_{it.name}_at", "int32_t", index)
        return Pointer(place.target, before, index, place.type, it.name, place.sizes)


TEMPORARIES = {"go", "value", "which", "done", "first", "result", "row", "at"}


def wide(kind):
    """The type that a constant of a type has in expressions."""
    return promoted(kind)


def arrays_read(listed):
    """The arrays that statements read."""
    found = set()
    for it in listed:
        parts = [getattr(it, name, None) for name in ("value", "test", "target")]
        for part in parts:
            if part is not None:
                found |= {inner.array for inner in walk(part) if isinstance(inner, Index)}
        for inner in [*lists(it), getattr(it, "first", []), getattr(it, "step", [])]:
            found |= arrays_read(inner)
    return found


def product(sizes):
    count = 1
    for size in sizes:
        count *= size
    return count


def arrays_written(listed):
    """The arrays that statements write."""
    found = set()
    for it in listed:
        if isinstance(it, (Assign, Step)) and isinstance(it.target, Index):
            found.add(it.target.array)
        for inner in lists(it):
            found |= arrays_written(inner)
        for inner in (getattr(it, "first", []), getattr(it, "step", [])):
            found |= arrays_written(inner)
    return found

