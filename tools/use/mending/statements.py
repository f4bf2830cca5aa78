"""Statements of C as statements of kernels."""
from dataclasses import replace

from pycparser import c_ast

from mending.exits import without_breaks
from mending.expressions import Expressions, characters
from mending.kinds import Array, Pointer, Scalar, State, line_of
from mending.prepare import Refused
from mending.tree import (BOOL, Assign, Block, Cast, Decl, Do, For, If, Index, Jump, Num, Return, Step, Var, While, any_of, binary, bits,
                          constant, converted, is_truth, negation, number, promoted, truth)

SILENT = {"printf", "puts", "putchar", "assert", "fprintf", "fflush", "perror"}
LOOPS = (c_ast.While, c_ast.DoWhile, c_ast.For)


class Statements(Expressions):
    """What reads statements."""

    def nested(self, *nodes, loop=False):
        """The statements of a part, in a list of their own."""
        out, self.out = self.out, []
        self.scopes.append({})
        self.in_loop += loop
        for node in nodes:
            if node is not None:
                self.statement(node)
        self.in_loop -= loop
        self.scopes.pop()
        self.out, inner = out, self.out
        return inner[0].body if len(inner) == 1 and isinstance(inner[0], Block) else inner

    def statement(self, node):
        """Puts a statement into `out`."""
        self.at_line(node)
        if isinstance(node, c_ast.DeclList):
            for it in node.decls:
                self.statement(it)
            return
        way = getattr(self, type(node).__name__.lower() + "_", None)
        if way is not None:
            way(node)
        elif isinstance(node, c_ast.EmptyStatement):
            pass
        else:
            self.expression_statement(node)

    def expression_statement(self, node):
        """An expression as a statement."""
        if isinstance(node, c_ast.ExprList):
            self.note(node, "what the comma joins is statements of their own")
            for it in node.exprs:
                self.expression_statement(it)
            return
        if isinstance(node, c_ast.Assignment):
            if isinstance(node.rvalue, c_ast.Assignment):
                self.note(node, "`x = y = e` is two statements")
            self.assignment(node)
        elif isinstance(node, c_ast.UnaryOp) and node.op in ("++", "--", "p++", "p--"):
            if self.is_pointer(node.expr):
                self.pointer_step(node)
            else:
                self.out.append(self.step_of(self.target(node.expr), node.op[-2:]))
        elif isinstance(node, c_ast.FuncCall) and isinstance(node.name, c_ast.ID) and node.name.name in SILENT | {"memset", "memcpy"} \
                and node.name.name not in self.functions:
            self.library(node)
            return
        elif isinstance(node, c_ast.Cast) and isinstance(node.expr, c_ast.ID):
            self.note(node, "a statement without effect left away")
            return
        else:
            count = len(self.out)
            self.value(node)
            if len(self.out) == count and not self.later:
                self.note(node, "a statement without effect left away")
        self.out += self.later
        self.later = []
        if self.written and self.out and isinstance(self.out[-1], Assign):
            self.judge_order(self.out[-1].value)
        self.written = set()

    # ---- declarations

    def decl_(self, node):
        """A declaration of a body."""
        if node.name is None:
            self.kinds.of(node.type)
            return
        if isinstance(node.type, c_ast.FuncDecl):
            return
        kind = self.kinds.of(node)
        storage = [word for word in node.storage if word not in ("auto", "register")]
        for word in node.storage:
            if word in ("auto", "register"):
                self.note(node, f"`{word}` left away")
        if kind.sizes and not kind.pointer:
            self.local_array(node, kind, "static" in storage)
        elif kind.pointer:
            self.local_pointer(node, kind)
        elif kind.base == "void":
            raise Refused(line_of(node), "a variable of type `void`")
        elif "static" in storage and "const" not in (node.quals or []):
            self.state(node, kind)
        else:
            self.scalar(node, kind)

    def typedef_(self, node):
        self.kinds.define(node)

    def scalar(self, node, kind):
        """A variable, which is known behind its own value."""
        value = None
        if node.init is not None:
            init = node.init.exprs[0] if isinstance(node.init, c_ast.InitList) else node.init
            if self.is_pointer(init):
                raise Refused(line_of(node), "an address as a number")
            value = self.value(init)
            if kind.base == BOOL and not is_truth(value):
                self.note(node, "a value for a `bool` is compared with 0")
            value = converted(value, kind.base)
        name = self.fresh(node.name)
        symbol = Scalar(name, kind.base, constant(value) if value is not None and "const" in (node.quals or []) else None)
        self.scopes[-1][node.name] = symbol
        self.out.append(Decl(kind.base, name, value, self.line))
        behind, self.later = self.later, []
        self.out += behind
        if value is not None:
            self.judge_order(value)

    def local_pointer(self, node, kind):
        """A pointer: an index into one array."""
        name = self.fresh(f"{node.name}_at")
        symbol = Pointer(None, (), Var(name, "int32_t"), kind.base, node.name, kind.sizes)
        self.scopes[-1][node.name] = symbol
        self.note(node, f"the pointer `{node.name}` is the index `{name}`")
        index = None
        if node.init is not None and not (isinstance(node.init, c_ast.Constant) or isinstance(node.init, c_ast.ID)
                                          and node.init.name == "NULL"):
            self.bind(symbol, self.pointer(node.init), node)
            index = self.bound_index
        self.out.append(Decl("int32_t", name, index, self.line))
        behind, self.later = self.later, []
        self.out += behind

    def local_array(self, node, kind, is_static):
        """An array of a body: a parameter; where it begins anew at each turn, its values are assigned."""
        if id(node) in self.lasting:
            self.scopes[-1][node.name] = self.lasting[id(node)]
            return
        sizes = self.sizes_of(kind, node)
        const = is_static or "const" in (node.quals or []) or "const" in (qualifiers_inside(node.type))
        once = not self.in_loop and not self.inline_depth
        values = self.numbers_of(node.init, sizes, kind.base) if node.init is not None else None
        symbol = self.new_array(node.name, kind.base, sizes, values if const or once else None, node)
        self.scopes[-1][node.name] = symbol
        if is_static or const and values is not None:
            self.lasting[id(node)] = symbol
        if node.init is not None and values is None or node.init is not None and not const and not once:
            self.assign_array(symbol, node)

    def assign_array(self, symbol, node):
        """The values of an array at its declaration, element by element; those that are left out are 0."""
        if not isinstance(node.init, c_ast.InitList) or len(symbol.sizes) != 1:
            raise Refused(line_of(node), f"the values of `{node.name}` are not known when the circuit is made", "assign its elements")
        given = {}
        for at, it in enumerate(node.init.exprs):
            if isinstance(it, (c_ast.NamedInitializer, c_ast.InitList)):
                raise Refused(line_of(node), f"the values of `{node.name}`", "assign its elements")
            given[at] = self.value(it)
        left = symbol.sizes[0] - len(given)
        if left > 4:
            name = self.fresh("at")
            at = Var(name, "int32_t")
            self.out.append(For([Decl("int32_t", name, number(len(given)))], binary("<", at, number(symbol.sizes[0])), [Step(at, "++")],
                                [Assign(Index(symbol.name, (at,), symbol.type), "=", number(0))], self.line))
        else:
            given.update({at: number(0) for at in range(len(given), symbol.sizes[0])})
        for at, part in given.items():
            self.out.append(self.assign(Index(symbol.name, (number(at),), symbol.type), "=", part))

    def state(self, node, kind):
        """A variable that outlives a call: an array of one element."""
        if id(node) in self.lasting:
            self.scopes[-1][node.name] = self.lasting[id(node)]
            return
        first = self.constant_value(node.init) if node.init is not None else 0
        if first is None:
            raise Refused(line_of(node), f"the first value of `{node.name}` is not known")
        array = self.new_array(node.name, kind.base, [1], [first], node, what="a variable that outlives a call")
        self.scopes[-1][node.name] = self.lasting[id(node)] = State(array.name, kind.base)

    # ---- choices and loops

    def compound_(self, node):
        inner = self.nested(*(node.block_items or []))
        if any(isinstance(it, Decl) for it in inner):
            self.out.append(Block(inner, self.line))
        else:
            self.out += inner

    def if_(self, node):
        line = self.line
        test = self.full(node.cond)
        yes, no = self.nested(node.iftrue), self.nested(node.iffalse)
        self.out.append(If(test, yes, no, line))

    def while_(self, node):
        line = self.line
        head, test, behind = self.loop_condition(node.cond)
        body = self.nested(node.stmt, loop=True)
        if head or behind:
            self.note(node, "what the condition of the loop changes is at the begin of its body")
            self.out.append(While(number(1), self.leaving(head, test, behind) + body, line))
        else:
            self.out.append(While(test, body, line))

    def loop_condition(self, node):
        """The condition of a loop, with its statements before and behind."""
        part, before, behind = self.apart(node)
        self.judge_order(part)
        return before, part, behind

    def leaving(self, head, test, behind):
        """The statements that test a condition at the begin of a turn and leave the loop by `break`."""
        if isinstance(test, Num) and test.value and not test.text and not behind:
            return head
        if not behind:
            return head + [If(negation(test), [Jump("break")])]
        go = Var(self.fresh("go"), "int32_t")
        return head + [Decl("int32_t", go.name, truth(test)), *behind, If(negation(go), [Jump("break")])]

    def dowhile_(self, node):
        line = self.line
        head, test, behind = self.loop_condition(node.cond)
        body = self.nested(node.stmt, loop=True)
        if not head and not behind:
            self.out.append(Do(body, test, line))
            return
        self.note(node, "what the condition of the loop changes is a statement of its own")
        if any_of(body, lambda it: isinstance(it, Jump) and it.word == "continue", into_loops=False) or any(
                isinstance(it, Decl) for it in head):
            first = Var(self.fresh("first"), "int32_t")
            self.out.append(Decl("int32_t", first.name, number(1), line))
            head = [If(negation(first), self.leaving(head, test, behind)), Assign(first, "=", number(0))]
            self.out.append(While(number(1), head + body, line))
            return
        if behind:
            go = Var(self.fresh("go"), "int32_t")
            self.out.append(Decl("int32_t", go.name, None, line))
            self.out.append(Do(body + head + [Assign(go, "=", truth(test)), *behind], go, line))
        else:
            self.out.append(Do(body + head, test, line))

    def for_(self, node):
        line, outer = self.line, self.out
        self.scopes.append({})
        self.out = []
        first = self.first_part(node.init)
        before, self.out = self.out, []
        head, test, behind = self.loop_condition(node.cond) if node.cond is not None else ([], None, [])
        steps = []
        if node.next is not None:
            self.at_line(node)
            self.expression_statement(node.next)
            steps, self.out = self.out, []
        body = self.nested(node.stmt, loop=True)
        if head or behind:
            self.note(node, "what the condition of the loop changes is at the begin of its body")
            body, test = self.leaving(head, test, behind) + body, None
        step = steps[-1:] if steps and isinstance(steps[-1], (Assign, Step)) and not any(isinstance(it, Decl) for it in steps) else []
        if len(steps) > len(step):
            self.note(node, "of the steps of a `for` all but the last are at the end of its body")
            more = steps[:len(steps) - len(step)]
            body = before_continue(body, more) + more
        self.scopes.pop()
        self.out = outer
        loop = For(first, test, step, body, line)
        if any(isinstance(it, Decl) for it in before):
            self.out.append(Block([*before, loop], line))
        else:
            self.out += [*before, loop]

    def first_part(self, node):
        """The first part of a `for`; what has no place in it is put into `out`."""
        if node is None:
            return []
        count = len(self.out)
        self.statement(node)
        made = self.out[count:]
        kinds = {it.type for it in made if isinstance(it, Decl)}
        if made and all(isinstance(it, Decl) for it in made) and len(kinds) == 1:
            del self.out[count:]
            return made
        if made and isinstance(made[-1], (Assign, Step)) and not any(isinstance(it, Decl) for it in made):
            if len(made) > 1:
                self.note(node, "of the first part of a `for` all but the last assignment is before the loop")
            self.out.pop()
            return made[-1:]
        return []

    def break_(self, _):
        self.out.append(Jump("break", self.line))

    def continue_(self, _):
        self.out.append(Jump("continue", self.line))

    def return_(self, node):
        line = self.line
        value = None
        if node.expr is None and self.result != "void":
            raise Refused(line_of(node), "a `return` without a value in a function with a result", "return a value")
        if node.expr is not None:
            if self.result == "void":
                self.expression_statement(node.expr)
            else:
                value = self.value(node.expr)
                if self.result == BOOL and not is_truth(value):
                    self.note(node, "a value for a `bool` is compared with 0")
                value = converted(value, self.result)
                behind = [it for it in self.later if isinstance(it.target, Index)]
                if behind:
                    value = self.temporary("value", self.result, value)
                    self.out += behind
                self.later = []
                self.judge_order(value)
        self.out.append(Return(value, line))

    def label_(self, node):
        if node.name in self.wanted_labels and node.name not in self.tails:
            self.goto_(node)
        self.note(node, f"the label `{node.name}:` left away")
        self.statement(node.stmt)

    def goto_(self, node):
        """A jump to the end of the function: what stands from the label on is written out in its place."""
        if node.name not in self.tails:
            raise Refused(line_of(node), f"`goto {node.name}`", "leave loops by `break` and `continue`, and the kernel by `return`")
        self.note(node, f"what stands from `{node.name}:` on is in place of `goto {node.name}`")
        scopes, self.scopes = self.scopes, self.scopes[:self.outermost]
        made = self.nested(*self.tails[node.name])
        self.scopes = scopes
        self.out += made if made and isinstance(made[-1], Return) else [*made, Return()]

    def pragma_(self, node):
        self.note(node, "`#pragma` left away")

    # ---- switch

    def switch_(self, node):
        """`switch` as a chain of `if`; a case that goes on into the next has its statements too."""
        line = self.line
        which = self.full(node.cond, tested=False)
        kind = promoted(which.type)
        items = node.stmt.block_items or [] if isinstance(node.stmt, c_ast.Compound) else [node.stmt]
        if any(not isinstance(it, (c_ast.Case, c_ast.Default)) for it in items):
            raise Refused(line_of(node), "a `switch` whose body begins with another statement than `case`", "write a chain of `if`")
        if not isinstance(which, (Num, Var)):
            which = self.temporary("which", kind, which)
        self.scopes.append({})
        groups = self.groups(items)
        chain, last = [], []
        for labels, nodes in groups:
            body = without_breaks(self.case_body(nodes), self.fresh)
            if None in labels:
                last = body
                continue
            tests = [binary("==", which, it) for it in labels]
            test = tests[0]
            for it in tests[1:]:
                test = binary("||", test, it)
            chain.append((test, body))
        self.scopes.pop()
        self.note(node, "`switch` is a chain of `if`")
        made = last
        for test, body in reversed(chain):
            made = [If(test, body, made)]
        if made and isinstance(made[0], If) and chain:
            made[0] = replace(made[0], line=line)
        self.out += [Block(made)] if any(isinstance(it, Decl) for it in made) else made

    def groups(self, items):
        """The labels and the statements of each group of cases; None is the label of `default`."""
        groups, labels = [], []
        for at, it in enumerate(items):
            labels.append(None if isinstance(it, c_ast.Default) else self.case_label(it.expr))
            if not it.stmts:
                continue
            nodes = list(it.stmts)
            below = at + 1
            while not leaves(nodes) and below < len(items):
                nodes += items[below].stmts or []
                if below == at + 1 or items[below].stmts:
                    self.note(it, "a case that goes on into the next one has its statements too")
                below += 1
            groups.append((labels, nodes))
            labels = []
        return groups

    def case_label(self, node):
        part = self.value(node)
        if constant(part) is None:
            raise Refused(line_of(node), "a `case` whose number is not known")
        return part if isinstance(part, Num) else number(constant(part), part.type)

    def case_body(self, nodes):
        return self.nested(*nodes)

    case_ = default_ = lambda self, node: self.misplaced(node)

    def misplaced(self, node):
        raise Refused(line_of(node), "a `case` inside another statement of its `switch`", "write a chain of `if`")

    # ---- the library

    def library(self, node):
        """What the library does: printing is left away, memory is set and copied by loops."""
        name, args = node.name.name, list(node.args.exprs) if node.args else []
        if name in SILENT:
            if any(changes(it) for it in args):
                raise Refused(line_of(node), f"`{name}` of what changes something", "make the change a statement of its own")
            self.note(node, f"`{name}` left away: it prints or checks")
            return
        place = self.pointer(args[0])
        if not isinstance(place.target, Array):
            raise Refused(line_of(node), f"`{name}` of what is no array", "assign it")
        width = bits(place.type) // 8
        count = self.elements(args[2], width, node)
        name_at = self.fresh("at")
        at = Var(name_at, "int32_t")
        target = self.at(self.moved_to(place, at), (), node)
        if name == "memset":
            part = self.value(args[1])
            if width > 1 and constant(part) != 0:
                raise Refused(line_of(node), "`memset` of bytes other than 0 in wider elements", "write a loop")
        else:
            source = self.pointer(args[1])
            if source.type != place.type:
                raise Refused(line_of(node), "`memcpy` between elements of two types", "write a loop")
            part = self.at(self.moved_to(source, at), (), node)
        self.note(node, f"`{name}` is a loop")
        self.out.append(For([Decl("int32_t", name_at, number(0))], binary("<", at, count), [Step(at, "++")], [Assign(target, "=", part)],
                            self.line))

    def moved_to(self, place, at):
        return self.moved(place, at, "+")

    def elements(self, node, width, call):
        """A number of bytes as one of elements."""
        part = self.value(node)
        value = constant(part)
        if value is not None and value % width == 0:
            return number(value // width)
        if width == 1:
            return part if isinstance(part, Var) and bits(part.type) <= 32 else Cast(part, "int32_t")
        if isinstance(node, c_ast.BinaryOp) and node.op == "*":
            for one, other in ((node.left, node.right), (node.right, node.left)):
                if self.constant_value(one) == width:
                    return Cast(self.value(other), "int32_t")
        raise Refused(line_of(call), "a number of bytes that is no number of elements", "write a loop")

    def sizes_of(self, kind, node):
        """The sizes of an array whose first may be that of its values."""
        sizes = list(kind.sizes)
        if sizes[0] is None and isinstance(node.init, c_ast.InitList):
            sizes[0] = counted(node.init, sizes[1:])
        elif sizes[0] is None and isinstance(node.init, c_ast.Constant) and node.init.type == "string":
            sizes[0] = len(characters(node.init.value, line_of(node))) + 1
        if node.name in self.lengths and sizes[0] is None:
            sizes[0] = self.lengths[node.name]
            self.note(node, f"`{node.name}` is an array of {sizes[0]}")
        if None in sizes:
            raise Refused(line_of(node), f"the length of `{node.name}` is not known when the circuit is made",
                          f"say the greatest that it may have, --length {node.name}=N")
        return sizes


def counted(node, rest):
    """The first length of an array without one: as many as its list has."""
    flat = rest and not any(isinstance(it, c_ast.InitList) for it in node.exprs)
    count = 1
    for size in rest if flat else []:
        count *= size
    return -(-len(node.exprs) // count)


def changes(node):
    """Whether an expression changes something, or calls."""
    return (isinstance(node, (c_ast.Assignment, c_ast.FuncCall)) or isinstance(node, c_ast.UnaryOp) and node.op in ("++", "--", "p++", "p--")
            or any(changes(inner) for _, inner in node.children()))


def qualifiers_inside(node):
    """The qualifiers of the elements of an array."""
    while isinstance(node, c_ast.ArrayDecl):
        node = node.type
    return getattr(node, "quals", None) or []


def leaves(nodes):
    """Whether statements of a case end by leaving it."""
    if not nodes:
        return False
    last = nodes[-1]
    if isinstance(last, c_ast.Compound):
        return leaves(last.block_items or [])
    if isinstance(last, c_ast.If) and last.iffalse is not None:
        return leaves([last.iftrue]) and leaves([last.iffalse])
    return isinstance(last, (c_ast.Break, c_ast.Continue, c_ast.Return, c_ast.Goto))


def before_continue(listed, more):
    """Statements with some before each `continue` of their loop."""
    out = []
    for it in listed:
        if isinstance(it, Jump) and it.word == "continue":
            out += [*more, it]
        elif isinstance(it, If):
            out.append(replace(it, yes=before_continue(it.yes, more), no=before_continue(it.no, more)))
        elif isinstance(it, Block):
            out.append(replace(it, body=before_continue(it.body, more)))
        else:
            out.append(it)
    return out

