"""Statements with one way out: jumps from the middle become choices, or a flag that is asked behind."""
from dataclasses import replace

from mending.tree import Assign, Block, Decl, Do, For, If, Jump, Return, Var, While, any_of, negation, number

LOOPS = (While, Do, For)


class Exits:
    """Takes a kind of jump out of lists of statements: `return`, or the `break` of a `switch`."""

    def __init__(self, is_exit, into_loops, assigned, fresh):
        self.is_exit, self.into_loops, self.assigned, self.fresh = is_exit, into_loops, assigned, fresh
        self.flag = None

    def has(self, listed):
        return any_of(listed, self.is_exit, self.into_loops)

    def always(self, listed):
        """Whether the statements always end by the jump."""
        return any(self.is_exit(it) or isinstance(it, If) and it.no and self.always(it.yes) and self.always(it.no)
                   or isinstance(it, Block) and self.always(it.body) for it in listed)

    def without(self, listed):
        """The statements without the jump; what stands behind one is not reached."""
        out = []
        for at, it in enumerate(listed):
            rest = listed[at + 1:]
            if self.is_exit(it):
                return out + self.assigned(it)
            if not self.has([it]):
                out.append(it)
            elif isinstance(it, If) and (not rest or self.always(it.yes) or self.always(it.no)):
                yes = it.yes + ([] if self.always(it.yes) else rest)
                no = it.no + ([] if self.always(it.no) else rest)
                yes, no = self.without(yes), self.without(no)
                return out + ([replace(it, yes=yes, no=no)] if yes else [replace(it, test=negation(it.test), yes=no, no=[])] if no else [])
            elif isinstance(it, Block) and (not rest or self.always(it.body)):
                return out + [replace(it, body=self.without(it.body))]
            else:
                out += self.flagged([it], False)
                return out + ([If(negation(self.name()), self.without(rest))] if rest else [])
        return out

    def name(self):
        self.flag = self.flag or Var(self.fresh("done"), "int32_t")
        return self.flag

    def flagged(self, listed, in_loop):
        """The statements, with the flag set in place of the jump; a loop is left."""
        out = []
        for at, it in enumerate(listed):
            rest = listed[at + 1:]
            if self.is_exit(it):
                return out + self.assigned(it) + [Assign(self.name(), "=", number(1))] + [Jump("break")] * in_loop
            if not self.has([it]):
                out.append(it)
                continue
            if isinstance(it, LOOPS):
                out.append(replace(it, body=self.flagged(it.body, True)))
            elif isinstance(it, If):
                out.append(replace(it, yes=self.flagged(it.yes, in_loop), no=self.flagged(it.no, in_loop)))
            else:
                out.append(replace(it, body=self.flagged(it.body, in_loop)))
            if in_loop and isinstance(it, LOOPS):
                out.append(If(self.name(), [Jump("break")]))
            elif not in_loop and rest:
                return out + [If(negation(self.name()), self.flagged(rest, False))]
        return out

    def whole(self, listed):
        """The statements, and before them the flag where there is one."""
        out = self.without(listed)
        return ([Decl("int32_t", self.flag.name, number(0))] if self.flag else []) + out


def single_return(listed, result, fresh):
    """The statements of a function without `return`: its value goes to a variable, where there is one."""
    assigned = (lambda it: [Assign(result, "=", it.value)]) if result else (lambda it: [])
    return Exits(lambda it: isinstance(it, Return), True, assigned, fresh).whole(listed)


def without_breaks(listed, fresh):
    """The statements of a case without its `break`."""
    return Exits(lambda it: isinstance(it, Jump) and it.word == "break", False, lambda it: [], fresh).whole(listed)
