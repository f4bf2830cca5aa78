"""Every refusal of a kernel text at once: any C is read, and what a kernel does not have is noted where the program would stop.

The reader goes on behind each place as if it were mended there. `refusals(source)` lists numbers and tokens' places, in the order
of the text; sizes (12, 13, 15) are not judged."""
import math
import re

from explaining import lexical
from explaining.expressions import Expressions, KEYED, Name
from explaining.habits import ASSIGNING
from explaining.source import QUALIFIERS, TYPE_WORDS, value_of

MOST = 1_048_576


class Reader(Expressions):
    """Reads any C, and notes what a kernel does not have."""

    # ---- the text

    def functions(self):
        """Where each function's body begins, its name and whether it begins with `static`, in the order of the text."""
        found, start, at = [], 0, 0
        while at < len(self.tokens):
            text = self.tokens[at].text
            if text == "(" and at and self.tokens[at - 1].kind == "name":
                closes = self.source.partner(at)
                if closes + 1 < len(self.tokens) and self.tokens[closes + 1].text == "{":
                    found.append((self.tokens[at - 1].text, any(it.text == "static" for it in self.tokens[start:at]), closes))
            if text in "([{":
                at = self.source.partner(at)
                start = at + 1 if text == "{" else start
            start = at + 1 if text == ";" else start
            at += 1
        return found

    def whole(self):
        """The whole text."""
        listed, seen = self.functions(), False
        if not self.tokens:
            self.note(11)
        called = {name for name, _, closes in listed for token, after in zip(
            self.tokens[self.source.partner(closes + 1):], self.tokens[self.source.partner(closes + 1) + 1:])
                  if token.text == name and after.text == "("}
        while self.at < len(self.tokens):
            begins = self.at
            if seen:
                self.note(10)
            seen = self.item(called) or seen
            if self.at == begins:
                self.note(10)
                self.at += 1
        if self.tokens and not seen:
            self.note(11, len(self.tokens))

    def item(self, called):
        """A function, or what else stands outside of functions; whether it is a function that ends a kernel text."""
        if self.word() in (";", "}"):
            self.note(10)
            self.at += 1
            return False
        if self.word() == "typedef":
            self.typedef()
            return False
        if self.word() in ("enum", "struct", "union") and "{" in (self.word(1), self.word(2)):
            self.aggregate()
            return False
        at = self.at
        while at < len(self.tokens) and self.tokens[at].text not in ("(", ";", "=", "[", "{", "}"):
            at += 1
        if at < len(self.tokens) and self.tokens[at].text == "(" and self.tokens[at - 1].kind == "name":
            return self.function(at, called)
        self.variables()
        return False

    def typedef(self):
        self.note(10)
        start = self.at
        if "{" in (self.word(2), self.word(3)):
            while self.word() != "{":
                self.at += 1
            if self.tokens[start + 1].text == "enum":
                self.constants()
            else:
                self.skip()
        while self.word() not in (";", "") and self.word() != "}":
            if self.is_name() and self.word(1) in (";", ",", "[", ")"):
                self.types.add(self.word())
            self.at += 1
        self.at += self.word() == ";"

    def aggregate(self):
        """An enumeration or a structure with its list, and the variables that may follow."""
        self.note(10)
        is_enum = self.word() == "enum"
        while self.word() != "{":
            self.at += 1
        if is_enum:
            self.constants()
        else:
            self.skip()
        while self.at < len(self.tokens) and self.word() != ";":
            if self.is_name() and self.word(1) in (";", ",", "=", "["):
                self.scopes[-1][self.word()] = Name("other")
            self.at += 1
        self.at += 1

    def constants(self):
        """The names of an enumeration's list."""
        closes = self.source.partner(self.at)
        for at in range(self.at + 1, min(closes, len(self.tokens))):
            if self.tokens[at - 1].text in ("{", ","):
                self.scopes[0][self.tokens[at].text] = Name("other")
        self.at = min(closes + 1, len(self.tokens))

    def variables(self):
        """Tables and variables outside of functions: one note for each declaration, where the program would stop."""
        start, noted = self.at, len(self.notes)
        self.at += self.word() == "static" and self.word(1) != "static"
        table = self.specifiers()
        first = True
        while self.at < len(self.tokens) and self.word() != ";":
            if self.word() == "*":
                self.note(10)
                self.at += 1
                continue
            if not self.is_name():
                break
            at = self.at
            self.at += 1
            if not table or not first:
                self.note(10)
            sizes = self.skipped_sizes()
            self.scopes[0][self.tokens[at].text] = Name("array", sizes) if sizes else Name("other")
            self.value()
            first = False
            if self.word() == ",":
                self.at += 1
        if len(self.notes) == noted:
            self.note(10, start)
        self.to_end()

    def skipped_sizes(self):
        """The dimensions that stand here, which are noted as a whole."""
        sizes = []
        while self.word() == "[":
            sizes.append("")
            self.skip()
        return sizes

    def value(self):
        """What stands behind `=`."""
        if self.word() == "=":
            self.at += 1
            if self.word() == "{":
                self.skip()
            else:
                self.quietly(self.assignment)

    def function(self, opens, called):
        """A function or its declaration; whether it ends a kernel text."""
        name = self.tokens[opens - 1].text
        closes = self.source.partner(opens)
        is_static = self.word() == "static"
        defined = closes + 1 < len(self.tokens) and self.tokens[closes + 1].text == "{"
        self.in_helper = is_static or name in called
        if not defined and closes < len(self.tokens) and self.tokens[min(closes + 1, len(self.tokens) - 1)].text == ";":
            self.quietly(lambda: setattr(self, "at", closes + 1))
            self.note(10)
            self.at += 1
            return False
        self.at += is_static
        starts = self.at
        self.specifiers(void=not self.in_helper)
        self.result = " ".join(it.text for it in self.tokens[starts:opens - 1])
        while self.word() == "*":
            self.note(10)
            self.at += 1
        if self.at < opens - 1:
            self.note(10)
        self.at = opens + 1
        self.scopes.append({})
        kinds = self.parameters()
        if self.expect("{"):
            self.body()
        self.scopes.pop()
        if name in self.scopes[0] and self.scopes[0][name].kind == "function":
            self.note(21, opens - 1)
        self.scopes[0][name] = Name("function", kinds)
        return not is_static

    def parameters(self):
        """The parameters behind `(`, to behind `)`; whether each is an array or a pointer."""
        kinds, self.elements = [], 0
        if self.word() == "void" and self.word(1) == ")":
            self.at += 1
        while self.at < len(self.tokens) and self.word() not in (")", "{", ";"):
            begins = self.at
            self.specifiers()
            pointer = False
            while self.word() in ("*",) or self.word() in QUALIFIERS:
                pointer = pointer or self.word() == "*"
                self.note(10)
                self.at += 1
            if not self.is_name():
                self.note(10)
                if self.word() not in (",", ")"):
                    self.at += 1
                    self.to_comma()
            else:
                at = self.at
                self.at += 1
                sizes = self.sizes(at)
                self.declare(at, Name("other") if pointer else Name("array", sizes) if sizes else Name("scalar"))
                if len(sizes) > 3:
                    self.note(24, at)
                self.elements += math.prod(size or 0 for size in sizes) if sizes else 0
                if self.elements > MOST:
                    self.note(25, at)
                kinds.append(pointer or bool(sizes))
                if self.word() not in (",", ")"):
                    self.note(10)
                    self.to_comma()
            if self.word() == ",":
                self.at += 1
                if self.word() == ")":
                    self.note(10)
            if self.at == begins:
                break
        self.expect(")")
        return kinds

    def to_comma(self):
        while self.at < len(self.tokens) and self.word() not in (",", ")", "{", ";"):
            if self.word() in ("(", "["):
                self.skip()
            else:
                self.at += 1

    def sizes(self, name):
        """The lengths in the brackets of a parameter."""
        sizes = []
        while self.word() == "[":
            opens, closes = self.at, self.source.partner(self.at)
            if self.in_helper and not sizes:
                self.note(10)
            inner = self.source.between(opens + 1, closes)
            value = value_of(inner, self.source.defines) if inner else None
            if not self.in_helper and opens + 1 < len(self.tokens):
                single = closes == opens + 2 and (self.tokens[opens + 1].kind == "number" or inner in self.source.defines)
                if not single:
                    second = self.tokens[opens + 1].kind == "number" or self.tokens[opens + 1].text in self.source.defines
                    self.note(10, opens + 1 + (second and inner != ""))
                elif value == 0:
                    self.note(25, name)
            sizes.append(value)
            self.at = min(closes + 1, len(self.tokens))
        return sizes

    # ---- statements

    def body(self):
        """A function's block, behind its `{`, to behind its `}`."""
        self.braced, self.returns = True, False
        self.loops = self.switches = self.conditional = 0
        while self.at < len(self.tokens) and self.word() != "}":
            begins, is_return = self.at, self.word() == "return"
            if self.in_helper and self.returns:
                self.note(10)
                self.in_helper = False
            self.statement(declares=True, nested=False)
            self.returns = self.returns or is_return
            self.at += self.at == begins
        if self.in_helper and not self.returns and "void" not in self.result:
            self.note(10)
        self.expect("}")
        self.braced = False

    def is_declaration(self):
        text = self.word()
        if text in TYPE_WORDS | QUALIFIERS | self.types | {"typedef"}:
            return True
        known = self.known(text)
        return self.is_name() and (self.is_name(1) or self.word(1) == "*" and self.is_name(2) and known is None
                                   and self.word(3) in ("=", ";", ","))

    def statement(self, declares=False, nested=True):
        text = self.word()
        ways = {"{": self.block, "if": self.choice, "while": self.while_, "do": self.do, "for": self.for_, "return": self.return_,
                "switch": self.switch, "break": self.leave, "continue": self.leave}
        if text == ";":
            self.at += 1
        elif text == "return":
            self.return_(nested)
        elif text in ways:
            ways[text]()
        elif text in ("case", "default"):
            self.case()
        elif text == "goto":
            self.note(10)
            self.to_end()
        elif text == "else":
            self.note(10)
            self.at += 1
            self.statement()
        elif self.is_name() and self.word(1) == ":" :
            self.note(10, self.at + 1)
            self.at += 2
        elif self.is_declaration():
            if not declares:
                self.note(10)
            self.declaration()
        else:
            self.simple()
            self.finish()

    def finish(self):
        """The `;` behind a statement."""
        while self.word() == ",":
            self.note(10)
            self.at += 1
            self.simple()
        if self.word() == ";":
            self.at += 1
            return
        self.note(10)
        if self.word() in (")", "]", ":"):
            self.at += 1
            self.at += self.word() == ";"
        elif not (self.is_name() or self.word() in KEYED | TYPE_WORDS | QUALIFIERS | {"}", "{", "++", "--"}):
            self.to_end()

    def block(self):
        self.at += 1
        self.scopes.append({})
        while self.at < len(self.tokens) and self.word() != "}":
            begins = self.at
            self.statement(declares=True)
            self.at += self.at == begins
        self.scopes.pop()
        self.expect("}")

    def part(self):
        """A statement that is a part of another, with a block of its own."""
        self.scopes.append({})
        self.statement()
        self.scopes.pop()

    def condition(self, loop):
        self.expect("(")
        self.conditional += loop
        self.expression()
        self.conditional -= loop
        self.expect(")")

    def choice(self):
        self.at += 1
        self.condition(False)
        self.part()
        if self.word() == "else":
            self.at += 1
            self.part()

    def loop(self):
        self.loops += 1
        self.part()
        self.loops -= 1

    def while_(self):
        self.at += 1
        self.condition(True)
        self.loop()

    def do(self):
        self.at += 1
        self.loop()
        self.expect("while")
        self.condition(True)
        self.expect(";")

    def for_(self):
        self.at += 1
        self.scopes.append({})
        self.expect("(")
        if self.is_declaration():
            self.declaration()
        else:
            if self.word() != ";":
                self.simples()
            self.expect(";")
        if self.word() != ";":
            self.conditional += 1
            self.expression()
            self.conditional -= 1
        self.expect(";")
        if self.word() != ")":
            self.simples()
        self.expect(")")
        self.loop()
        self.scopes.pop()

    def simples(self):
        """Assignments and steps in the head of a `for`, with a note at each comma."""
        self.simple()
        while self.word() == ",":
            self.note(10)
            self.at += 1
            self.simple()

    def switch(self):
        self.note(10)
        self.at += 1
        self.condition(False)
        self.switches += 1
        self.part()
        self.switches -= 1

    def case(self):
        """`case` and `default`, which belong to the `switch` around."""
        if not self.switches:
            self.note(10)
        is_case = self.word() == "case"
        self.at += 1
        if is_case:
            self.quietly(self.ternary)
        self.at += self.word() == ":"

    def leave(self):
        if not self.loops and not (self.switches and self.word() == "break"):
            self.note(27)
        self.at += 1
        self.finish()

    def return_(self, nested=True):
        at = self.at
        if self.in_helper and nested:
            self.note(10)
        self.at += 1
        valued = self.word() != ";"
        if valued:
            self.expression()
        if not self.in_helper and valued == (self.result == "void"):
            self.note(26, at)
        self.finish()

    def declaration(self):
        """A declaration in a body, to behind its `;`."""
        if self.word() == "typedef":
            self.typedef()
            return
        if self.word() in ("enum", "struct", "union") and "{" in (self.word(1), self.word(2)):
            self.aggregate()
            return
        table = self.specifiers()
        while self.at < len(self.tokens):
            pointer = False
            while self.word() == "*" or self.word() in QUALIFIERS:
                self.note(10)
                pointer = True
                self.at += 1
            if not self.is_name():
                self.note(10)
                break
            at = self.at
            self.at += 1
            if self.word() == "[":
                if not table:
                    self.note(10)
                self.declare(at, Name("array", self.skipped_sizes()))
            else:
                self.declare(at, Name("other" if pointer else "scalar"))
            is_array = self.word(-1) == "]"
            if self.word() == "=":
                self.at += 1
                if self.word() == "{":
                    if not is_array:
                        self.note(10)
                    self.skip()
                else:
                    self.pointed += pointer
                    self.assignment()
                    self.pointed -= pointer
            if self.word() != ",":
                break
            self.at += 1
        self.finish()

    def simple(self):
        """An assignment or a step; of another expression the token at which the program would stop is noted."""
        if self.word() in ("++", "--"):
            self.at += 1
            if not self.is_name():
                self.note(10)
            self.unary()
            return
        if not self.is_name():
            self.note(10)
            self.expression()
            return
        at = self.at
        self.at += 1
        indices = self.indices()
        members = self.members()
        if self.word() in ASSIGNING or self.word() in ("++", "--"):
            if not members:
                self.use(at, indices)
            step = self.word() in ("++", "--")
            self.at += 1
            if not step:
                self.assignment()
            return
        self.note(10)
        self.at = at
        self.quiet_operator = True
        first = len(self.notes)
        self.assignment()
        # A call that is a statement is told once: as what it is, not also by the place where it stands.
        self.notes[first:] = [it for it in self.notes[first:] if it[0] not in (20, 28) or it[1] != at]


def refusals(source):
    """Each refusal of a text: its number, line and column."""
    reader = Reader(source)
    reader.whole()
    end = len(source.text)
    found = lexical.refusals(source) + [(number, source.tokens[at].start if at < len(source.tokens) else end)
                                        for number, at in sorted(reader.notes, key=lambda it: it[1])]
    return [(number, *source.place(start)) for number, start in sorted(found, key=lambda it: (it[1], it[0]))]


def first(source):
    """The refusal that the program tells: of the lexer, else of the parser, else of the type checker; None where there is none."""
    stages = {range(1, 7): 0, range(10, 14): 1, range(17, 30): 2}
    listed = refusals(source)
    return min(listed, key=lambda it: next(at for numbers, at in stages.items() if it[0] in numbers), default=None)
