"""Expressions and types of any C, read as a kernel's: what a kernel does not have is noted where the program would stop."""
import re
from dataclasses import dataclass, field

from explaining.habits import ASSIGNING
from explaining.source import FIXED, KEYWORDS, QUALIFIERS, TYPE_WORDS

TYPES = FIXED | {"int", "signed", "unsigned"}
LEVELS = [{"||"}, {"&&"}, {"|"}, {"^"}, {"&"}, {"==", "!="}, {"<", ">", "<=", ">="}, {"<<", ">>"}, {"+", "-"}, {"*", "/", "%"}]
LEVEL = {mark: at for at, marks in enumerate(LEVELS) for mark in marks}
KEYED = {"if", "while", "do", "for", "break", "continue", "return", "switch", "case", "default", "goto", "else"}


@dataclass
class Name:
    """What a name is: `scalar`, `array`, `function` or `other`, of which nothing is judged; the lengths, or the parameters' kinds."""
    kind: str
    parts: list = field(default_factory=list)


class Expressions:
    """Reads expressions and types, and notes what a kernel does not have."""

    def __init__(self, source):
        self.source, self.tokens, self.at = source, source.tokens, 0
        self.notes, self.quiet = [], 0
        self.types, self.scopes = set(), [{}]
        self.loops = self.switches = self.conditional = self.pointed = 0
        self.in_helper = self.returns = False
        self.result = ""
        for name in re.findall(r"(?m)^[ \t]*#[ \t]*define[ \t]+(\w+)", source.text):
            self.scopes[0].setdefault(name, Name("other"))

    # ---- tokens

    def word(self, by=0):
        at = self.at + by
        return self.tokens[at].text if 0 <= at < len(self.tokens) else ""

    def is_name(self, by=0):
        text = self.word(by)
        return bool(re.fullmatch(r"[A-Za-z_]\w*", text)) and text not in KEYWORDS | FIXED and text not in self.source.defines

    def note(self, number, at=None):
        at = self.at if at is None else at
        number = 11 if number == 10 and at >= len(self.tokens) else number
        if not self.quiet and (number, at) not in self.notes:
            self.notes.append((number, at))

    def expect(self, text):
        """Goes behind a mark; where it is missing that is noted, and nothing is passed over."""
        if self.word() == text:
            self.at += 1
            return True
        self.note(10)
        return False

    def quietly(self, read):
        """Reads what is noted as a whole."""
        self.quiet += 1
        read()
        self.quiet -= 1

    def skip(self):
        """Goes behind the bracket that is open at the token."""
        self.at = min(self.source.partner(self.at) + 1, len(self.tokens))

    def to_end(self):
        """Goes behind the next `;` outside of brackets, or in front of the `}` around."""
        while self.at < len(self.tokens) and self.word() not in (";", "}"):
            if self.word() in ("(", "[", "{"):
                self.skip()
            else:
                self.at += 1
        self.at += self.word() == ";"

    # ---- names

    def declare(self, at, name):
        """A name of the innermost block."""
        text, scope = self.tokens[at].text, self.scopes[-1]
        if text in scope and scope[text].kind != "other" and name.kind != "other":
            self.note(21, at)
        scope[text] = name

    def known(self, text):
        return next((scope[text] for scope in reversed(self.scopes) if text in scope), None)

    def use(self, at, indices):
        """A name that is used with so many indices."""
        text = self.tokens[at].text
        found = self.known(text)
        if found is None:
            self.note(20, at)
            self.scopes[0][text] = Name("other")
        elif found.kind == "scalar" and indices:
            self.note(22, at)
        elif self.pointed:
            return
        elif found.kind in ("array", "function") and not indices:
            self.note(23, at)
        elif found.kind == "array" and indices != len(found.parts):
            self.note(24, at)

    # ---- types

    def specifiers(self, void=False):
        """The words of a type; whether a qualifier was noted among them."""
        qualified = bad = False
        words = []
        while True:
            text = self.word()
            if text in QUALIFIERS:
                self.note(10)
                qualified = True
            elif text in ("struct", "union", "enum"):
                self.note(10)
                bad = True
                self.at += self.is_name(1)
                if self.word(1) == "{":
                    self.at += 1
                    self.skip()
                    self.at -= 1
                words.append(text)
            elif text in TYPE_WORDS:
                fits = (text in TYPES or void and text == "void") if not words else words in (["signed"], ["unsigned"]) and text == "int"
                if not fits and not bad:
                    self.note(10)
                    bad = True
                words.append(text)
            elif not words and self.is_name() and (text in self.types or self.is_name(1) or self.word(1) in ("*", ")", ",", "const")):
                if text not in self.types:
                    self.note(10, self.at + (self.braced and self.is_name(1) and not self.in_cast))
                words.append(text)
            else:
                if not words and not self.in_cast:
                    self.note(10)
                return qualified
            self.at += 1

    braced = in_cast = False

    # ---- expressions

    def expression(self):
        self.assignment()
        while self.word() == ",":
            self.note(10)
            self.at += 1
            self.assignment()

    def assignment(self):
        self.ternary()
        while self.word() in ASSIGNING:
            self.note(10)
            self.at += 1
            self.ternary()

    def ternary(self):
        self.binary(0)
        if self.word() == "?":
            self.at += 1
            self.conditional += 1
            self.expression()
            self.expect(":")
            self.ternary()
            self.conditional -= 1

    def binary(self, level):
        self.unary()
        while LEVEL.get(self.word(), -1) >= level:
            mark = self.word()
            self.at += 1
            self.conditional += mark in ("&&", "||")
            self.binary(LEVEL[mark] + 1)
            self.conditional -= mark in ("&&", "||")

    def is_cast(self):
        """Whether a type in parentheses begins here; one of an unknown name is told by what follows."""
        after = self.word(1)
        if after in TYPE_WORDS | QUALIFIERS | self.types:
            return True
        token = self.tokens[self.at + 3] if self.at + 3 < len(self.tokens) else None
        return bool(self.is_name(1) and self.word(2) == ")" and token and self.known(after) is None
                    and (token.kind in ("name", "number") and token.text not in KEYED or token.text == "("))

    def unary(self):
        text = self.word()
        if text in ("+", "-", "~", "!"):
            self.at += 1
            self.unary()
        elif text in ("*", "&", "++", "--"):
            self.note(10)
            self.at += 1
            self.pointed += text in ("*", "&")
            self.unary()
            self.pointed -= text in ("*", "&")
        elif text == "sizeof":
            self.note(10)
            self.at += 1
            if self.word() == "(":
                self.skip()
            else:
                self.quietly(self.unary)
        elif text == "(" and self.is_cast():
            self.cast()
        else:
            self.primary()

    def cast(self):
        if self.is_name(1) and self.word(1) not in self.types:
            self.at += 3
            self.note(10)
        else:
            self.at += 1
            self.in_cast = True
            self.specifiers(void=False)
            self.in_cast = False
            while self.word() == "*":
                self.note(10)
                self.at += 1
            self.expect(")")
        if self.word() == "{":
            self.note(10)
            self.skip()
        else:
            self.unary()

    def primary(self):
        at, token = self.at, self.tokens[self.at] if self.at < len(self.tokens) else None
        if token is None:
            self.note(11)
        elif self.is_name():
            self.at += 1
            if self.word() == "(":
                self.call(at)
            else:
                indices = self.indices()
                if not self.members():
                    self.use(at, indices)
        elif token.kind in ("number", "string", "other") or token.text in self.source.defines:
            self.at += 1
        elif token.text == "(":
            self.at += 1
            self.expression()
            self.expect(")")
        else:
            self.note(10)
            self.at += token.text not in (")", "]", "}", ";", ":", ",", "{")
            return
        self.behind()

    def behind(self):
        """What else may stand behind a value in C."""
        while True:
            if self.word() in ("++", "--"):
                self.note(10)
                self.at += 1
            elif self.word() == "[":
                self.note(10)
                self.indices()
            elif not self.members():
                return

    def members(self):
        """Members of structures behind a name; whether there are some."""
        first = self.at
        while self.word() in (".", "->"):
            if self.word() == "->":
                self.note(10)
            self.at += 2
            self.indices()
        return self.at > first

    def indices(self):
        count = 0
        while self.word() == "[":
            self.at += 1
            # An index is evaluated whenever its element is: what is asked of calls is what is asked around it.
            self.expression()
            if not self.expect("]"):
                return count + 1
            count += 1
        return count

    def call(self, at):
        """A call of a name: what it is, where it stands, and its arguments."""
        found, text = self.known(self.tokens[at].text), self.tokens[at].text
        if found is None:
            self.note(20, at)
            self.scopes[0][text] = Name("other")
        elif found.kind in ("scalar", "array"):
            self.note(17, at)
        elif found.kind == "function" and self.conditional:
            self.note(28, at)
        self.at += 1
        count = 0
        while self.at < len(self.tokens) and self.word() not in (")", ";", "}"):
            begins = self.at
            whole = found and found.kind in ("function", "other") and (not found.parts or found.parts[min(count, len(found.parts) - 1)])
            if whole and self.is_name() and self.word(1) in (",", ")"):
                self.at += 1
            else:
                self.assignment()
            count += 1
            self.at += self.word() == ","
            if self.at == begins:
                break
        self.expect(")")
        if found and found.kind == "function" and count != len(found.parts):
            self.note(29, at)
