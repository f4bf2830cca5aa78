"""Kernel texts, read as a designer writes them: any C, not only kernels. Columns count bytes, as those of the program do."""
import re
from bisect import bisect_right
from dataclasses import dataclass

from explaining.constants import constant_type, value_of

__all__ = ["FIXED", "KEYWORDS", "QUALIFIERS", "NUMBER", "TYPE_WORDS", "Source", "Token", "constant_type", "readable", "shown", "value_of"]

FIXED = {f"{sign}int{bits}_t" for sign in ("", "u") for bits in (8, 16, 32, 64)}
KEYWORDS = set("auto break case char const continue default do double else enum extern float for goto if inline int long register "
               "restrict return short signed sizeof static struct switch typedef union unsigned void volatile while "
               "_Bool _Complex _Imaginary".split())
TYPE_WORDS = FIXED | {"int", "signed", "unsigned", "char", "short", "long", "float", "double", "_Bool", "void", "struct", "union",
                      "enum"}
QUALIFIERS = {"static", "const", "volatile", "register", "restrict", "inline", "extern", "auto"}
NUMBER = r"(?:0[xX][0-9a-fA-F]+|[0-9]+)[uUlL]*"

BLANK = r"[ \t\v\f\r]*"

TOKEN = re.compile(
    r"(?P<space>[ \t\r\n\v\f]+|/\*.*?(?:\*/|\Z)|//[^\n]*)|(?P<name>[A-Za-z_]\w*)|(?P<number>[0-9][\w.]*)"
    r"|(?P<string>\"(?:\\.|[^\"\\\n])*\"?|'(?:\\.|[^'\\\n])*'?)"
    r"|(?P<mark><<=|>>=|->|\+\+|--|[-+*/%&|^<>=!]=|<<|>>|&&|\|\||[-+*/%&|^~!<>=?:;,()\[\]{}])|(?P<other>.)", re.S | re.ASCII)


@dataclass(frozen=True)
class Token:
    """A name, number, string, mark or other byte, with its place in the text, from 0, and its line and column, from 1."""
    kind: str
    text: str
    start: int
    line: int
    column: int


class Source:
    """A text with its lines, its tokens and the numbers that its `#define`s give names. Directives are no tokens."""

    def __init__(self, data):
        self.text = data.decode("latin-1")
        self.starts = [0] + [found.end() for found in re.finditer("\n", self.text)]
        self.blanked, self.open_comment = _without_comments(self.text)
        self.defines = dict(re.findall(rf"^{BLANK}#{BLANK}define{BLANK}(\w+){BLANK}({NUMBER}){BLANK}$", self.blanked, re.M))
        self.tokens = list(self._read(re.sub(rf"(?m)^{BLANK}#(?:.*\\\r?\n)*.*$", _blank, self.blanked)))

    def _read(self, text):
        for found in TOKEN.finditer(text):
            if found.lastgroup != "space":
                yield Token(found.lastgroup, found.group(), found.start(), *self.place(found.start()))

    def place(self, start):
        """The line and the column of a place."""
        line = bisect_right(self.starts, start)
        return line, start - self.starts[line - 1] + 1

    def offset(self, line, column):
        """The place of a line and a column."""
        return min(self.starts[min(line, len(self.starts)) - 1] + column - 1, len(self.text))

    def line(self, number):
        """The text of a line, without its end."""
        return self.text[self.starts[number - 1]:].split("\n", 1)[0].rstrip("\r") if number <= len(self.starts) else ""

    def at(self, line, column):
        """The number of the token at a place; the number of tokens where there is none."""
        start = self.offset(line, column)
        return next((at for at, token in enumerate(self.tokens) if token.start >= start), len(self.tokens))

    def partner(self, at):
        """The number of the mark that closes the bracket of this number; the number of tokens where none does. A `(` or `[` that is
        not closed before a brace or a `;` ends there."""
        pairs, depth = {"(": ")", "[": "]", "{": "}"}, 0
        opens, closes = self.tokens[at].text, pairs[self.tokens[at].text]
        ends = set() if opens == "{" else {"{", "}"} if at and self.tokens[at - 1].text == "for" else {"{", "}", ";"}
        for number in range(at, len(self.tokens)):
            if self.tokens[number].text in ends and self.tokens[number - 1].text not in ("=", ",", "(", "{"):
                return number - 1
            depth += (self.tokens[number].text == opens) - (self.tokens[number].text == closes)
            if not depth:
                return number
        return len(self.tokens)

    def opening(self, at):
        """The number of the bracket that the mark of this number closes; 0 where none does."""
        closes = self.tokens[at].text
        opens, depth = {")": "(", "]": "[", "}": "{"}[closes], 0
        for number in range(at, -1, -1):
            depth += (self.tokens[number].text == closes) - (self.tokens[number].text == opens)
            if not depth:
                return number
        return 0

    def between(self, first, last):
        """The text from the token of one number up to that before another, on one line."""
        last = min(last, len(self.tokens))
        if first >= last:
            return ""
        end = self.tokens[last - 1]
        return " ".join(self.text[self.tokens[first].start:end.start + len(end.text)].split())


def shown(source, line, column, width=1):
    """The line of a text with carets below the bytes of a place; of a long line the part around it."""
    text = source.line(line)
    start = max(0, min(column - 1, len(text)))
    first = max(0, start - 60) if len(text) > 120 else 0
    end = first + 120
    dots = ".. " if first else ""
    before, marked, behind = (dots + readable(text[first:start]), readable(text[start:min(start + width, end)]),
                              readable(text[start + width:end]) + (" .." if end < len(text) else ""))
    pad = "".join("\t" if char == "\t" else " " for char in before)
    return [f"{line:4} | {before}{marked}{behind}".rstrip(), f"     | {pad}{'^' * max(1, len(marked))}"]


def readable(part):
    """Bytes of a text as characters."""
    return part.encode("latin-1").decode("utf-8", "replace")


def _without_comments(text):
    """The text with each comment as blanks, and the place of a comment that is never ended, or None."""
    opened = []

    def blank(found):
        part = found.group()
        if part.startswith("/*") and (len(part) < 4 or not part.endswith("*/")):
            opened.append(found.start())
        line = text[text.rfind("\n", 0, found.start()) + 1:found.start()].lstrip()
        if line.startswith("#"):  # a comment's line ends end no directive
            return " " * len(part) if part.startswith("/*") else _blank(found) if part.startswith("/") else part
        return _blank(found) if part.startswith("/") else part
    form = r"\"(?:\\.|[^\"\\\n])*\"?|'(?:\\.|[^'\\\n])*'?|/\*.*?(?:\*/|\Z)|//[^\n]*"
    return re.sub(form, blank, text, flags=re.S), next(iter(opened), None)


def _blank(found):
    """Blanks for what was found, line ends being kept."""
    return re.sub(r"[^\n]", " ", found.group())
