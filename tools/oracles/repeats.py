#!/usr/bin/env python3
"""Writes FOLDER/repeats.tsv: kernel texts that repeat a piece, with their answers by the rules of docs/FORMATS.md.

  tools/oracles/repeats.py FOLDER

Each shape is taken four times: whole and cut off, both as long as 65,536 bytes let it be, and, where it nests, with as
many pieces as the limit on nesting allows and with one more. The answers follow from the lengths alone: nesting passes
64 at a token that the shape names, a sum or a block of 65,536 bytes has more than 1,024 nodes, and a text that is cut
off is refused at its end.
"""
import pathlib
import sys

MOST_BYTES, MOST_NESTED, MOST_NODES = 65536, 64, 1024


class Shape:
    """opening piece.. middle back.. closing; the nodes of the empty shape and of a piece; the column of the kernel's
    name; `deepest`: the place in a piece of its first token at which most of its constructs nest, and how many these
    are, of which one stays open; `group`: the place in the return piece of a group that nests in its construct."""

    def __init__(self, opening, piece, middle, back, closing, nodes, each, name, deepest=None, group=None):
        self.parts = (opening, piece, middle, back, closing)
        self.nodes, self.each, self.name, self.deepest, self.group = nodes, each, name, deepest, group

    def whole(self):
        opening, piece, middle, back, closing = map(len, self.parts)
        return (MOST_BYTES - opening - middle - closing) // (piece + back)

    def answer(self, times):
        """Of the whole text with so many pieces."""
        if self.deepest:
            place, nested = self.deepest
            # The kernel's block is one construct, and each piece before leaves one open.
            before = MOST_NESTED - nested
            if times > before:
                return f"1:{len(self.parts[0]) + before * len(self.parts[1]) + place + 1}: 12 TooDeep"
        if self.group and times + 2 > MOST_NESTED:
            opening, piece, middle = map(len, self.parts[:3])
            return f"1:{opening + times * piece + middle + self.group + 1}: 12 TooDeep"
        nodes = self.nodes + times * self.each
        if nodes > MOST_NODES:
            return f"1:{self.name}: 13 TooLarge"
        return f"ok N={nodes}"

    def rows(self):
        opening, piece = self.parts[:2]
        yield self.answer(self.whole()), self.whole(), self.parts
        times = (MOST_BYTES - len(opening)) // len(piece)
        end = f"1:{len(opening) + times * len(piece) + 1}: 11 EndOfText"
        yield self.answer(times) if self.deepest else end, times, (opening, piece, "", "", "")
        if self.deepest:
            most = MOST_NESTED - max(self.deepest[1], 2 if self.group else 1)
            for times in (most, most + 1):
                yield self.answer(times), times, self.parts
        else:
            most = (MOST_NODES - self.nodes) // self.each
            for times in (most, most + 1):
                yield self.answer(times), times, self.parts


VALUE, NONE = "int f(int a) { return ", "void f(int a) { "
LEVELS = "1||1&&1|1^1&1==1<1<<1+1*"
SHAPES = [
    Shape("int f(void) { return ", "1+", "1", "", "; }", 4, 2, 5),
    Shape("int f(void) { return ", "1*", "1", "", "; }", 4, 2, 5),
    Shape("int f(void) { return ", "1||", "1", "", "; }", 4, 2, 5),
    Shape("int f(void) { return ", "1+1*", "1", "", "; }", 4, 4, 5),
    Shape(NONE, ";", "", "", " }", 3, 1, 6),
    Shape(NONE, "a=a;", "", "", " }", 3, 3, 6),
    Shape("int f(void) { return 1+1+1+1+1+1+", "1+1+1+1+1+1+1+1+(", "1", ")", "; }", 16, 16, 5, (16, 1)),
    Shape(VALUE, "(", "a", ")", "; }", 5, 0, 5, (0, 1)),
    Shape(VALUE, LEVELS + "(", "a", ")", "; }", 5, 20, 5, (len(LEVELS), 1)),
    Shape(VALUE, "!", "a", "", "; }", 5, 1, 5, (0, 1)),
    Shape(VALUE, "- ", "a", "", "; }", 5, 1, 5, (0, 1)),
    Shape(VALUE, "(int)", "a", "", "; }", 5, 1, 5, (0, 1)),
    Shape(VALUE, "a?1:", "a", "", "; }", 5, 3, 5, (1, 1)),
    Shape(VALUE, "a?", "a", ":1", "; }", 5, 3, 5, (1, 1)),
    Shape("int f(int a[1]) { return ", "a[", "0", "]", "; }", 6, 1, 5, (1, 1)),
    Shape(NONE, "{", "", "}", " }", 3, 1, 6, (0, 1)),
    Shape(NONE, "if(a);else ", ";", "", " }", 4, 3, 6, (2, 2)),
    Shape(NONE, "if(a)", ";", "", " }", 4, 2, 6, (2, 2)),
    Shape(NONE, "while(a)", ";", "", " }", 4, 2, 6, (5, 2)),
    Shape(NONE, "for(;;)", ";", "", " }", 4, 1, 6, (3, 2)),
    Shape(NONE, "do ", ";", "while(a);", " }", 4, 2, 6, (0, 1), 5),
]


def main(folder):
    rows = ["# answer, how many times the second part stands, and the fourth; then the five parts; tabs between"]
    for shape in SHAPES:
        for answer, times, parts in shape.rows():
            rows.append("\t".join([answer, str(times), *parts]))
    (folder / "repeats.tsv").write_text("\n".join(rows) + "\n", encoding="ascii")


if __name__ == "__main__":
    if len(sys.argv) != 2:
        sys.exit(__doc__)
    main(pathlib.Path(sys.argv[1]))
