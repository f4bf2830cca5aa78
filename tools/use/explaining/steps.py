"""Steps and assignments inside expressions: what to write in place of the statement, the condition or the loop around them.

What is written has the meaning that C gives the whole: a step behind a name counts after the value was taken, also where a loop
ends; what stands before a test is made again at each turn."""
import re
from collections import namedtuple

from explaining.source import FIXED, TYPE_WORDS

ASSIGNING = {"=", "*=", "/=", "%=", "+=", "-=", "<<=", ">>=", "&=", "^=", "|="}
TESTS = {"<", ">", "<=", ">=", "==", "!=", "&&", "||"}
HEADS = {"if", "while", "for", "switch"}

# Where a token stands: `if`, `while`, `do`, `first`, `test`, `step` (of a `for`), `switch`, `return`, `declaration` or
# `statement`; the tokens of the expression or statement, first and behind the last; where the whole statement begins.
Place = namedtuple("Place", "kind first last begins")

# A change inside an expression: before or after its value counts, the statement, its first byte and that behind, what is left.
Change = namedtuple("Change", "is_before statement start end left")


class Walk:
    """The statements of a body, by the numbers of tokens."""

    def __init__(self, source):
        self.source, self.tokens = source, source.tokens

    def text(self, at):
        return self.tokens[at].text if 0 <= at < len(self.tokens) else ""

    def behind(self, at):
        """The number behind the statement that begins at a token."""
        text = self.text(at)
        if text == "{":
            return self.source.partner(at) + 1
        if text in HEADS and self.text(at + 1) == "(":
            end = self.behind(self.source.partner(at + 1) + 1)
            return self.behind(end + 1) if text == "if" and self.text(end) == "else" else end
        if text == "do":
            return self.to_semicolon(self.behind(at + 1))
        if text == "else":
            return self.behind(at + 1)
        if self.text(at + 1) == ":" or text == "default":
            return at + 2
        return self.to_semicolon(at)

    def to_semicolon(self, at):
        while at < len(self.tokens) and self.text(at) not in (";", "}"):
            at = self.source.partner(at) + 1 if self.text(at) in ("(", "[", "{") else at + 1
        return at + (self.text(at) == ";")

    def place(self, at, wanted):
        """Where a wanted token stands in the statement that begins at a token."""
        text = self.text(at)
        if text == "{":
            inner = at + 1
            while inner <= wanted:
                end = max(self.behind(inner), inner + 1)
                if wanted < end:
                    return self.place(inner, wanted)
                inner = end
            return None
        if text in HEADS and self.text(at + 1) == "(":
            closes = self.source.partner(at + 1)
            if wanted <= closes:
                return self.head(at, closes, wanted)
            end = self.behind(closes + 1)
            return self.place(closes + 1 if wanted < end else end + 1, wanted)
        if text == "do":
            end = self.behind(at + 1)
            if wanted < end:
                return self.place(at + 1, wanted)
            return Place("do", end + 2, self.source.partner(end + 1), at) if self.text(end + 1) == "(" else None
        if text == "else":
            return self.place(at + 1, wanted)
        if self.text(at + 1) == ":" or text == "default":
            return self.place(at + 2, wanted)
        kind = "return" if text == "return" else "declaration" if text in TYPE_WORDS | FIXED else "statement"
        return Place(kind, at + (kind == "return"), self.to_semicolon(at) - 1, at)

    def head(self, at, closes, wanted):
        """The part of a statement's head."""
        if self.text(at) != "for":
            return Place(self.text(at), at + 2, closes, at)
        parts, start = [], at + 2
        inner = start
        while inner <= closes:
            if self.text(inner) == ";" or inner == closes:
                parts.append((start, inner))
                start = inner + 1
            inner = self.source.partner(inner) + 1 if self.text(inner) in ("(", "[") else inner + 1
        for kind, (first, last) in zip(("first", "test", "step"), parts):
            if wanted <= last:
                return Place(kind, first, last, at)
        return Place("step", start, closes, at)


def is_operand_end(token):
    return token.kind in ("name", "number") and token.text != "return" or token.text in (")", "]")


def ends_value(walk, at):
    """Whether a token may be the last of a value; the `)` of a cast is none."""
    if walk.text(at) != ")":
        return is_operand_end(walk.tokens[at])
    return walk.text(walk.source.opening(at) + 1) not in TYPE_WORDS


def target_before(walk, at):
    """The first token of the name or the element that ends before a token."""
    while at and walk.text(at - 1) == "]":
        at = walk.source.opening(at - 1)
    return at - 1


def target_behind(walk, at):
    """The number behind the name or the element that begins at a token."""
    at += 1
    while walk.text(at) == "[":
        at = walk.source.partner(at) + 1
    return at


def changes(walk, first, last):
    """The changes inside an expression, from the left; an assignment counts where parentheses are around it alone."""
    source, tokens, found = walk.source, walk.tokens, []
    for at in range(first, min(last, len(tokens))):
        if tokens[at].text in ("++", "--"):
            behind = is_operand_end(tokens[at - 1])
            start = target_before(walk, at) if behind else at + 1
            end = at if behind else target_behind(walk, at + 1)
            name, mark = source.between(start, end), tokens[at].text
            begin, stop = tokens[start if behind else at].start, (tokens[at].start + 2 if behind else ending(tokens[end - 1]))
            if start and tokens[start - 1].text == "*" and not ends_value(walk, start - 2) and end == start + 1 and behind:
                found.append(Change(False, f"{name}_at{mark}", tokens[start - 1].start, stop, f"{name}[{name}_at]"))
            else:
                found.append(Change(not behind, f"{name}{mark}", begin, stop, name))
        elif tokens[at].text in ASSIGNING:
            start = target_before(walk, at)
            if walk.text(start - 1) != "(" or start - 1 < first - 1:
                continue
            closes = source.partner(start - 1)
            around = start - 1 >= first and walk.text(start - 2) not in HEADS
            name = source.between(start, at)
            begin, stop = (tokens[start - 1].start, ending(tokens[closes])) if around else (tokens[start].start,
                                                                                             ending(tokens[closes - 1]))
            if closes <= last:
                found.append(Change(True, f"{name} {tokens[at].text} {source.between(at + 1, closes)}", begin, stop, name))
    return found


def ending(token):
    return token.start + len(token.text)


def bare(walk, first, last, found):
    """The expression without its changes."""
    if first >= last:
        return ""
    text, at = "", walk.tokens[first].start
    for it in found:
        text, at = text + walk.source.text[at:it.start] + it.left, it.end
    return " ".join((text + walk.source.text[at:ending(walk.tokens[last - 1])]).split())


def is_conditional(walk, place, found):
    """Whether a change may be left out: it stands behind `&&`, `||` or `?`."""
    return any(walk.tokens[at].text in ("&&", "||", "?") and any(it.start > walk.tokens[at].start for it in found)
               for at in range(place.first, place.last))


def tested(text):
    """A condition as 1 or 0."""
    depth = 0
    for mark in re.findall(r"[()\[\]]|<<|>>|<=|>=|==|!=|&&|\|\||[<>!]", text):
        depth += (mark in "([") - (mark in ")]")
        if not depth and mark in TESTS:
            return text
    return f"{text} != 0" if re.fullmatch(r"\w+(\[\w+\])*", text) else f"({text}) != 0"


def negated(text):
    return f"!{text}" if re.fullmatch(r"\w+(\[\w+\])*", text) else f"!({text})"


def parts_of(walk, place):
    """The parts of a condition that `&&` joins: their first tokens and those behind."""
    parts, start, at = [], place.first, place.first
    while at < place.last:
        if walk.text(at) == "&&":
            parts.append((start, at))
            start = at + 1
        at = walk.source.partner(at) + 1 if walk.text(at) in ("(", "[") else at + 1
    return [*parts, (start, place.last)]


def leaving(walk, place):
    """The statements that test a loop's condition at the begin of a turn, and leave the loop by `break`; None for `||` and `?:`."""
    lines = []
    for number, (first, last) in enumerate(parts_of(walk, place)):
        found = changes(walk, first, last)
        if is_conditional(walk, Place("", first, last, first), found):
            return None
        text = bare(walk, first, last, found)
        lines += [f"{it.statement};" for it in found if it.is_before]
        after = [f"{it.statement};" for it in found if not it.is_before]
        if after:
            go = f"go{number or ''}"
            lines += [f"int {go} = {tested(text)};", *after, f"if (!{go}) break;"]
        else:
            lines.append(f"if ({negated(text)}) break;")
    return " ".join(lines)


def has_continue(walk, at):
    """Whether the body of a `do` has a `continue`."""
    return any(walk.text(number) == "continue" for number in range(at, walk.behind(at)))


def of_loop(walk, place):
    """In place of a loop whose condition changes something."""
    text = leaving(walk, place)
    if text is None:
        return None
    if place.kind == "while":
        return f"`while (1) {{ {text} .. }}`, with the loop's body in place of `..`"
    if place.kind == "test":
        closes = walk.source.partner(place.begins + 1)
        head = walk.source.between(place.begins + 2, place.first - 1)
        step = walk.source.between(place.last + 1, closes)
        return f"`for ({head}; ; {step}) {{ {text} .. }}`, with the loop's body in place of `..`".replace("; ; )", "; ;)")
    if has_continue(walk, place.begins + 1):
        return (f"`int first = 1; while (1) {{ if (!first) {{ {text} }} first = 0; .. }}`, with the loop's body in place of `..`")
    found = changes(walk, place.first, place.last)
    if is_conditional(walk, place, found):
        return f"`while (1) {{ .. {text} }}`, with the loop's body in place of `..`"
    condition = bare(walk, place.first, place.last, found)
    before = "".join(f"{it.statement}; " for it in found if it.is_before)
    after = "".join(f"{it.statement}; " for it in found if not it.is_before)
    return (f"`int go; do {{ .. {before}go = {tested(condition)}; {after}}} while (go);`" if after else
            f"`do {{ .. {before}}} while ({condition});`") + ", with the loop's body in place of `..`"


def of_statement(walk, place, found):
    """In place of a statement, a declaration, a `return`, an `if` or a `switch`."""
    text = bare(walk, place.first, place.last, found)
    before = "".join(f"{it.statement}; " for it in found if it.is_before)
    after = " ".join(f"{it.statement};" for it in found if not it.is_before)
    if place.kind == "return":
        lasting = [it for it in found if not it.is_before and "[" in it.left]
        if not lasting:
            return f"`{before}return {text};`" + (", since a variable is gone with the `return`" if after else "")
        return f"`{before}int32_t value = {text}; {after} return value;`, with the type of the result for `int32_t`"
    if place.kind in ("if", "switch"):
        kind = place.kind
        if not after:
            return f"`{before}{kind} ({text}) ..`"
        go = "go" if kind == "if" else "which"
        return f"`{before}int {go} = {tested(text) if kind == 'if' else text}; {after} {kind} ({go}) ..`"
    return f"`{before}{text}; {after}`".replace("; `", ";`")


def twice(walk, place, found):
    """A name that is changed and used elsewhere in the same expression: its order is not told by C, but for `&&`, `||`, `?:`."""
    for it in found:
        name = re.match(r"\w+", it.left).group()
        uses = [token for token in walk.tokens[place.first:place.last] if token.text == name and token.kind == "name"
                and not it.start <= token.start < it.end]
        if "[" not in it.left and uses and it.statement[-2:] in ("++", "--"):
            return name
    return None


def body_of(spot):
    """Where the body of the function around a token begins."""
    return next((number for number in spot.opened if spot.tokens[number].text == "{"), None)


def advice(spot):
    """What to write in place of the change at a token; None where it is no such change."""
    begins = body_of(spot)
    if begins is None:
        return None
    walk = Walk(spot.source)
    place = walk.place(begins, spot.at)
    if place is None or place.last <= place.first:
        return None
    if place.kind in ("statement", "declaration", "step", "first") and spot.token.text in ASSIGNING:
        chained = of_chain(walk, place, spot.at)
        if chained:
            return chained
    found = changes(walk, place.first, place.last)
    if not any(it.start <= spot.token.start < it.end for it in found):
        return None
    if not all(re.match(r"[A-Za-z_]", it.left) for it in found):
        return None
    if any(after.start < before.end for before, after in zip(found, found[1:])):
        return "each change as a statement of its own, from the inside to the outside"
    conditional = is_conditional(walk, place, found)
    name = twice(walk, place, found)
    if name and not conditional:
        return f"two statements in the order that is meant: `{name}` is changed here and used beside, in an order that C leaves open"
    if place.kind in ("while", "do", "test"):
        said = of_loop(walk, place)
    elif place.kind in ("first", "step") or conditional and place.kind != "if":
        said = None
    elif conditional:
        said = of_nested_if(walk, place)
    else:
        said = of_statement(walk, place, found)
    if said is None:
        return {"first": "it as a statement of its own before the loop",
                "step": "it as a statement of its own at the end of the body, and before each `continue` of this loop"}.get(
            place.kind, "an `if` that asks what decides whether it comes, with a statement of its own for the change: what stands "
            "behind `&&`, `||` or `?` is evaluated only there")
    inside = walk.text(place.begins - 1) in (")", "else", "do") and place.kind not in ("while", "test", "do")
    pointers = [it for it in found if it.left.endswith("_at]")]
    said += "; in braces, since it is the whole body of what stands before" if inside else ""
    return said + "".join(f"; `{it.left.split('[')[0]}_at` is the index that takes the place of the pointer, `int32_t "
                          f"{it.left.split('[')[0]}_at = 0;` at the begin" for it in pointers[:1])


def of_nested_if(walk, place):
    """In place of an `if` without `else` whose condition changes something behind `&&`."""
    end = walk.behind(walk.source.partner(place.begins + 1) + 1)
    if walk.text(end) == "else":
        return None
    text, closing = "", ""
    for number, (first, last) in enumerate(parts_of(walk, place)):
        found = changes(walk, first, last)
        if is_conditional(walk, Place("", first, last, first), found):
            return None
        condition = bare(walk, first, last, found)
        before = "".join(f"{it.statement}; " for it in found if it.is_before)
        after = "".join(f"{it.statement}; " for it in found if not it.is_before)
        go = f"go{number or ''}"
        text += before + (f"int {go} = {tested(condition)}; {after}if ({go}) {{ " if after else f"if ({condition}) {{ ")
        closing += " }"
    return f"`{text}..{closing}`"


def of_chain(walk, place, at):
    """In place of `a = b = c`."""
    marks = [number for number in range(place.first, place.last) if walk.text(number) in ASSIGNING]
    depth_free = [number for number in marks if not any(walk.text(opens) in ("(", "[") and opens < number < walk.source.partner(opens)
                                                        for opens in range(place.first, number))]
    if at not in depth_free or len(depth_free) < 2:
        return None
    starts = [place.first, *(number + 1 for number in depth_free)]
    if place.kind == "declaration":
        starts[0] = place.first
    targets = [walk.source.between(start, mark) for start, mark in zip(starts, depth_free)]
    value = walk.source.between(starts[-1], place.last)
    words = [f"{targets[-1]} {walk.text(depth_free[-1])} {value};"]
    for target, mark, right in reversed(list(zip(targets, depth_free, targets[1:]))):
        words.append(f"{target} {walk.text(mark)} {right};")
    inside = place.kind == "statement" and walk.text(place.begins - 1) in (")", "else", "do")
    where = {"first": " before the loop", "step": " at the end of the body"}.get(place.kind, "")
    return f"`{' '.join(words)}`{where}" + ("; in braces, since it is the whole body of what stands before" if inside else "")
