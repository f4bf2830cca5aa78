"""What the lexer refuses of a kernel text, all of it: the numbers 1 to 6, each with its place."""
import re

from explaining.source import BLANK, FIXED, KEYWORDS, NUMBER, constant_type

DEFINE = re.compile(rf"#{BLANK}define{BLANK}([A-Za-z_]\w*){BLANK}(?<!\w)([0-9][\w.]*){BLANK}", re.A)
INCLUDE = re.compile(rf"#{BLANK}include{BLANK}<stdint\.h>{BLANK}")


def directives(text):
    """The refusals of directives, and which names have which spelling of a number."""
    notes, spelled = [], {}
    for found in re.finditer(rf"^{BLANK}(#(?:[^\n]*\\\r?\n)*[^\n]*)", text, re.M):
        start, line = found.start(1), found.group(1)
        form = DEFINE.fullmatch(line)
        if form and form.group(1) not in KEYWORDS | FIXED and re.fullmatch(NUMBER, form.group(2)) and constant_type(form.group(2)):
            name, number = form.groups()
            if spelled.setdefault(name, number) != number:
                notes.append((6, start + form.start(1)))
        elif not INCLUDE.fullmatch(line):
            notes.append((5, start))
    return notes


def refusals(source):
    """The number and the place of each refusal of the lexer."""
    notes = directives(source.blanked) + ([(2, source.open_comment)] if source.open_comment is not None else [])
    joined = [found.start() for found in re.finditer(r"\\\r?\n", source.text) if source.blanked[found.start()] != "\\"]
    notes, last = notes + [(1, start) for start in joined], None
    for at, token in enumerate(source.tokens):
        if token.kind == "string":
            printed = at > 1 and source.tokens[at - 1].text == "(" and source.tokens[at - 2].text in ("printf", "puts", "assert")
            notes += [] if printed else [(1, token.start)]
        elif token.kind == "other":
            if token.start - 1 != last:
                notes.append((5 if token.text == "#" else 1, token.start))
            last = token.start
        elif token.kind == "number":
            kind = constant_type(token.text)
            notes += [] if kind else [(3 if kind is None else 4, token.start)]
    return sorted(notes, key=lambda it: it[1])
