"""What a hardware designer writes first, and what to write instead: the causes of `10 Unexpected`.

Each habit looks at a spot, the refused token among its neighbours, and answers a cause and a remedy, or None. The first habit
that answers counts."""
import re

from explaining import steps
from explaining.constants import fitting
from explaining.source import FIXED, KEYWORDS, QUALIFIERS, TYPE_WORDS, value_of
from explaining.tables import initial, spelled_constant

SPELLED = {
    "char": "int8_t", "signed char": "int8_t", "unsigned char": "uint8_t", "short": "int16_t", "unsigned short": "uint16_t",
    "long": "int64_t", "unsigned long": "uint64_t", "_Bool": "uint8_t", "bool": "uint8_t", "size_t": "uint64_t",
    "uint": "uint32_t", "u8": "uint8_t", "u16": "uint16_t", "u32": "uint32_t", "u64": "uint64_t", "i8": "int8_t", "i16": "int16_t",
    "i32": "int32_t", "i64": "int64_t", "s8": "int8_t", "s16": "int16_t", "s32": "int32_t", "s64": "int64_t", "byte": "uint8_t",
    "uchar": "uint8_t", "ushort": "uint16_t", "ulong": "uint64_t", "ssize_t": "int64_t", "ptrdiff_t": "int64_t",
    **{f"{sign}int_least{bits}_t": f"{sign}int{bits}_t" for sign in ("", "u") for bits in (8, 16, 32, 64)},
    # As the C library of 64-bit Linux has them.
    **{f"{sign}int_fast{bits}_t": f"{sign}int{8 if bits == 8 else 64}_t" for sign in ("", "u") for bits in (8, 16, 32, 64)},
    "intmax_t": "int64_t", "uintmax_t": "uint64_t", "intptr_t": "int64_t", "uintptr_t": "uint64_t",
}
BOOL = ("write `uint8_t`, and give it 0 or 1 alone, as `bool` keeps no other value: `bool b = x & 256;` is `uint8_t b = (x & 256) != 0;`, "
        "and so wherever what is assigned, returned or handed over is no comparison; 1 for `true`, 0 for `false`.")
INLINE = {
    ("abs", 1): "{0} < 0 ? -{0} : {0}", ("labs", 1): "{0} < 0 ? -{0} : {0}", ("min", 2): "{0} < {1} ? {0} : {1}",
    ("max", 2): "{0} > {1} ? {0} : {1}",
}
STATEMENT_WORDS = {"if", "while", "do", "for", "break", "continue", "return"}
WHOLE = {")", "]", "++", "--", "break", "continue", "return"}
STARTS = STATEMENT_WORDS | FIXED | QUALIFIERS | {"}", "int", "signed", "unsigned", "{", "else"}
ASSIGNING = {"=", "*=", "/=", "%=", "+=", "-=", "<<=", ">>=", "&=", "^=", "|="}
OPERATORS = {"*", "/", "%", "+", "-", "<<", ">>", "<", ">", "<=", ">=", "==", "!=", "&", "^", "|", "&&", "||", "?", ":"}
TYPE = r"(?:(?:static|const|volatile|register|extern|inline)\s+)*((?:[A-Za-z_]\w*\s+)+?)"
GUIDE = 'docs/GUIDE.md, "What a kernel may say"'


class Spot:
    """The refused token, those around it, and where it stands."""

    def __init__(self, source, at):
        self.source, self.at, self.tokens = source, at, source.tokens
        self.token = self.tokens[at]
        self.rest, self.bare = source.text[self.token.start:], source.blanked[self.token.start:]
        depths = {"{": 0, "(": 0, "[": 0}
        self.opened = []
        for number, token in enumerate(self.tokens[:at]):
            if token.text in depths:
                self.opened.append(number)
            elif token.text in (")", "]", "}") and self.opened:
                self.opened.pop()
        self.braces = sum(self.tokens[number].text == "{" for number in self.opened)
        self.in_parameters = not self.braces and any(self.tokens[number].text == "(" for number in self.opened)
        self.heads = self._heads()
        self.after_kernel = not self.opened and any(self.tokens[head].text != "static" for head in self.heads[:-1])
        self.in_helper = bool(self.heads) and self.heads[-1] < at and self.tokens[self.heads[-1]].text == "static"

    def _heads(self):
        """The numbers of the tokens with which functions begin, up to this one: helpers begin with `static`."""
        heads, depth, is_new = [], 0, True
        for number, token in enumerate(self.tokens[:self.at + 1]):
            if is_new and not depth:
                heads.append(number)
            depth += (token.text in "{([") - (token.text in "})]")
            is_new = token.text == "}" and depth <= 0
        return heads

    def body(self):
        """The tokens of the function around this one, before it."""
        return [token.text for token in self.tokens[self.heads[-1]:self.at]] if self.heads else []

    def text(self, by):
        """The text of the token so many places further; empty past the ends."""
        number = self.at + by
        return self.tokens[number].text if 0 <= number < len(self.tokens) else ""

    def is_name(self, by):
        """Whether that token is a name that C does not reserve."""
        text = self.text(by)
        return bool(re.fullmatch(r"[A-Za-z_]\w*", text)) and text not in KEYWORDS and text not in FIXED

    def opener(self):
        """The number of the innermost open bracket, or None."""
        return self.opened[-1] if self.opened else None


def spelled(words):
    """The kernel's type for a type as C spells it; None where there is none."""
    kept = sorted((word for word in words if word != "int"), key=lambda word: (word not in ("signed", "unsigned"), word))
    text = " ".join(kept).replace("long long", "long")
    if text in ("", "signed"):
        return "int32_t"
    return SPELLED.get(text.replace("signed long", "long").replace("signed short", "short") if text.startswith("signed ") and
                       text != "signed char" else text, {"unsigned": "uint32_t"}.get(text, text if text in FIXED else None))


def table_or_global(spot):
    """A table or a variable outside of the kernel, or a static or constant table in it."""
    if spot.in_parameters or spot.text(0) not in QUALIFIERS | {"[", "=", ";"} or spot.braces and spot.text(0) not in QUALIFIERS:
        return None
    start = spot.at
    while start and spot.tokens[start - 1].text not in (";", "{", "}"):
        start -= 1
    rest = spot.source.text[spot.tokens[start].start:]
    found = re.match(TYPE + r"(\w+)\s*((?:\[[^\]]*\]\s*)*)(?:=\s*(\{.*?\}|[^;{]*))?\s*;", rest, re.S)
    if not found:
        return None
    words, name, lengths, value = found.groups()
    kind, lengths = spelled(words.split()) or " ".join(words.split()), "".join(lengths.split())
    if lengths:
        return (f"`{name}` is a table of its own, and a kernel has no arrays but its parameters.", table(spot, kind, name, lengths, value))
    if "const" in rest[:found.end(1)].split() and value and value_of(value, spot.source.defines) is not None:
        number = spelled_constant(value_of(value, spot.source.defines), kind)
        return (f"`{name}` is a constant with a type, and kernels have no `const`.",
                f"write `#define {name} {number}` above the kernel." if not number.startswith("(") else
                f"write `{number}` where `{name}` stands.")
    if spot.braces:
        return None
    first = value_of(value, spot.source.defines) if value else 0
    return (f"`{name}` is a variable outside of the kernel: a text is functions alone.",
            f"declare it in the kernel, `{kind} {name} = {0 if first is None else first};`, or make it a parameter, `{kind} {name}`; what is to last "
            f"from run to run is an array parameter of one element, `{kind} {name}[1]`, used as `{name}[0]`, with the input `{name} = "
            f"{'..' if first is None else first}`.")


def table(spot, kind, name, lengths, value):
    """What to write in place of an array with these lengths and this list of values, or none."""
    unknown = [it for it in re.findall(r"\[([^\]]*)\]", lengths) if it and value_of(it, spot.source.defines) is None
               and re.search(r"[a-z]", it)]
    if unknown:
        return (f"make it a parameter with the greatest length that it may have, as `{kind} {name}[100]` for `{name}[{unknown[0]}]`, and give "
                f"its first elements in the inputs: `{name} = 0 0 ..`.")
    lengths, numbers = initial(lengths, value, spot.source.defines)
    if numbers:
        numbers = [fitting(number, kind) if kind in FIXED else number for number in numbers]
        shown = " ".join(map(str, numbers[:256])) + " .." * (len(numbers) > 256)
    else:
        shown = "0 0 .."
    said = f"make it a parameter, `{kind} {name}{lengths}`, and give its elements in the inputs: `{name} = {shown}`"
    helpers = readers(spot.source, name)
    if helpers:
        said += (f". The helper `{helpers[0]}` reads it, and helpers take scalars alone: write out in the kernel what it does, or hand the "
                 f"element over, as `{helpers[0]}({name}[i])`")
    const = re.search(rf"\bconst\b[^;{{}}()]*\b{name}\s*\[", spot.source.blanked)
    if numbers and spot.braces > 1 and not const:
        said += f". In a loop it has these values anew at each turn: assign them there, `{name}[0] = {numbers[0]};` and so on"
    return said + "."


def readers(source, name):
    """The helpers in whose bodies a name stands."""
    found = []
    for head in re.finditer(r"\bstatic\s+(?:\w+\s+)+?(\w+)\s*\(([^)]*)\)\s*\{", source.blanked):
        at = next((number for number, token in enumerate(source.tokens) if token.start == head.end() - 1), None)
        if at is not None and not re.search(rf"\b{name}\b", head.group(2)):
            inner = source.tokens[at:source.partner(at)]
            found += [head.group(1)] if any(token.text == name for token in inner) else []
    return found


def qualifier(spot):
    """`static`, `const` and the like."""
    word = spot.text(0)
    if word not in QUALIFIERS:
        return None
    if spot.after_kernel:
        return None
    if not spot.braces and not spot.in_parameters and re.match(r"[\w\s]*?\w+\s*\([^()]*\)\s*\{", spot.rest):
        if spot.in_helper:
            return f"`{word}` has no place in a helper.", f"leave `{word}` away: a helper begins with `static` alone, and is inlined always."
        return f"`{word}` has no place in a kernel.", f"leave `{word}` away; a helper begins with `static` alone."
    if word == "static" and spot.braces:
        found = re.match(r"static\s+([\w\s]+?)\s*\b(\w+)\s*(?:=\s*([^;{,]*))?;", spot.bare)
        if found:
            kind, name, value = spelled(found.group(1).split()) or found.group(1), found.group(2), found.group(3)
            first = value_of(value, spot.source.defines) if value else 0
            return ("`static` makes a variable that lasts from run to run, and a kernel keeps nothing.",
                    f"make it an array parameter of one element, `{kind} {name}[1]`, used as `{name}[0]`, with the input `{name} = "
                    f"{'..' if first is None else first}`: its last value is printed with the results.")
        return ("`static` makes a variable that lasts from run to run, and a kernel keeps nothing.",
                "make it an array parameter of one element: it is read from the inputs, and printed with the results.")
    return (f"`{word}` has no place in a kernel: there are no qualifiers and no storage classes.",
            f"leave `{word}` away; it would change nothing in the circuit.")


def helper(spot):
    """What a helper is not: void, over arrays, with a return inside, behind it or without one."""
    if not spot.in_helper:
        return None
    name = next((text for text, after in zip(spot.body(), spot.body()[1:]) if after == "("), spot.text(1))
    if spot.text(0) == "void" and not spot.braces and not spot.in_parameters:
        return "A helper has a result: what it does is the value that it returns.", f"give `{name}` a type, and assign its value where it is called; a kernel does what else is to be done."
    if spot.text(0) == "[" and spot.in_parameters:
        return f"`{spot.text(-1)}` is an array, and helpers take scalars by value.", "hand over the elements that it needs, `int32_t a, int32_t b`, or write out in the kernel what it does: an array is read and changed there alone."
    if spot.braces and spot.text(0) == "return":
        return "A helper has one `return`, as its last statement, and this one stands inside another.", early_return(spot)
    if spot.braces and "return" in spot.body() and spot.body()[-1] == ";":
        return "Nothing follows the `return` of a helper.", "write it before the `return`, or take it away."
    if spot.braces == 1 and spot.text(0) == "}":
        return f"The helper `{name}` has no `return` at its end.", "end it with `return ..;`: its value is what a call gives."
    return None


def early_return(spot):
    """What to write for a `return` inside another statement of a helper."""
    opens = next((number for number in spot.opened if spot.tokens[number].text == "{"), None)
    closes = spot.source.partner(opens) if opens is not None else 0
    text = spot.source.between(opens + 1, closes) if opens is not None else ""
    choices = re.fullmatch(r"((?:if \([^{};]*\) (?:\{ )?return [^;{}]*;(?: \})? (?:else )?)+)(?:\{ )?return ([^;{}]*);(?: \})?", text)
    if choices and choices.group(1).count("return") <= 4:
        parts = re.findall(r"if \(([^{};]*)\) (?:\{ )?return ([^;{}]*);", choices.group(1))
        chain = " else ".join(f"if ({test}) result = {value};" for test, value in parts)
        return f"write `{kind_of(spot)} result; {chain} else result = {choices.group(2)}; return result;`."
    return ("make a variable for the result and assign it here; put all that stands behind this into an `else`, so that it is passed over, "
            "or leave a loop by `break`; and return the variable once, at the end.")


def kind_of(spot):
    """The type of the result of the helper around."""
    words = [token.text for token in spot.tokens[spot.heads[-1]:] if token.text != "static"]
    return " ".join(words[:next((at for at, word in enumerate(words) if word == "("), 1) - 1])


def type_word(spot):
    """A type that kernels do not have."""
    first = last = spot.at
    while first and spot.tokens[first - 1].text in ("unsigned", "signed", "long", "short", "int", "char"):
        first -= 1
    while last < len(spot.tokens) and spot.tokens[last].text in TYPE_WORDS:
        last += 1
    words = [token.text for token in spot.tokens[first:last]]
    if {"float", "double"} & set(words) and not {"struct", "union", "enum"} & set(words):
        return (f"`{' '.join(words)}` is floating point, and kernels compute with integers.",
                "scale by hand: a number with 8 bits behind the point is an `int32_t` of 256 times its value, and a product of two "
                "is shifted right by 8.")
    if not {"char", "short", "long", "_Bool"} & set(words):
        return None
    kind = spelled(words)
    if not kind:
        return None
    if "_Bool" in words:
        return "`_Bool` is no type of a kernel.", BOOL
    note = " (`int8_t` if negative numbers are meant to be in it)" if kind == "uint8_t" else ""
    note = " (`uint8_t` for bytes without a sign)" if words == ["char"] else note
    return (f"`{' '.join(words)}` is no type of a kernel: types are those with their width in the name, `int` and `unsigned`.",
            f"write `{kind}`{note}.")


def unknown_type(spot):
    """A name that stands where a type stands: `size_t n`, `u32 x`, `word x`."""
    if spot.is_name(0) and (spot.is_name(1) and (spot.in_parameters or not spot.opened) or
                            spot.text(1) == ")" and spot.text(-1) == "(" and spot.braces and not spot.is_name(-2)):
        name = spot.text(0)
    elif spot.is_name(0) and spot.is_name(-1) and spot.text(-2) in ("", ";", "{", "}", "(", ","):
        name = spot.text(-1)
    elif spot.text(-1) == ")" and spot.is_name(-2) and spot.text(-3) == "(" and not spot.is_name(-4) and (
            spot.is_name(0) or spot.text(0) == "(" or spot.token.kind == "number"):
        name = spot.text(-2)
        if name == "bool":
            return "`(bool)` is no cast of a kernel.", "write `(..) != 0` for `(bool)(..)`."
    else:
        return None
    if name == "bool":
        return "`bool` is no type of a kernel.", BOOL
    kind = SPELLED.get(name)
    return (f"`{name}` is no type of a kernel." if kind else f"`{name}` is read as a type, and kernels have no types of their own.",
            f"write `{kind}`." if kind
            else "write the type itself: `int8_t` to `int64_t`, `uint8_t` to `uint64_t`, `int` or `unsigned`.")


def aggregate(spot):
    """`enum`, `struct`, `union`, `typedef`."""
    word = spot.text(0)
    if word == "enum":
        found = re.match(r"enum\s*\w*\s*\{([^}]*)\}", spot.bare)
        names, last, lines, known = found.group(1).split(",") if found else [], -1, [], {}
        for it in (name.strip() for name in names if name.strip()):
            name, _, value = it.partition("=")
            last = value_of(value, {**spot.source.defines, **known}) if value.strip() else None if last is None else last + 1
            known[name.strip()] = str(last)
            lines.append(f"`#define {name.strip()} {last}`" if last is None or last >= 0 else f"`({last})` for `{name.strip()}`")
        kind = "int" if any(value.startswith("-") for value in known.values()) else "unsigned"
        return ("`enum` is not in the language: numbers get names by `#define`.",
                f"write {', '.join(lines)}, each on a line of its own above the kernel, and `{kind}` for its variables, which is the type "
                "that gcc gives them." if lines and "None" not in known.values() else
                "write a `#define NAME number` for each name, and `unsigned` for its variables (`int` where a constant is negative).")
    if word in ("struct", "union"):
        return (f"`{word}` is not in the language: a kernel has numbers and arrays of them.",
                "make each field a variable, or a parameter of its own; of an array of structures one array for each field.")
    return type_definition(spot) if word == "typedef" else None


def type_definition(spot):
    """`typedef` of a scalar, a structure, an enumeration, an array or a pointer."""
    why = "`typedef` is not in the language: kernels have no types of their own."
    if spot.text(1) == "enum":
        inner = aggregate(Spot(spot.source, spot.at + 1))
        return why, inner[1]
    if spot.text(1) in ("struct", "union"):
        return why, ("there are no structures either: make each member a variable, or a parameter, of its own, as `p_x` for `p.x`; of an "
                     "array of structures one array for each member.")
    found = re.match(r"typedef\s+([\w\s]+?)\s*(\*?)\s*\b(\w+)\s*((?:\[[^\]]*\]\s*)*);", spot.bare)
    if not found:
        return why, "write out what it stands for at each place."
    words, star, name, lengths = found.groups()
    kind = spelled(words.split()) or " ".join(words.split())
    if star:
        return why, f"a `{name}` is a pointer, and a kernel has none: write an array with its length, `{kind} a[100]`, for `{name} a`."
    if lengths:
        return why, f"write `{kind} a{''.join(lengths.split())}` for `{name} a`."
    if words.split() in (["bool"], ["_Bool"]):
        return why, f"of each `{name}`: {BOOL}"
    return why, f"write `{kind}` wherever `{name}` stands."


def jump(spot):
    """`switch`, `case`, `default`, `goto`, labels."""
    word = spot.text(0)
    if word in ("switch", "case", "default"):
        opens = spot.at + 1
        what = spot.source.between(opens + 1, spot.source.partner(opens)) if word == "switch" and spot.text(1) == "(" else "x"
        what = what if re.fullmatch(r"\w+(\[[^\[\]]*\])?", what) else "x"
        say = "" if what != "x" or word != "switch" else ", with `x` for what is switched on"
        return (f"`{word}` is not in the language.",
                f"write `{choices(spot, what) if word == 'switch' else f'if ({what} == 0) {{ .. }} else if ({what} == 1) {{ .. }} else {{ .. }}'}`"
                f"{say}, each case without its `break`; one that has none goes on into the next, whose statements it has too.")
    if word == ":" and spot.is_name(-1) and spot.text(1) in ("for", "while", "do") and not re.search(
            rf"\bgoto\s+{spot.text(-1)}\b", spot.source.blanked):
        return ("A label is not in the language, nor is a name for a loop.", f"delete `{spot.text(-1)}:`; nothing goes there.")
    label = re.escape(spot.text(1) if word == "goto" else spot.text(-1))
    ends = word in ("goto", ":") and re.search(rf"\b{label}\s*:\s*(return\b[^;]*;)\s*\}}", spot.source.blanked)
    if ends and (word == "goto" or word == ":" and spot.is_name(-1)):
        said = " ".join(ends.group(1).split())
        return ("`goto` is not in the language.", f"write `{said}` in place of `goto {spot.text(1)};`.") if word == "goto" else (
            "A label is not in the language.", f"delete `{spot.text(-1)}:`; what goes there returns itself.")
    if word == "goto" or word == ":" and spot.is_name(-1) and spot.text(-2) in (";", "{", "}", ")"):
        return (f"{'`goto`' if word == 'goto' else 'A label'} is not in the language.",
                "leave loops by `break` and `continue`, and the kernel by `return`; a flag leaves two loops at once.")
    if word == "else":
        return ("This `else` has no `if` directly before it: more than one statement without braces, or a `;` too many.",
                "put the statements between `if (..)` and `else` into braces, without a `;` behind them.")
    return None


def choices(spot, what):
    """The chain of `if` for a `switch` whose cases are plain."""
    opens = spot.source.partner(spot.at + 1) + 1
    if opens >= len(spot.tokens) or spot.tokens[opens].text != "{":
        return f"if ({what} == 0) {{ .. }} else {{ .. }}"
    groups, labels, at, closes = [], [], opens + 1, spot.source.partner(opens)
    while at < closes:
        text = spot.tokens[at].text
        if text in ("case", "default"):
            end = next((number for number in range(at, closes) if spot.tokens[number].text == ":"), closes)
            labels.append(spot.source.between(at + 1, end))
            at = end + 1
            if at < closes and spot.tokens[at].text not in ("case", "default"):
                groups.append(labels)
                labels = []
        else:
            at = spot.source.partner(at) + 1 if text in ("{", "(", "[") else at + 1
    chosen = [" || ".join(f"{what} == {it}" for it in labels) for labels in groups if "" not in labels]
    chain = " else ".join(f"if ({it}) {{ .. }}" for it in chosen[:4]) + " .." * (len(chosen) > 4)
    return chain + (" else { .. }" if any("" in labels for labels in groups) else "")


def missing_semicolon(spot):
    """A `;` that is missing on the line before, or before this token."""
    ends = spot.text(-1)
    whole = ends in WHOLE or bool(re.match(r"[\w\"']", ends)) and ends not in KEYWORDS
    begins = spot.is_name(0) or spot.text(0) in STARTS
    if not (spot.braces and whole and begins) or spot.text(-1) in FIXED or spot.opener() is None:
        return None
    before = spot.tokens[spot.at - 1]
    if spot.tokens[spot.opener()].text != "{" or before.line == spot.token.line and spot.text(0) not in ("}", "else"):
        return None
    head = next((number for number in range(spot.at) if spot.tokens[number].text == "(" and
                 spot.source.partner(number) == spot.at - 1), None) if ends == ")" else None
    if head and spot.tokens[head - 1].text in ("if", "while", "for"):
        return ((f"`{spot.text(0)}` begins a declaration, which cannot be the whole body of `{spot.tokens[head - 1].text}`.",
                 "put the body into braces.") if spot.text(0) in TYPE_WORDS else None)
    where = f"at the end of line {before.line}" if before.line != spot.token.line else f"behind `{ends}`"
    return (f"A `;` is missing {where}: the place is that of the token after it.",
            f"end {'that line' if before.line != spot.token.line else 'the statement'} with a `;`: "
            f"`{spot.source.line(before.line).split('//')[0].strip()};`" if before.line != spot.token.line else
            f"write `{ends};`.")


def missing_bracket(spot):
    """A `)` or `]` that is missing before this token, or one too many."""
    opener = spot.opener()
    if opener is None or not spot.braces and not spot.in_parameters or not spot.at:
        return extra_bracket(spot) if spot.text(0) in (")", "]") else None
    opened, before = spot.tokens[opener], spot.tokens[spot.at - 1]
    ends = before.kind in ("name", "number") and before.text not in KEYWORDS or before.text in (")", "]")
    starts = spot.text(0) in STATEMENT_WORDS | {"{", "}", "else"} or spot.text(0) == ";" and spot.tokens[opener - 1].text != "for" \
        or opened.text == "[" and spot.text(0) in ASSIGNING | {";", ")"} or opened.text == "(" and spot.text(0) == "]"
    if opened.text not in ("(", "[") or not (ends and starts):
        return extra_bracket(spot) if spot.text(0) in (")", "]") and ends else None
    closes = {"(": ")", "[": "]"}[opened.text]
    return (f"The `{opened.text}` of line {opened.line}, column {opened.column} is not closed before this `{spot.text(0)}`.",
            f"write `{spot.source.between(opener - (spot.tokens[opener - 1].kind == 'name'), spot.at)}{closes}`, or put the `{closes}` "
            "where it belongs.")


def extra_bracket(spot):
    """A closing bracket that nothing opens."""
    opener = spot.opener()
    opens = {")": "(", "]": "["}[spot.text(0)]
    if opener is not None and spot.tokens[opener].text == opens:
        return None
    return f"This `{spot.text(0)}` closes nothing: there is one too many on this line, or a `{opens}` too few.", "take it away, or open it."


def size(spot):
    """What to write for a `sizeof`."""
    closes = spot.source.partner(spot.at + 1) if spot.text(1) == "(" else spot.at + 1
    whole = spot.source.between(spot.at, closes + 1)
    inner = spot.source.between(spot.at + 2, closes) if spot.text(1) == "(" else spot.text(1)
    unsigned = ", as an unsigned number of 64 bits, which `sizeof` gives"
    kind = spelled(inner.split())
    if kind:
        return f"write `{int(re.search(r'[0-9]+', kind).group()) // 8}ul` for `{whole}`{unsigned}."
    name = re.match(r"[A-Za-z_]\w*", inner)
    found = name and re.search(rf"((?:[A-Za-z_]\w*\s+)+)(\*?)\s*{name.group()}\s*((?:\[[^\]]*\]\s*)*)([;,=)])", spot.source.blanked)
    kind = found and spelled([word for word in found.group(1).split() if word not in QUALIFIERS])
    if not kind:
        return "write the number of bytes with `ul` behind it: a type has its width by 8 of them."
    bits = int(re.search(r"[0-9]+", kind).group())
    sizes, indices = re.findall(r"\[([^\]]*)\]", found.group(3)), inner.count("[")
    is_parameter = found.group(4) in (")", ",") and "(" in spot.source.blanked[:found.end()].rsplit(";", 1)[-1].rsplit("}", 1)[-1]
    if not indices and (found.group(2) or sizes) and is_parameter:
        return (f"in C `{whole}` is 8, the size of a pointer, since `{inner}` is a parameter: write `8ul` where that is meant, and the "
                f"number of elements, `{sizes[0] if sizes and sizes[0] else '..'}`, where that is meant.")
    count = 1
    for length in sizes[indices:]:
        count *= value_of(length, spot.source.defines) or 0
    if not count:
        return "write the number of bytes with `ul` behind it: a type has its width by 8 of them."
    return f"write `{count * bits // 8}ul` for `{whole}`{unsigned}."


def call(spot):
    """A call of a function."""
    if spot.text(0) == "sizeof" or spot.text(0) == "(" and spot.text(-1) == "sizeof":
        return "`sizeof` is not in the language.", size(spot if spot.text(0) == "sizeof" else Spot(spot.source, spot.at - 1))
    if spot.text(0) != "(" or not spot.is_name(-1) or not spot.braces:
        return None
    name, closes = spot.text(-1), spot.source.partner(spot.at)
    whole = f"{name}({spot.source.between(spot.at + 1, closes)})"
    if name in ("printf", "puts", "assert", "putchar"):
        return f"`{name}` is called, and kernels print nothing.", "leave it away; what is to be seen goes into an array."
    if name in ("memset", "memcpy"):
        return f"`{name}` is called, and a call is no statement.", "write a loop over the elements."
    after = spot.text(closes + 1 - spot.at) if closes is not None else ""
    head = re.search(rf"([\w ]*)\b{name}\s*\(([^)]*)\)\s*\{{", spot.source.blanked)
    if head and ("void" in head.group(1).split() or re.search(r"[\[*]", head.group(2))):
        return (f"`{whole}` is a call, and a call is no statement.",
                f"write out here what `{name}` does, with its arguments in place of its parameters: a helper changes no arrays.")
    if after in ASSIGNING | {"++", "--"}:
        return f"What `{whole}` gives is a value, and nothing can be assigned to it.", "assign to a variable or an element."
    return (f"`{whole}` is a call, and a call is no statement: its value would go nowhere.",
            f"assign it, `x = {whole};`, or leave it away: a helper changes nothing but its own variables.")


def is_value(spot, by=-1):
    """Whether a token near the spot may be the last of a value; the `)` of a cast is none."""
    token = spot.tokens[spot.at + by]
    if token.text == ")":
        return spot.tokens[spot.source.opening(spot.at + by) + 1].text not in TYPE_WORDS | QUALIFIERS
    return token.kind in ("name", "number") and token.text not in KEYWORDS or token.text == "]"


def is_structure(spot, name):
    """Whether a name is a type of structures."""
    return spot.text(-2) in ("struct", "union") or bool(re.search(
        rf"\btypedef\s+(?:struct|union)\b\s*\w*\s*(?:\{{[^{{}}]*\}})?\s*{name}\s*;", spot.source.blanked))


def walks(spot, name):
    """Whether a pointer is moved somewhere in the text."""
    return bool(re.search(rf"(?<![\w.>])(?:\+\+|--)\s*{name}\b(?!\s*\[)|\b{name}\s*(?:\+\+|--|[-+]?=(?!=))", spot.source.blanked))


def walking(spot, name):
    """What to write in place of a pointer that moves."""
    return (f"keep where it points to in an index, `int32_t {name}_at = 0;`: `{name}[{name}_at]` is `*{name}`, `{name}[{name}_at + i]` is "
            f"`{name}[i]`, and `{name}_at++;`, a statement of its own, is `{name}++`.")


def pointer(spot):
    """Pointers, addresses and members."""
    if spot.text(0) == "*" and (spot.text(-1) in TYPE_WORDS or spot.is_name(-1)
                                and (spot.in_parameters or spot.text(-2) in ("{", ";", "}"))):
        name = spot.text(1) if spot.is_name(1) else spot.text(2) if spot.text(1) in QUALIFIERS else "a"
        kind = spelled([spot.text(-1)]) or spot.text(-1)
        if spot.in_parameters and is_structure(spot, spot.text(-1)):
            return (f"`*{name}` is the address of a structure, and a kernel has neither.",
                    f"make each member a variable or an array of its own, as `{name}_x` for `{name}->x`; a helper that changes them is written "
                    "out in the kernel, where it is called.")
        ends = re.search(rf"\b(\w+)\s*(!=|<=?)\s*{name}\b", spot.source.blanked)
        if spot.in_parameters and ends and walks(spot, ends.group(1)):
            start, mark = ends.groups()
            return (f"`*{name}` is a pointer to the end of `{start}`, and a kernel has none.",
                    f"make it the number of elements, `int32_t {name}`, and compare the index: `{start}_at {mark} {name}`.")
        if spot.in_parameters and walks(spot, name):
            return (f"`*{name}` is a pointer that moves, and a kernel has none.",
                    f"make it an array with its length, `{kind} {name}[100]`; {walking(spot, name)}")
        if spot.in_parameters:
            return (f"`*{name}` is a pointer, and a kernel has none.",
                    f"make it an array with its length, `{kind} {name}[100]`, and use `{name}[i]`; one value that comes back is "
                    f"`{kind} {name}[1]`, used as `{name}[0]`.")
        return f"`*{name}` is a pointer, and a kernel has none.", "keep the index in an `int32_t` and write `array[index]`."
    summed = re.match(r"\*\s*\(\s*(\w+)\s*([+-])\s*([^()]*(?:\([^()]*\)[^()]*)*)\)", spot.bare)
    if summed and not is_value(spot):
        name, mark, by = summed.groups()
        return (f"`{' '.join(summed.group().split())}` is an element by its address, and a kernel has no pointers.",
                f"write `{name}[{'-' if mark == '-' else ''}{by.strip() if mark == '+' or re.fullmatch(chr(92) + 'w+', by.strip()) else '(' + by.strip() + ')'}]`"
                + (f", or `{name}[{name}_at {mark} ({by.strip()})]` where `{name}` itself moves." if walks(spot, name) else "."))
    if spot.text(0) == "*" and spot.text(1) == "(" and not is_value(spot):
        return ("This is what an address points to, and a kernel has no pointers.",
                "write the array and its index, `a[i]`.")
    if spot.text(0) in ("++", "--") or spot.text(0) in ASSIGNING:
        return None
    if spot.text(0) in ("*", "&") and spot.is_name(1) and not is_value(spot):
        name = spot.text(1)
        if spot.text(0) == "*" and walks(spot, name):
            return (f"`*{name}` is what a pointer points to, and `{name}` moves: a kernel has no pointers.", walking(spot, name))
        return ((f"`*{name}` is what a pointer points to, and a kernel has no pointers.",
                 f"write `{name}[0]`, with `{name}` an array.")
                if spot.text(0) == "*" else
                (f"`&{name}` is an address, and a kernel has no pointers.", f"name the element itself, `{name}[i]`."))
    if spot.text(0) == "->" or spot.text(-1) == "->":
        return "`->` names a member of a structure, and kernels have none.", "make each member a variable or an array of its own."
    return None


def brackets(spot):
    """Lengths of arrays: none, a sum, a variable; local arrays."""
    if spot.token.text == "[" and spot.is_name(-1) and not spot.in_parameters:
        name, start = spot.text(-1), spot.at - 1
        found = re.match(r"\w+\s*((?:\[[^\]]*\]\s*)+)(?:=\s*(\{.*?\}))?\s*[;,]", spot.source.blanked[spot.tokens[start].start:], re.S)
        while start and spot.tokens[start - 1].text not in (";", "{", "}", "("):
            start -= 1
        kind = spelled([token.text for token in spot.tokens[start:spot.at - 1] if token.text in TYPE_WORDS or token.kind == "name"
                        and token.text not in QUALIFIERS][:3]) or "int32_t"
        return ((f"`{name}` is an array in the body, and the arrays of a kernel are its parameters." if spot.braces else
                 f"`{name}` is an array outside of the kernel, and the arrays of a kernel are its parameters."),
                table(spot, kind, name, "".join((found.group(1) if found else "[..]").split()), found and found.group(2)))
    if not spot.in_parameters or spot.opener() is None or spot.tokens[spot.opener()].text != "[":
        return None
    opens, closes = spot.opener(), spot.source.partner(spot.opener())
    length, name = spot.source.between(opens + 1, closes), spot.tokens[opens - 1].text
    if not length:
        return ("An array parameter has its length in the brackets.",
                f"write how many elements it has, as in `{name}[100]`; a kernel that uses fewer takes their number as a parameter.")
    value = value_of(length, spot.source.defines)
    if value is not None:
        defined = re.match(r"[A-Za-z_]\w*", length)
        other = f"{defined.group().upper()}_MORE" if defined else ""
        more = f", or `#define {other} {value}` and `{name}[{other}]`" if defined else ""
        return (f"`{length}` is a sum or a product, and a length is one number or one name.",
                f"write its value, `{name}[{value}]`{more}.")
    return (f"`{length}` is no number that is known when the circuit is made.",
            f"write the greatest length that it may have, `{name}[100]`, or a name that `#define` gives a number; pass "
            f"`{length}` as a "
            "scalar beside it.")


def two_variables(spot):
    """What to write for the comma in the head of a `for`."""
    opener = spot.opener()
    body = steps.Walk(spot.source)
    leaves = steps.has_continue(body, spot.source.partner(opener) + 1)
    parts = spot.source.between(opener + 1, spot.at).count(";")
    if parts == 0:
        return "write the assignments before the loop, each a statement of its own, and leave this part of `for` empty."
    if parts == 1:
        return "write `&&` or `||` where both are meant: of `a, b` C tests `b` alone."
    return ("write what stands behind the comma as the last statement of the body"
            + (", and before each `continue` of this loop too." if leaves else "."))


def step_or_assignment(spot):
    """Steps and assignments inside expressions, comma expressions, expressions as statements, braces as values."""
    word, opener = spot.text(0), spot.opener()
    inside = opener is not None and spot.tokens[opener].text in ("[", "(")
    if word in ("++", "--") or word in ASSIGNING and spot.braces:
        said = steps.advice(spot) if spot.braces else None
        if word in ASSIGNING and inside and spot.tokens[opener - 1].text in ("if", "while"):
            compared = f"{spot.source.between(opener + 1, spot.at)} == {spot.source.between(spot.at + 1, spot.source.partner(opener))}"
            return ("`=` assigns, and an assignment is a statement and no condition.",
                    f"write `{compared}` to compare" + (f"; where it is to assign, write {said}." if said else "; else assign in a statement."))
        why = "An assignment" if word in ASSIGNING else f"`{word}`"
        return (f"{why} is a statement, and no part of an expression." if word in ASSIGNING else
                f"{why} is a statement here, and no part of an expression.",
                f"write {said}." if said else "make it a statement of its own, where C has it come.")
    if word == "," and spot.braces:
        in_for = inside and spot.tokens[opener - 1].text == "for"
        if inside and spot.tokens[opener].text == "[":
            name, inner = spot.tokens[opener - 1].text, " ".join(it.text for it in spot.tokens[opener + 1:spot.at])
            return ("Each dimension of an array has brackets of its own.", f"write `{name}[{inner}][..]`.")
        return ("The comma does not join expressions in a kernel.",
                two_variables(spot) if in_for
                else "write two statements, with a `;` between.")
    if word in ("<", "<=", ">", ">=", "!=", "==") and inside and spot.tokens[opener - 1].text == "for":
        return "The three parts of `for` are parted by `;`.", "write `for (int32_t i = 0; i < n; i++)`."
    if word == "{" and spot.text(-1) == "=" and is_structure(spot, spot.text(-3)):
        return ("A list in braces gives the members of a structure their values, and kernels have none.",
                f"give each member a variable of its own, with its value: `int32_t {spot.text(-2)}_x = ..;`.")
    if word == "{" and spot.text(-1) == "=":
        return ("A list in braces is the value of an array, and arrays are parameters.",
                "make the array a parameter, and give its elements in the inputs.")
    if spot.braces and word in OPERATORS | {";"} and not inside and _begins_statement(spot):
        return ("An expression alone is no statement: its value would go nowhere.",
                "assign it, `x = ..;`, or leave it away.")
    return None


def _begins_statement(spot):
    """Whether only one target stands between the statement's begin and the token."""
    at = spot.at - 1
    if spot.tokens[at].text == "]":
        while at and spot.tokens[at].text != "[":
            at -= 1
        at -= 1
    return spot.tokens[at - 1].text in (";", "{", "}", ")", "else", "do")


def outside(spot):
    """What stands before, after or around the kernel."""
    if spot.after_kernel:
        if spot.text(0) == "}":
            return "This `}` closes nothing.", "take it away, or look for a `{` that is missing above."
        if spot.text(0) == "static":
            return "A helper stands before the kernel, and this one behind it.", "move it up."
        before = next((token.text for token, after in zip(spot.tokens[spot.heads[-2]:], spot.tokens[spot.heads[-2] + 1:])
                       if after.text == "("), "") if len(spot.heads) > 1 else ""
        if before and re.search(rf"\b{before}\s*\(", spot.source.blanked[spot.token.start:]):
            return (f"`{before}` is called below, so it is a helper, and was read as the kernel.", f"write `static` before `{before}`.")
        return ("A text is one kernel, and nothing follows its `}`.",
                "keep one kernel a file. A function that it calls stands before it, and begins with `static`.")
    if spot.text(0) == ";" and spot.text(-1) == ")" and not spot.braces:
        return "This is the declaration of a function, and each function stands with its body.", "leave the line away; helpers stand before those that call them."
    if not spot.braces and not spot.in_parameters and spot.text(-1) == ")":
        return "The body of a kernel stands in braces.", "write `{` here and `}` at the end."
    if spot.in_parameters and spot.text(0) in (",", ")") and spot.text(-1) in TYPE_WORDS:
        return "Each parameter has a name.", f"write one behind `{spot.text(-1)}`, as in `{spot.text(-1)} a`."
    if spot.in_parameters and spot.text(-1) == "," and spot.is_name(0):
        return "Each parameter has its own type.", f"write the type again: `int32_t {spot.text(0)}`."
    if spot.text(-1) in ("if", "while", "for", "switch") and spot.text(0) != "(":
        return f"What follows `{spot.text(-1)}` stands in parentheses.", f"write `{spot.text(-1)} (..)`."
    if not spot.at:
        return "A kernel begins with `void` or with the type of its result.", "write it so: `int32_t f(int32_t a) { return a; }`."
    return None


def any_other(spot):
    """No habit is known: what the token is, and what stands before it."""
    if spot.text(0) in (")", "]", ";", "}") and (spot.text(-1) in OPERATORS | ASSIGNING | {"(", "["}):
        return f"An operand is missing between `{spot.text(-1)}` and `{spot.text(0)}`.", "write it, or take the operator away."
    before = f" after `{spot.text(-1)}`" if spot.at else ""
    return (f"`{spot.text(0)}` cannot come{before} in a kernel.",
            f"look at this token and the one before it; {GUIDE}, has the language, and docs/FORMATS.md, section 12, its grammar.")


HABITS = (missing_semicolon, missing_bracket, helper, table_or_global, qualifier, aggregate, type_word, jump, pointer, brackets, call, unknown_type,
          step_or_assignment, outside, any_other)


def unexpected(source, at):
    """The cause and the remedy of `10 Unexpected` at the token of this number."""
    spot = Spot(source, at)
    return next(answer for answer in (habit(spot) for habit in HABITS) if answer)
