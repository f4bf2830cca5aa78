"""Why a kernel text is refused, and what to write instead: the numbers 1 to 29."""
import difflib
import re

from explaining.habits import BOOL, INLINE, Spot, unexpected
from explaining import steps
from explaining.constants import typed_value
from explaining.source import FIXED, KEYWORDS, NUMBER, value_of
from explaining.tables import spelled_constant

LIMITS = {f"INT{bits}_MAX": str(2 ** (bits - 1) - 1) for bits in (8, 16, 32, 64)}
LIMITS.update({f"INT{bits}_MIN": f"(-{2 ** (bits - 1) - 1} - 1)" for bits in (8, 16, 32, 64)})
LIMITS.update({f"UINT{bits}_MAX": f"{2 ** bits - 1}{'u' * (bits > 16)}" for bits in (8, 16, 32, 64)})
LIMITS.update({"INT_MAX": LIMITS["INT32_MAX"], "INT_MIN": LIMITS["INT32_MIN"], "UINT_MAX": LIMITS["UINT32_MAX"], "CHAR_BIT": "8",
               "SHRT_MAX": LIMITS["INT16_MAX"], "SHRT_MIN": LIMITS["INT16_MIN"], "LONG_MAX": LIMITS["INT64_MAX"],
               "LLONG_MAX": LIMITS["INT64_MAX"], "true": "1", "false": "0", "NULL": "0", "TRUE": "1", "FALSE": "0"})
CONTROL = {"n": 10, "t": 9, "r": 13, "0": 0, "a": 7, "b": 8, "f": 12, "v": 11, "\\": 92, "'": 39, '"': 34}


def bad_byte(source, line, column):
    rest = source.text[source.offset(line, column):]
    if rest.startswith("\u00ef\u00bb\u00bf"):
        return "The file begins with a byte order mark, which no editor shows.", "save it as ASCII, or as UTF-8 without the mark."
    if rest.startswith("'"):
        found = re.match(r"'(\\?)(.)'", rest)
        code = found and (CONTROL.get(found.group(2)) if found.group(1) else ord(found.group(2)))
        return "Kernels have no characters.", f"write its number, {code}." if code is not None else "write its number."
    if rest.startswith('"'):
        return "Kernels have no strings.", "leave it away; a text that is worked on is an array parameter of `uint8_t`."
    if rest.startswith("\\"):
        return "A backslash at a line's end would join two lines, and kernels have no joined lines." if rest[1:2] in "\r\n" else \
            "A backslash has no meaning in a kernel.", "write it on one line, without the backslash."
    if rest.startswith("."):
        if rest.startswith("..."):
            return "`...` would take any number of arguments.", "write each parameter, with its type."
        if rest[1:2].isdigit():
            return ("A number with a point is floating point, and kernels compute with integers.",
                    "scale by hand: 0.5 in 1/256 is 128.")
        return ("`.` names a member of a structure, and kernels have none.",
                "make each member a variable, or an array, of its own: `p.x` becomes `p_x`.")
    byte = rest[:1].encode("latin-1")
    if byte >= b"\x80":
        char = rest[:4].encode("latin-1").decode("utf-8", "ignore")[:1]
        return (f"`{char}` is no ASCII character; outside of comments a kernel is ASCII." if char else
                f"The byte {byte[0]} is no ASCII.",
                "type it again: quotes, dashes and spaces that were pasted from a text are others than those of C.")
    return (f"`{rest[:1] if rest[:1].isprintable() else f'byte {byte[0]}' if byte else ''}` has no meaning in a kernel.",
            "take it away.")


def directive(source, line, column):
    text = re.sub(r"/\*.*?\*/|//.*", " ", source.line(line)[column - 1:]).strip()
    found = re.match(r"#\s*(\w*)\s*(.*)", text, re.S)
    word, rest = found.groups()
    if word == "include":
        name = rest.strip("<>\" ")
        if name == "stdbool.h":
            return "`stdbool.h` is not read, and `bool` is no type of a kernel.", f"leave the line away; {BOOL}"
        return (f"`{name}` is not read: a kernel is one file, and only `#include <stdint.h>` stands in it.",
                "leave the line away, and write what is used of it into the kernel." if rest.startswith('"') else
                "leave the line away; its functions and names are not in the language.")
    if word == "define":
        return define(source, text, rest)
    if word in ("ifdef", "ifndef", "if", "else", "elif", "endif"):
        return ("Kernels are not compiled by conditions.", "keep the part that is meant, and leave the directives away; "
                "`cc -E -P` makes such a text of yours, and what it prints of `stdint.h` goes out again.")
    if word in ("pragma", "undef", "error", "line", "warning"):
        return f"`#{word}` is not read: the directives are `#include <stdint.h>` and `#define NAME number`.", "leave the line away."
    return "A `#` stands only at the begin of a directive.", "take it away."


def define(source, text, rest):
    """Why a `#define` is refused."""
    macro = re.match(r"(\w+)\(([^)]*)\)\s*(.*)", rest, re.S)
    if macro:
        return (f"`{macro.group(1)}` is a macro with parameters, and `#define` gives a name a number.",
                f"write it out where it is used: `{macro.group(1)}({macro.group(2)})` is `{macro.group(3).strip()}` with its "
                "arguments. The C compiler does that for the whole file: `grep -v stdint.h my.c | cc -E -P - > out.c`. `tools/use/mend.py` "
                "does it too, and keeps the names of numbers.")
    name, _, value = rest.partition(" ")
    value = value.strip()
    if name in KEYWORDS or name in FIXED:
        return f"`{name}` is a word of C, and no name.", "take another name."
    if not value:
        return f"`{name}` gets no number.", f"write one, `#define {name} 1`, or leave the line away."
    if value.endswith("\\"):
        return "A `#define` is one line.", "write a number on it."
    known = typed_value(value.rstrip(";"), expressions(source))
    if known is None:
        return (f"`{value}` is no number, and `#define` gives a name a number.",
                f"write `{value}` where `{name}` stands, and leave the line away.")
    if not is_grouped(value.rstrip(";")):
        return (f"`{value}` is an expression, and `#define` gives a name one bare number.",
                f"write `{value}` where `{name}` stands, without parentheses as C has it, and leave the line away.")
    number = spelled_constant(*known)
    if number.startswith("("):
        return ("The sign is no part of a number.",
                f"write `{number}` where `{name}` stands, or `#define {name} {number[2:-1]}` and `-{name}` there." if " " not in number
                else f"write `{number}` where `{name}` stands.")
    what = "ends with a `;`" if value.endswith(";") else "is an expression, and `#define` gives a name one bare number"
    return f"`{value}` {what}.", f"write its value: `#define {name} {number}`."


def expressions(source):
    """What each name of a `#define` without parameters stands for: a number or an expression."""
    found = re.findall(r"^[ \t]*#[ \t]*define[ \t]+(\w+)[ \t]+([^\n]*?)[ \t\r]*$", source.blanked, re.M)
    return {**{name: value for name, value in found if typed_value(value, dict(found))}, **source.defines}


def is_grouped(value):
    """Whether an expression is one number, one name, a number with its sign, or stands in one pair of parentheses."""
    if re.fullmatch(r"\s*-?\s*\w+\s*", value):
        return True
    depth = 0
    for at, char in enumerate(value.strip()):
        depth += (char == "(") - (char == ")")
        if not depth:
            return char == ")" and at == len(value.strip()) - 1
    return False


def bad_number(source, at):
    text = source.tokens[at].text
    if re.match(r"0[bB][01_]+$", text):
        return "C99 has no binary numbers.", f"write it in hexadecimal: `{int(text[2:].replace('_', ''), 2):#x}`."
    if re.match(r"[\d_]+$", text) and "_" in text or "'" in text:
        return "Digits are not parted in C.", f"write `{text.replace('_', '')}`."
    if re.match(r"0[0-7]*[89]\d*$", text):
        return "A number that begins with 0 is octal, and has no digit 8 or 9.", f"write `{text.lstrip('0')}` if it is decimal."
    if "." in text or re.match(r"\d+[eE]", text) or re.match(r"\d+[fF]$", text):
        return (f"`{text}` is floating point, and kernels compute with integers.",
                "write an integer, or scale by hand: 1.5 in 1/256 is 384, and a product of two is shifted right by 8.")
    return (f"`{text}` is no integer constant of C.",
            "write digits, or `0x` and hexadecimal digits, with `u`, `l` or `ll` behind them, or nothing.")


def wide_number(source, at):
    text = source.tokens[at].text
    value = value_of(text, {}) if not re.match(r"\d+[uUlL]*$", text) else int(re.match(r"\d+", text).group())
    if value is not None and value < 2 ** 64:
        return ("No signed type of C holds this decimal number.",
                f"write `{text.rstrip('uUlL')}u` if an unsigned number is meant; the least number of 64 bits is "
                "`(-9223372036854775807 - 1)`.")
    return "No type of C holds a number of more than 64 bits.", "part it into two numbers."


def redefined(source, line, at_name):
    first = next(iter(re.finditer(rf"^[ \t]*#[ \t]*define[ \t]+{at_name}[ \t]+({NUMBER})", source.text, re.M)), None)
    where = f" on line {source.place(first.start(1))[0]}, as {first.group(1)}" if first else ""
    return f"`{at_name}` has a number already{where}.", "give the second number a name of its own."


def end_of_text(source):
    opened = []
    for number, token in enumerate(source.tokens):
        if token.text in ("{", "(", "["):
            opened.append(token)
        elif token.text in ("}", ")", "]") and opened:
            opened.pop()
    if not source.tokens:
        return "The file has no kernel.", "write one: `int32_t f(int32_t a) { return a; }`."
    if not opened and source.tokens[0].text == "static" and source.tokens[-1].text == "}":
        return ("The last function begins with `static`, so it is read as a helper, and a kernel is missing.",
                "leave `static` away before the kernel.")
    if not opened:
        return "The kernel is not whole.", "write a type, a name, parameters in parentheses and a block."
    token = opened[-1]
    closes = {"{": "}", "(": ")", "[": "]"}[token.text]
    return (f"The `{token.text}` of line {token.line}, column {token.column} is never closed.",
            f"write the `{closes}` where it belongs; where all seem to be there, a line above has one `{token.text}` too many.")


def declarations(source, name):
    """The places at which a name seems to be declared."""
    for before, token in zip(source.tokens, source.tokens[1:]):
        if token.text == name and (before.text in FIXED | {"int", "signed", "unsigned", "void"} or before.text == ","):
            yield token


def undeclared(source, at):
    token = source.tokens[at]
    name = token.text
    if name in LIMITS:
        return f"`{name}` is a name of a header, and headers are not read.", f"write `{LIMITS[name]}`."
    if re.fullmatch(r"U?INT\d+_C", name):
        return f"`{name}` is a macro of a header.", "write the number with its suffix, as `1u` or `1ll`."
    if at + 1 < len(source.tokens) and source.tokens[at + 1].text == "(":
        return uncalled(source, at)
    earlier = [it for it in declarations(source, name) if it.start < token.start]
    if earlier:
        return (f"`{name}` is declared on line {earlier[-1].line}, in a block or a `for` that is over here.",
                "declare it before that block, and assign to it inside.")
    later = next((it for it in declarations(source, name) if it.start > token.start), None)
    spot = Spot(source, at)
    if spot.in_helper and later is not None and spot.braces:
        return of_the_kernel(source, spot, name, later)
    if later:
        return f"`{name}` is declared only later, on line {later.line}.", "move its declaration up."
    known = {it.text for before, it in zip(source.tokens, source.tokens[1:])
             if it.kind == "name" and before.text in FIXED | {"int", "unsigned", "signed"}} | set(source.defines)
    close = difflib.get_close_matches(name, sorted(known), 1)
    hint = f" `{close[0]}` is, if that is meant." if close else ""
    define = f", or write `#define {name} ..`" if name.isupper() else ""
    return (f"`{name}` is declared nowhere.{hint}", f"declare it, `int32_t {name} = 0;`, or make it a parameter{define}.")


def of_the_kernel(source, spot, name, later):
    """A helper that names a parameter of the kernel."""
    called = next((text for text, after in zip(spot.body(), spot.body()[1:]) if after == "("), "f")
    if dimensions(source, name):
        return (f"`{name}` is an array of the kernel (line {later.line}), and a helper has its own parameters alone, which are scalars.",
                f"there are two ways. Hand the element over: a parameter `int32_t element` in place of `{name}[..]`, and "
                f"`{called}({name}[..])` in the kernel. Or write out in the kernel what `{called}` does.")
    return (f"`{name}` is a variable of the kernel (line {later.line}), and a helper has its own parameters alone.",
            f"hand it over: give `{called}` one parameter more, and `{name}` as its argument.")


def uncalled(source, at):
    """Why what is called here is no helper."""
    name = source.tokens[at].text
    places = [it for it in declarations(source, name)]
    inside = [it for it in places if it.start < source.tokens[at].start]
    if inside:
        return f"`{name}` is called inside itself: a helper's name is known behind its closing brace.", ("there is no recursion: write a loop. Where the "
            "call is the last thing that is done, it gives the parameters new values and goes on: `while (..) { .. }` around that, with "
            "one `return` behind; else keep in an array parameter what is still to be done.")
    if places:
        return f"`{name}` stands only later, on line {places[0].line}.", "move it up: a helper stands before what calls it."
    closes = source.partner(at + 1)
    parts = [part for part in source.between(at + 2, closes).split(",") if part.strip()]
    names = ["a", "b", "c", "d", "e", "f", "g", "h"][:len(parts)] if len(parts) <= 8 else ["a", ".."]
    form = INLINE.get((name.lower().lstrip("f"), len(parts)))
    value = form.format(*names) if form else ".."
    params = ", ".join(f"int32_t {it}" for it in names) or "void"
    return (f"`{name}` is called, and no helper of that name stands before; headers are not read.",
            f"write it before the kernel, as `static int32_t {name}({params}) {{ return {value}; }}`.")


def redeclared(source, at):
    token = source.tokens[at]
    first = next(declarations(source, token.text), token)
    return (f"`{token.text}` is declared on line {first.line}, column {first.column} already, in the same block; the "
            f"parameters belong "
            "to the kernel's block.", "leave the type away to assign to it, or take another name.")


def dimensions(source, name):
    """The brackets of an array's declaration; empty where it has none."""
    token = next(declarations(source, name), None)
    found = token and re.match(rf"{name}((?:\s*\[[^\]]*\])*)", source.text[token.start:])
    return re.findall(r"\[([^\]]*)\]", found.group(1)) if found else []


def lengths(source, at):
    name = source.tokens[at].text
    sizes = [value_of(it, source.defines) for it in dimensions(source, name)]
    if 0 in sizes:
        return f"A dimension of `{name}` is 0.", "make it at least 1."
    return (f"With `{name}` the arrays have more than 1,048,576 elements in all.",
            "make them smaller; a kernel that walks over more data works on a part of it, and is run once for each part.")


def wrong_dimensions(source, at):
    name = source.tokens[at].text
    sizes = dimensions(source, name)
    if len(sizes) > 3:
        return (f"`{name}` has {len(sizes)} dimensions, and an array has at most 3.",
                f"make two of them one: `[A][B]` is `[A * B]`, its value written out, and `{name}[i][j]` is `{name}[i * B + j]`.")
    one = "one index" if len(sizes) == 1 else f"{len(sizes)} indices"
    return (f"`{name}` has {len(sizes)} dimension{'s' * (len(sizes) != 1)}, and here another number of indices.",
            f"write {one}: `{name}{''.join('[..]' for _ in sizes)}`.")


def return_kind(source, line, column):
    value = not re.match(r"return\s*;", source.text[source.offset(line, column):])
    return (("This kernel is `void`, and a value is returned.",
             "leave the value away, or write the type of the result in place of `void`.")
            if value else ("This kernel has a result, and nothing is returned.", "write the value behind `return`."))


def is_helper(source, name):
    """Whether a helper of that name stands in the text."""
    return bool(re.search(rf"\bstatic\s+(?:\w+\s+)+{re.escape(name)}\s*\(", source.text))


def not_scalar(source, at):
    name = source.tokens[at].text
    if is_helper(source, name):
        return f"`{name}` is a helper, and stands here without a call.", f"call it, `{name}(..)`; nothing else can be done with a helper."
    return (f"`{name}` is an array, and stands here without an index.",
            f"name an element, `{name}[i]`; whole arrays are neither assigned nor passed on.")


def call_place(source, at):
    """A call that is evaluated more than once or not always."""
    name, closes = source.tokens[at].text, source.partner(at + 1)
    whole = source.between(at, closes + 1)
    spot = Spot(source, at)
    why = (f"`{name}` is called where it may be evaluated more than once or not at all: in the condition of a loop, "
           "on the right of `&&` or `||`, or in the second or third part of `?:`.")
    place = steps.Walk(source).place(steps.body_of(spot), at) if steps.body_of(spot) is not None else None
    if place and place.kind in ("while", "test", "do"):
        left = source.between(place.first, at)
        right = source.between(closes + 1, place.last)
        if not re.search(r"&&|\|\||\?", left):
            text = f"{left}{' ' * bool(left)}{whole}{' ' * bool(right)}{right}"
            test = f"int go = {steps.tested(text) if left or right else f'{text} != 0'}; if (!go) break;"
            return why, {
                "while": f"write `while (1) {{ {test} .. }}`, with the loop's body in place of `..`.",
                "test": f"leave the condition of the `for` empty, and begin its body with `{test}`.",
                "do": f"write `int go; do {{ .. go = {test[9:].split(';')[0]}; }} while (go);`, with the loop's body in place of `..`, and "
                      "what a `continue` of it passes over in an `if`."}[place.kind]
    if place and place.kind == "if" and re.fullmatch(r"[^?|]*&&\s*", source.between(place.first, at) + " ") and closes + 1 == place.last:
        return why, f"write `if ({source.between(place.first, at - 1)}) {{ if ({whole}) .. }}`, and what `else` has for both."
    return why, (f"call it in a statement of its own, `value = {whole};`, within an `if` that asks what stands before: before `&&` or `?`, or "
                 "the opposite of what stands before `||` or for the third part of `?:`.")


def arguments(source, at):
    name = source.tokens[at].text
    found = re.search(rf"\bstatic\s+(?:\w+\s+)+{re.escape(name)}\s*\(([^)]*)\)", source.text)
    params = found.group(1).strip() if found else ".."
    few = "no parameters" if params in ("", "void") else f"the parameters `{params}`"
    return f"`{name}` has {few}, and is called here with another number of arguments.", "write one argument for each parameter."


def cause(source, number, line, column):
    """The cause and the remedy of the refusal of a kernel text at a place."""
    at = source.at(line, column)
    name = source.tokens[at].text if at < len(source.tokens) else ""
    ways = {
        1: lambda: bad_byte(source, line, column),
        2: lambda: ("This comment is never ended.", "end it by `*/`; comments do not nest."),
        3: lambda: bad_number(source, at), 4: lambda: wide_number(source, at),
        5: lambda: directive(source, line, column),
        6: lambda: redefined(source, line, re.match(r"\w*", source.line(line)[column - 1:]).group()),
        10: lambda: unexpected(source, at), 11: lambda: end_of_text(source),
        12: lambda: ("More than 64 constructs stand in one another here: parentheses, unary operators, casts, brackets, "
                     "blocks, `if`, "
                     "loops, `?:`.",
                     "give an inner part a variable of its own; `else if` chains get shorter by a variable for the choice."),
        15: lambda: ("With its calls written out the kernel has more than 1,024 nodes: each call is a copy of its helper.",
                     "call a helper in a loop in place of many times in a row, make helpers smaller, or split the kernel."),
        17: lambda: (f"`{name}` is a variable or an array here, and is called.",
                     "give the variable or the helper another name; inside of a helper its parameters hide helpers of their names."),
        13: lambda: ("The kernel has more than 1,024 nodes: names, numbers, operators, declarations and statements count one each.",
                     "make it smaller: a loop in place of statements that repeat, or two kernels, each with its own circuit."),
        20: lambda: undeclared(source, at), 21: lambda: redeclared(source, at),
        22: lambda: (f"`{name}` is a scalar, and has indices here.",
                     f"leave the brackets away, or make it an array: `int32_t {name}[..]`."),
        23: lambda: not_scalar(source, at),
        24: lambda: wrong_dimensions(source, at), 25: lambda: lengths(source, at),
        26: lambda: return_kind(source, line, column),
        27: lambda: (f"`{name}` stands outside of all loops.", "put it into a loop; a kernel is left by `return`."),
        28: lambda: call_place(source, at),
        29: lambda: arguments(source, at),
    }
    return ways[number]()
