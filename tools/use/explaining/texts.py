"""Why a netlist, a text of inputs, a schedule or a saved state is refused: the numbers 30 to 61, 90 and 91."""
import difflib
import re
from collections import Counter

from explaining.source import FIXED, Source, value_of

RULES = {
    "C1": ("Each place of each unit has exactly one channel, and each end of a channel is a place that exists; {what} breaks that.",
           "give each input and output one channel. The places of each kind stand in docs/FORMATS.md, section 7; a value that "
           "is used "
           "twice goes through a fork, and one that nothing uses to a sink."),
    "C2": ("The width of a channel is that of both its places, widths are 8, 16, 32 or 64, and a constant fits its width; {what} "
           "breaks that.",
           "write the width of the unit that the channel comes from, and widen or cut by an `op1`, such as `s32to64`."),
    "C3": ("A channel has 1 to 1,024 slots and a delay of 0 to 1,000, and all slots together are at most 67,108,864; {what} breaks "
           "that.", "write numbers within these."),
    "C4": ("A channel out of a queue has a delay of at least 1, and no loop is made of channels of delay 0 alone, which would be a "
           "loop of gates; {what} breaks that.",
           "write a delay of 1 on one channel of the loop{loop}, or on the one out of the queue."),
    "C5": ("The control token has channels of its own, marked `control`: from the entry, at all places of a cmerge, at the "
           "groups and "
           "the end of a queue, to input 0 of the exit; of a fork output 0 alone goes on with it. At {what} that is broken.",
           "mark the channels there, or take the mark away; a copy of the control token that is a value comes from an output "
           "above 0."),
    "C6": ("The control token passes the end of each queue once on its way to the exit; at {what} that is broken.",
           "join the ends of the queues, one behind the other, and the last one to the exit."),
    "C7": ("A fork, mux or cmerge has 1 to 65,536 ways; a queue has ports, each in exactly one group, and room for its greatest "
           "group; {what} breaks that.", "mend the numbers of that unit."),
    "C8": ("There are one entry, one exit, and one `param` for each scalar; names differ; an array has a queue or reads, and "
           "a queue "
           "at most once; arrays have at most 1,048,576 elements in all; {what} breaks that.",
           "compare the units with the lines `scalar` and `array`, which are numbered from 0."),
}
FIRST = {"elastic", "kernel", "scalar", "array", "result", "unit", "chan", "end"}
ACTS = "go from send alloc addr data exec reply retire end"


def line_of(lines, word, number):
    """The number, from 1, of the line of a unit or a channel; 0 where there is none."""
    found = [at for at, line in enumerate(lines, 1) if line.startswith(word + " ")]
    return found[number] if number < len(found) else 0


def rule(source, word, what, number):
    """The line, the cause and the remedy of a broken rule; `what` is `unit`, `chan` or `net`."""
    lines = source.text.split("\n") if source else []
    line = line_of(lines, what, number) if what != "net" else 0
    named = "the net" if what == "net" else f"{'channel' if what == 'chan' else 'unit'} {number}"
    loop = loop_at(lines, number) if word == "C4" and what == "unit" else []
    more = f", which is {' -> '.join(map(str, loop))}" if loop else ""
    cause, remedy = RULES[word]
    detail = places_of(lines, what, number) if word == "C1" else ""
    return line, cause.format(what=named) + detail, remedy.format(loop=more)


def places_of(lines, what, number):
    """What is wrong with the places of a unit or of a channel's ends, as a sentence; empty where that is not seen."""
    units = [line.split(" ")[1:] for line in lines if line.startswith("unit ")]
    ends = [[tuple(map(int, end.split("."))) for end in line.split(" ")[1:3]] for line in lines if line.startswith("chan ")]
    result = int("result none" not in lines)
    if number >= len(ends if what == "chan" else units):
        return ""
    wrong = []
    for side, (name, used) in enumerate((("output", [it[0] for it in ends]), ("input", [it[1] for it in ends]))):
        if what == "chan":
            unit, place = ends[number][side]
            count = places(units[unit], result)[side] if unit < len(units) else None
            if unit >= len(units) or count is not None and place >= count:
                wrong.append(f"{name} {unit}.{place} is not there")
            continue
        count, channels = places(units[number], result)[side], Counter(used)
        for place in range(count or 0):
            times = channels[number, place]
            if times != 1:
                wrong.append(f"{name} {number}.{place} has {times or 'no'} channel{'s' * (times > 1)}")
    return f" Here {', '.join(wrong[:4])}." if wrong else ""


def places(unit, result):
    """How many outputs and inputs a unit has; None for a queue, whose places are numbered with holes."""
    kind, words = unit[0], unit[1:]
    if kind == "lsq":
        return None, None
    ways = int(words[-1]) if kind in ("fork", "mux", "cmerge") else 0
    outputs = {"fork": ways, "branch": 2, "sink": 0, "exit": 0}.get(kind, 1)
    inputs = {"entry": 0, "param": 0, "op2": 2, "branch": 2, "select": 3, "mux": 1 + ways, "cmerge": ways, "exit": 1 + result}
    return outputs, inputs.get(kind, 1)


def loop_at(lines, unit):
    """A loop of channels of delay 0 that ends at a unit or leads to it: the numbers of its units; empty where none is found."""
    before = {}
    for line in lines:
        found = re.fullmatch(r"chan (\d+)\.\d+ (\d+)\.\d+ \d+ \d+ 0(?: control)?", line)
        if found:
            before.setdefault(int(found.group(2)), []).append(int(found.group(1)))
    alive = set(before)
    while True:
        left = {it for it in alive if any(above in alive for above in before[it])}
        if left == alive:
            break
        alive = left
    walk = [unit] if unit in alive else []
    while walk and len(walk) == len(set(walk)):
        walk.append(next(above for above in before[walk[-1]] if above in alive))
    return walk[walk.index(walk[-1]):][::-1] if walk else []


def net_line(source, number):
    """Why a line may not stand in a net text."""
    line = source.line(number)
    raw = source.text.split("\n")[number - 1] if number <= source.text.count("\n") + 1 else ""
    first = line.split(" ")[0]
    if any(it == "end" for it in source.text.split("\n")[:number - 1]):
        return "Nothing follows the line `end`.", "take away what stands behind it, empty lines too."
    if raw.endswith("\r"):
        return "The line ends with a carriage return.", "save the file with line feeds alone."
    if not line.strip():
        return "A netlist has no empty lines.", "take the line away."
    if "\t" in line or "  " in line or line != line.strip():
        return "One space stands between two words, and none at the ends.", "take tabs and further spaces away."
    if re.search(r"(?:^|[ .,;])0\d", line):
        return "A number begins with a zero.", "write it without."
    if first not in FIRST:
        return f"No line of a netlist begins with `{first}`; there are no comments.", "docs/FORMATS.md, section 8, has the lines."
    queue = re.fullmatch(r"unit lsq \d+ \d+ \S+ \S+( plain| forward)?", line)
    if queue:
        newer = source.line(1) != "elastic 1"
        return (f"In version {2 if newer else 1} a queue {'has' if newer else 'has not'} the mark `plain` or `forward` at its end.",
                "write it." if newer else "take it away, or make the first line `elastic 2` and give every queue one.")
    before = source.line(number - 1).split(" ")[0] if number > 1 else "nothing"
    return (f"The line has not the form of its kind, or may not come behind `{before}`.",
            "the order is elastic, kernel, scalars, arrays, result, units, channels, end; docs/FORMATS.md, section 8, has "
            "each form.")


def header_of(sources):
    """The names of a kernel's or a netlist's parameters with their types and numbers of elements (None: a scalar)."""
    for source in sources:
        if re.match(r"elastic [12]\n", source.text):
            return [(name, kind, int(count) if count else None) for name, kind, count in
                    re.findall(r"^(?:scalar|array) (\w+) (\w+)(?: (\d+))?$", source.text, re.M)]
    for source in sources:
        texts = [it.text for it in source.tokens]
        if "(" not in texts or not set(texts) & (FIXED | {"int", "unsigned", "signed", "void"}):
            continue
        opens = texts.index("(")
        inside = source.between(opens + 1, source.partner(opens))
        found = re.findall(r"([\w ]+?) (\w+)((?: ?\[ ?\w+ ?\])*)(?:,|$)", inside)
        return [(name, kind.strip(), product(source, re.findall(r"\w+", sizes)) if sizes else None) for kind, name, sizes in found]
    return []


def product(source, words):
    count = 1
    for word in words:
        count *= value_of(word, source.defines) or 1
    return count


def bounds(kind):
    """The least and the greatest number of a type."""
    found = re.search(r"(\d+)", kind)
    bits = int(found.group(1)) if found else 32
    return (0, 2 ** bits - 1) if kind.startswith("u") else (-2 ** (bits - 1), 2 ** (bits - 1) - 1)


def inputs(source, word, number, header):
    """Why a line of inputs is refused."""
    line = source.line(number) if source else ""
    name = line.partition("=")[0].strip()
    known = {it[0]: it for it in header}
    if word == "Line":
        return input_form(line)
    if word == "Unknown":
        close = difflib.get_close_matches(name, list(known), 1)
        names = f"; it has {', '.join(known)}" if known else ""
        return (f"`{name}` is no parameter of the kernel or netlist{names}.",
                f"write `{close[0]}`, if that is meant." if close else "take the line away, or mend the name.")
    if word == "Twice":
        first = next((at for at, it in enumerate(source.text.split("\n"), 1) if it.partition("=")[0].strip() == name), 0)
        return f"`{name}` has a line already, line {first}.", "leave one of the two away."
    given = len(line.partition("=")[2].split())
    if word == "Count":
        wanted = known.get(name, (name, "", 0))[2]
        if wanted == 0:
            return (f"`{name}` has {given} numbers, and needs another count.",
                    "a scalar has one number, an array one for each element.")
        wanted = 1 if wanted is None else wanted
        return (f"`{name}` has {given} number{'s' * (given != 1)}, and needs {wanted}.",
                "a scalar has one number; the elements of an array stand on one line, row by row.")
    kind = known[name][1] if name in known else ""
    least, most = bounds(kind) if kind else (None, None)
    outside = [it for it in line.partition("=")[2].split() if kind and not least <= int(it) <= most]
    return (f"`{outside[0]}` is outside of `{kind}`, which goes from {least} to {most}." if outside else
            f"A number of `{name}` is outside of its type.", "write one within it, or widen the parameter's type.")


def input_form(line):
    if "=" not in line:
        return "The line has no `=`.", "write a name, `=` and numbers, as `n = 8`; a comment begins with `#` in the first column."
    name, _, numbers = line.partition("=")
    if re.search(r"[,;{}\[\]]", numbers):
        return "Only spaces stand between numbers.", "leave commas, semicolons and brackets away."
    if re.search(r"0[xX]|\d\.|\.\d|\d[eE]|[a-zA-Z_'\"+]", numbers):
        return ("Numbers are decimal and whole, with `-` before a negative one.",
                "write them so; hexadecimal and names are not read.")
    if not re.fullmatch(r"[ \t]*[A-Za-z_]\w*[ \t]*", name):
        return f"`{name.strip()}` is no name; an array is named whole, without brackets.", "write the name of the parameter alone."
    if not numbers.strip():
        return "No number stands behind the `=`.", "write one at least."
    return ("The line has not the form of a name, `=` and numbers.",
            "write it so: `n = 8`; line ends in the middle of a number are none.")


def missing(name, header):
    entry = next((it for it in header if it[0] == name), None)
    if not entry:
        return f"No line of the inputs gives `{name}` its number.", f"add `{name} = ..`, with a number for each element."
    zeros = "0" if entry[2] is None else " ".join(["0"] * entry[2]) if entry[2] <= 16 else "0 0 .."
    what = "a scalar, one number" if entry[2] is None else f"an array, {entry[2]} numbers"
    return (f"No line of the inputs is for `{name}`: {what}.",
            f"add `{name} = {zeros}`; `examples/clients/inputs.py` writes a whole file.")


def schedule_line(source, number):
    raw = source.text.split("\n")
    if number == len(raw) and source.text and not source.text.endswith("\n"):
        return "The last line lacks its line feed.", "end it; a schedule is cut at the end of a line."
    line = source.line(number)
    if line.startswith(("#", "%%")) or "=" in line:
        return "This is no firing: a schedule is what stands behind `%%` in what `run --log` prints.", "take the line away."
    return (f"`{line}` is no firing.",
            f"write the unit's number, one space and the act: {ACTS.replace(' ', ', ')}; a number behind from, send, alloc, "
            f"addr, data, "
            "exec and reply; no leading zeros.")


def not_enabled(source, number):
    lines = source.text.split("\n") if source else []
    what = f" (line {number + 1}, `{lines[number]}`)" if number < len(lines) - 1 else ""
    return (f"The firing of number {number}, from 0{what}, may not come there: a token that it takes is not there, or there "
            f"is no room "
            "for the one that it puts.",
            "keep the lines before it: `elastic replay` then prints a firing that may come next. See too that netlist and inputs "
            "are those of the schedule.")


def as_source(data):
    """A text that is no kernel, with its lines."""
    return Source(data)
