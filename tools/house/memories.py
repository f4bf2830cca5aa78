#!/usr/bin/env python3
"""Lists each place in crates/*/src that returns "out of memory" where no allocation has failed, and compares the list with the
one under the heading of docs/TESTED.md that says so. Fails where they differ.

usage: tools/house/memories.py   (at the top of the repository; `make documents`)

A place returns out of memory where a line has the value `Memory`, `KIND::Memory` or `AllocError`. An allocation has failed there if the line
passes on another one (an arm whose pattern names it, or an implementation of `From`), or stands in the branch of a
call that allocates: the arm of an error of a `match`, or an `if` by `is_err`, whose head calls one of the words below."""
import glob
import re
import sys

HEADING = "Out of memory without a failed allocation"
ALLOCATING = re.compile(r"\.(push\w*|extend\w*|reserve\w*|add|copy|insert|try_\w+)\(|\bcopy\(")
FAILED = re.compile(r"\bErr\(|\.is_err\(\) \{$")
VALUE = re.compile(r"(?<![<\w.])(\w+::)*(Memory|AllocError)\b(?![>\w:])")
PATTERN = re.compile(r"\b(Memory|AllocError|OutOfMemory)\b[^=]*=>")
TYPE = re.compile(r"(?:pub(?:\(crate\))? )?(?:enum|struct) \w+.*(\{|;)$")
FUNCTION = re.compile(r"^\s*(?:pub(?:\(crate\))? )?(?:const )?fn (\w+)")
NO_CODE = re.compile(r"\s*(pub use|use|ghost|requires|ensures|impl|//)\b|\s*//")


def heads(lines, number):
    """The line and the lines that open the blocks around it, up to the first `if` or `match`."""
    indent = len(lines[number]) - len(lines[number].lstrip())
    yield lines[number]
    for line in reversed(lines[:number]):
        outer = len(line) - len(line.lstrip())
        if line.strip() and outer < indent:
            yield line
            if re.search(r"\b(if|match)\b", line):
                return
            indent = outer


def has_failed(lines, number):
    """Whether the line stands where an allocation has failed, or another want of memory is handed on."""
    around = list(heads(lines, number))
    if any(PATTERN.search(line) for line in around):
        return True
    return bool(ALLOCATING.search(around[-1])) and any(FAILED.search(line) for line in around)


def places(path):
    """The functions of a file with such a place."""
    with open(path) as file:
        lines = file.read().splitlines()
    function, is_handing_on, is_type = None, False, False
    for number, line in enumerate(lines):
        if named := FUNCTION.match(line):
            function = named.group(1)
            is_handing_on = bool(re.search(r"fn from\(_?\w*: (Memory|Alloc)", line))
            continue
        declared = TYPE.match(line)
        is_type = is_type and line != "}" or bool(declared and declared.group(1) == "{")
        if function is None or is_handing_on or is_type or declared or NO_CODE.match(line):
            continue
        code = line.split("//")[0].rstrip()
        value = code.rpartition("=>")[2] if "=>" in code else code
        if VALUE.search(value) and "->" not in code and not has_failed(lines, number):
            yield function


def is_library(path):
    return not re.match(r"crates/given_", path)


found = sorted({f"{path[len('crates/'):]}: {function}" for path in filter(is_library, glob.glob("crates/*/src/*.rt")) for function in places(path)})
with open("docs/TESTED.md") as file:
    section = file.read().partition(f"## {HEADING}\n")[2].partition("\n## ")[0]
listed = sorted(f"{path}: {function}" for path, function in re.findall(r"^- `([\w/.]+)`, `(\w+)`", section, re.MULTILINE))
print("\n".join(found))
if found != listed:
    sys.exit(f"docs/TESTED.md lists others: {', '.join(listed) or 'none'}")
