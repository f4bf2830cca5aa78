#!/usr/bin/env python3
"""Lists, by crate, the public functions that no source file of the repository calls.

usage: tools/house/uncalled.py [CRATE..]

A function is a line `pub fn NAME` of a file of `crates/*/src`, with the type of the `impl` that it stands in. It is called
where its name stands behind a dot, a path or alone before a bracket, or in a path that is passed on, in any file's code
beside the line that defines it; a method of that name of another type counts too, so that the list can only be too short."""
import pathlib
import re
import sys

ROOT = pathlib.Path(__file__).resolve().parents[2]
COMMENT = re.compile(r"//[^\n]*")
TEXT = re.compile(r'b?"(?:[^"\\]|\\.)*"')
HEAD = re.compile(r"^(?:pub )?(impl|trait)\b(?:<[^{]*?>)? *(?:[\w:<>', ]+ for )?(\w+)", re.M)
DEFINED = re.compile(r"^( *)pub (?:const )?fn (\w+)", re.M)
GHOST = re.compile(r"^ *(?:ghost [^;]*;|(?:requires|ensures)\*?(?: \w+)? \{(?:[^{}]|\{[^{}]*\})*\};?)", re.M)


def code(text):
    """A file's code: no comments, texts or clauses."""
    return GHOST.sub("", TEXT.sub('""', COMMENT.sub("", text)))


def type_at(text, at):
    """The type of the `impl` around a place, if any."""
    heads = [it for it in HEAD.finditer(text, 0, at)]
    return heads[-1][2] if heads else None


FILES = {it: code(it.read_text()) for it in sorted(ROOT.glob("crates/*/src/**/*.rt"))}
ALL = "\n".join(re.sub(r"\bfn \w+", "fn", it) for it in FILES.values())
ALL = re.sub(r"^(?:pub(?:\([a-z]+\))? )?use [^;]*;", "", ALL, flags=re.M)
WORDS = set(re.findall(r"(?:\.|::|\b)(\w+)(?=\(|::<)", ALL))
PASSED = set(re.findall(r"(?:::)(\w+)\b(?!\()", ALL)) | set(re.findall(r"[(,] *(\w+)(?=[,)])", ALL))
wanted = set(sys.argv[1:])
total = 0
for crate in sorted({it.parts[len(ROOT.parts) + 1] for it in FILES}):
    if wanted and crate not in wanted:
        continue
    found = []
    for file, text in FILES.items():
        if file.parts[len(ROOT.parts) + 1] != crate or (file.parent / "main.rt").exists():
            continue
        for it in DEFINED.finditer(text):
            name = it[2]
            if name not in WORDS and name not in PASSED:
                owner = type_at(text, it.start()) if it[1] else None
                found.append(f"{owner}::{name}" if owner else name)
    if found:
        total += len(found)
        print(f"{crate}: {', '.join(found)}")
print(f"{total} public functions that no source calls")
