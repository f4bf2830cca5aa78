#!/usr/bin/env python3
"""The state of the sources of a crate and of all crates below it: a short text that changes with them.

usage: tools/use/sources.py CRATE [PART..]   (PART is src, specs or proofs; all three where none is named)

It goes by the names that git gives to contents, which it knows of each file that did not change since it was added; other files
are read. So the state is the same before a commit and after it. The lines of crates.txt and the kit are part of it."""
import hashlib
import pathlib
import shutil
import subprocess
import sys

TOP = pathlib.Path(__file__).resolve().parents[2]
PARTS = ("src", "specs", "proofs")


def dependencies():
    """By crate the libraries of its line of crates.txt."""
    lines = (line.partition("#")[0].split(":", 1) for line in (TOP / "crates.txt").read_text().splitlines())
    return {line[0].split()[0]: line[1].split() for line in lines if len(line) == 2}


def below(crates):
    """Some crates and all crates of the repository below them, by name."""
    known, found, left = dependencies(), set(), [*crates]
    while left:
        name = left.pop()
        if name in known and name not in found:
            found.add(name)
            left += known[name]
    return sorted(found)


def contents(path):
    """The name that git gives to the contents of a file."""
    text = path.read_bytes()
    return hashlib.sha1(b"blob %d\0" % len(text) + text).hexdigest()


def listed(places, *words):
    """What `git ls-files` lists of some files and below some folders."""
    told = subprocess.run(["git", "ls-files", "-z", *words, "--", *places], cwd=TOP, capture_output=True, text=True, check=True)
    return [it for it in told.stdout.split("\0") if it]


def files(places):
    """Some files and those below some folders, each with the name of its contents."""
    try:
        known = [it.split("\t", 1) for it in listed(places, "-s")]
        read = {*listed(places, "-m", "-o", "--exclude-standard")}
    except (OSError, subprocess.CalledProcessError):
        known, read = [], {str(it.relative_to(TOP)) for place in places for it in (TOP / place, *(TOP / place).rglob("*"))}
    found = {name: said.split()[1] for said, name in known if name not in read}
    return {**found, **{it: contents(TOP / it) for it in read if (TOP / it).is_file()}}


def kit():
    """What tells the kit from others."""
    at = pathlib.Path(shutil.which("rt") or "").resolve().parent.parent / "KIT-ID"
    return at.read_text() if at.is_file() else ""


def state(crates, parts=PARTS, others=()):
    """The state of these parts of some crates and of those below them, and of other files and folders of the repository."""
    known, crates = dependencies(), below(crates)
    found = files([*(f"crates/{name}/{part}" for name in crates for part in parts), *others])
    lines = [*(f"{name}: {' '.join(known[name])}" for name in crates), *(f"{name} {found[name]}" for name in sorted(found))]
    return hashlib.sha256("\n".join([kit(), *lines]).encode()).hexdigest()[:32]


if __name__ == "__main__":
    if len(sys.argv) < 2 or sys.argv[1] not in dependencies() or {*sys.argv[2:]} - {*PARTS}:
        sys.exit(__doc__)
    print(state(sys.argv[1:2], tuple(sys.argv[2:]) or PARTS))
