#!/usr/bin/env python3
"""Tells where the time of a crate's proof went: by kind of what the prover makes, by function or file of lemmas, and by module.

usage: tools/house/proof_times.py CRATE [COUNT]   (COUNT lines of each table, 20 by default)

Before it, in the crate's folder: `rm -rf out/incremental && rt check --jobs 1`. The check writes each module as it is done, so
that the time between two files is that of the later one: true of one check from nothing in one process, and nothing else at
work. A pause of more than two minutes is taken to lie between two checks, and is left out.

The kinds that cost most: `Lts`, the steps of a function's body, which grow with its calls and its ways out (each `?` is some),
and more where values are alive that must be dropped; `decls`, the function's own proof (`Proof.decls`) and files of lemmas and
definitions; `specs`, the contracts."""
import collections
import pathlib
import re
import sys

ROOT = pathlib.Path(__file__).resolve().parents[2]
PAUSE = 120


def modules(crate):
    """Each module with the seconds that it took, in the order in which they were made."""
    folder = ROOT / "crates" / crate / "out" / "incremental"
    made = sorted((file.stat().st_mtime_ns / 1e9, file.stem) for file in folder.rglob("*.oantt"))
    for (before, _), (after, name) in zip(made, made[1:]):
        if after - before < PAUSE:
            yield re.sub(r"^Rattle-\w+?-", "", name.removeprefix(f"Rattle-{crate}-")), after - before


def owner(module):
    """The function, or the file of lemmas or definitions, that a module is of."""
    side, *path = module.split(".")
    while len(path) > 1 and (path[-1] == "decls" or path[-1][0].isupper() and path[-2][0].islower()):
        path.pop()
    return ".".join(path) if side == "proofs" else ".".join([side, *path])


def kind(module):
    """What a module is: the last part of its name; of definitions and contracts `specs`."""
    return module.rpartition(".")[2] if module.startswith("proofs") else "specs"


def table(title, seconds, count):
    whole = sum(seconds.values())
    print(f"{title}:")
    for name, spent in seconds.most_common(count):
        print(f"{spent:9.1f} s {spent / whole:6.1%}  {name}")


def main(crate, count=20):
    found = list(modules(crate))
    if not found:
        sys.exit(f"no module of {crate}: run `rt check --jobs 1` in crates/{crate} first")
    print(f"{crate}: {len(found)} modules, {sum(spent for _, spent in found):.1f} s")
    for title, key in (("by kind", kind), ("by function or file", owner), ("by module", str)):
        seconds = collections.Counter()
        for name, spent in found:
            seconds[key(name)] += spent
        table(title, seconds, int(count))


if __name__ == "__main__":
    if not 2 <= len(sys.argv) <= 3:
        sys.exit(__doc__.split("\n\n")[1])
    main(*sys.argv[1:])
