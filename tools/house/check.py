#!/usr/bin/env python3
"""Checks one crate, or some of its functions alone, while the crates below it are taken as they stand in their sources and not proved
first, as `rt check` does. What passed is kept in a folder beside the repository's clone, so a second call takes less. It prints what
`rattle check` prints: after `fn` the names that --only takes.

usage: tools/house/check.py CRATE [NAME..]   (each NAME a function's, or the end of it: `Worker::sweep`)

It passes nothing to the gate: `rt ci CRATE` does."""
import pathlib
import subprocess
import sys

TOP = pathlib.Path(__file__).resolve().parents[2]
KIT = pathlib.Path("/opt/rattle")


def dependencies():
    """What each crate of crates.txt uses, by its name."""
    rows = [line for line in (TOP / "crates.txt").read_text().splitlines() if ":" in line and not line.startswith("#")]
    return {head.split()[0]: uses.split() for head, uses in (row.split(":", 1) for row in rows)}


def below(crate, uses, found):
    """The repository's crates below a crate, each after those that it uses."""
    for used in uses[crate]:
        if used in uses and used not in found:
            below(used, uses, found)
            found.append(used)
    return found


def words(crate, names):
    """The call of the checker."""
    uses = dependencies()
    if crate not in uses:
        sys.exit(f"{crate} is not in crates.txt")
    ours = below(crate, uses, [])
    kit = sorted({used for each in [*ours, crate] for used in uses[each] if used not in uses})
    kept = TOP.parent / f".checked-{TOP.name}" / crate
    kept.mkdir(parents=True, exist_ok=True)
    call = [KIT / "bin/rattle", "check", "--crate-name", crate, "src/lib.rt"]
    for library in ["std", *kit]:
        call += ["--extern", f"{library}={KIT}/rlibs/{library}.rlib"]
    call += ["-L", f"dependency={KIT}/rlibs"]
    for each in ours:
        call += ["--lib", f"{each}:{','.join(['std', *uses[each]])}={TOP}/crates/{each}/src/lib.rt"]
    for name in names:
        call += ["--only", name]
    logic = ["--antt-project", KIT / "rattle/logic/antt-project.json", "--logic-built", KIT / "logic_built"]
    return [str(word) for word in [*call, *logic, "--links", f"{crate}=", "--jobs", "1", "--incremental", kept]]


if __name__ == "__main__":
    if len(sys.argv) < 2 or sys.argv[1].startswith("-"):
        sys.exit(__doc__)
    sys.exit(subprocess.run(words(sys.argv[1], sys.argv[2:]), cwd=TOP / "crates" / sys.argv[1], check=False).returncode)
