#!/usr/bin/env python3
"""Finds the turn in which `80 Undefined` happens, by `elastic ref --turns`.

    tools/use/find_turn.py KERNEL INPUTS [--wrap] [--program PROGRAM]

A turn is a statement that begins, a condition, or one `&&`, `||` or `?:` (docs/GUIDE.md, "What the C itself gives"). The answer is
the least number of turns within which `ref` names the place: the operation comes about in the last of them. The program is
crates/elastic/out/elastic, which `make build` leaves, where no other is named."""
import argparse
import os
import subprocess
import sys

TOP = os.path.join(os.path.dirname(os.path.abspath(__file__)), "..", "..")
MOST = 400_000_000
UNDEFINED, NOT_OVER = 13, 14


def status(program, words, turns):
    """The status of `ref` within so many turns, and its error line."""
    ran = subprocess.run([program, "ref", *words, "--turns", str(turns)], stdout=subprocess.DEVNULL, stderr=subprocess.PIPE,
                         check=False)
    if ran.returncode not in (0, UNDEFINED, NOT_OVER):
        sys.exit(ran.stderr.decode("utf-8", "replace").strip())
    return ran.returncode, ran.stderr.decode("utf-8", "replace").strip()


def first_turn(program, words):
    """The least number of turns at which the run is undefined, and the line that names the place."""
    enough = 1
    while status(program, words, enough)[0] == NOT_OVER:
        if enough == MOST:
            sys.exit(f"nothing is undefined within {MOST:,} turns, and the kernel is not over")
        enough = min(4 * enough, MOST)
    ended, line = status(program, words, enough)
    if ended == 0:
        sys.exit("nothing is undefined on these inputs")
    least = 0
    while least + 1 < enough:
        middle = (least + enough) // 2
        if status(program, words, middle)[0] == UNDEFINED:
            enough = middle
        else:
            least = middle
    return enough, line


def main():
    words = argparse.ArgumentParser(description=__doc__, formatter_class=argparse.RawDescriptionHelpFormatter)
    words.add_argument("kernel", metavar="KERNEL")
    words.add_argument("inputs", metavar="INPUTS")
    words.add_argument("--wrap", action="store_true", help="as `elastic ref --wrap`")
    words.add_argument("--program", default=os.path.join(TOP, "crates", "elastic", "out", "elastic"))
    given = words.parse_args()
    if not os.access(given.program, os.X_OK):
        sys.exit(f"{os.path.relpath(given.program)} is not there: `make build` makes it, or name another by --program")
    asked = [given.kernel, given.inputs] + ["--wrap"] * given.wrap
    turn, line = first_turn(given.program, asked)
    print(line)
    print(f"It happens in turn {turn:,}: with `--turns {turn - 1}` the run stops before it." if turn > 1
          else "It happens in the first turn.")


if __name__ == "__main__":
    main()
