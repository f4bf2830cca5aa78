#!/usr/bin/env python3
"""Runs the test cases on programs made without proofs: builds each program that has a file stdout, runs it as continuous integration
does (tools/house/given.py), and compares what it writes with that file: the example of elastic, the test data of the crates given_*.
Two are built at a time. What was built stands in .try, and is built anew when its sources change.

usage: tools/house/try_rows.py [CRATE..]   (all of them, where none is named)

This is no proof: it tries what the test cases try and nothing else. No contract is checked, and no mutant is refused. given_laws has
no test cases: it calls laws, which do nothing. `rt ci` checks all that, and builds each program by two compilers."""
import concurrent.futures
import pathlib
import sys
import time

import given

sys.path.insert(0, str(pathlib.Path(__file__).resolve().parents[1] / "use"))
import program  # noqa: E402  (its folder was just named)
import sources  # noqa: E402
import unproved_program  # noqa: E402

AT_ONCE = 2
# elastic is built as `make try` builds it. given_calls and given_middle make many millions of firings and turns. The others are built
# in less time, and run slower: so they have more time.
LEVELS = {"elastic": "-O3", "given_calls": "-O1", "given_middle": "-O1"}
MOST = 600


def programs():
    """The programs that have something to write."""
    return [name for name in sources.dependencies() if (program.TOP / "crates" / name / "stdout").is_file()]


def tried(name):
    """What differs when the program of a crate is run, in lines, and the seconds that the run took."""
    try:
        made = program.unproved(name, LEVELS.get(name, "-O0"))
    except (unproved_program.Failed, OSError) as failed:
        return [str(failed)], 0
    began = time.monotonic()
    return given.differences(made, program.TOP / "crates" / name, MOST), time.monotonic() - began


def main(names):
    failed = 0
    with concurrent.futures.ThreadPoolExecutor(AT_ONCE) as pool:
        for name, (differ, seconds) in zip(names, pool.map(tried, names)):
            wrote = given.stream(program.TOP / "crates" / name, "stdout").count(b"\n")
            print(f"{name}: {'FAILED' if differ else f'printed the expected {wrote:,} lines in {seconds:.1f} s'}", *differ, sep="\n  ", flush=True)
            failed += bool(differ)
    print("without proofs: `rt ci` makes them")
    print(f"{len(names) - failed} passed, {failed} failed")
    return bool(failed)


if __name__ == "__main__":
    unknown = {*sys.argv[1:]} - {*programs()}
    if unknown:
        sys.exit(f"no program with test cases: {', '.join(sorted(unknown))}")
    program.ended(lambda: main(sys.argv[1:] or programs()))
