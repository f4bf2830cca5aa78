#!/usr/bin/env python3
"""Writes the kernels of examples/foreign as tools/use/mend.py mends them, and their inputs, into a folder: NAME.c and NAME.in of each, for
measure_passes.py. It needs pycparser.

usage: tools/oracles/foreign_kernels.py FOLDER"""
import pathlib
import sys

TOOLS = pathlib.Path(__file__).resolve().parent.parent
sys.path += [str(TOOLS / "house"), str(TOOLS / "use")]
import check_mend  # noqa: E402  (of tools/house)
import mend  # noqa: E402  (of tools/use)


def mended(folder):
    """The text of a mended kernel, and the lines of inputs that mending adds."""
    try:
        return mend.mended(str(folder / "kernel.c"), None, check_mend.lengths(folder))
    except mend.Refused:
        return mend.mended(str(folder / "edited.c"), None, check_mend.lengths(folder))


def main(words):
    if len(words) != 1:
        sys.exit(__doc__)
    to = pathlib.Path(words[0])
    to.mkdir(parents=True, exist_ok=True)
    for kernel in sorted(TOOLS.parent.glob("examples/foreign/*/kernel.c")):
        text, _, added = mended(kernel.parent)
        (to / f"{kernel.parent.name}.c").write_text(text)
        (to / f"{kernel.parent.name}.in").write_text(check_mend.joined((kernel.parent / "inputs.txt").read_text(), added))


if __name__ == "__main__":
    main(sys.argv[1:])
