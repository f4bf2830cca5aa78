#!/usr/bin/env python3
"""Runs a program as the gate does: in a copy of the folder data, on the words of the file args and the text of the file stdin, for at
most 120 seconds, with an environment of its own, but as the user who calls it and not as nobody. It is to write what the file
stdout has (nothing where there is no such file), and to end with the status of the file status (0 where there is none). The files
stand together in one folder.

usage: tools/house/given.py PROGRAM FOLDER"""
import itertools
import pathlib
import shutil
import subprocess
import sys
import tempfile

SECONDS = 120


def stream(folder, name):
    """The bytes of one of these files; none where it is not there."""
    path = pathlib.Path(folder, name)
    return path.read_bytes() if path.is_file() else b""


def first_other(wrote, wanted):
    """The first line in which two texts differ."""
    pairs = itertools.zip_longest(*(text.splitlines(keepends=True) for text in (wrote, wanted)), fillvalue=b"")
    at, found = next((at, pair) for at, pair in enumerate(pairs, 1) if pair[0] != pair[1])
    is_, was = (repr(line.decode(errors="replace")[:200]) for line in found)
    return f"line {at} is {is_}, and not {was}"


def differences(program, folder, most=SECONDS):
    """What is not as given, in lines, where the program has so many seconds."""
    with tempfile.TemporaryDirectory() as room:
        data = pathlib.Path(room, "data")
        shutil.copytree(pathlib.Path(folder, "data"), data) if pathlib.Path(folder, "data").is_dir() else data.mkdir()
        words = [str(pathlib.Path(program).resolve()), *stream(folder, "args").decode().splitlines()]
        around = {"PATH": "/usr/local/bin:/usr/bin:/bin", "HOME": str(data), "TMPDIR": str(data), "LANG": "C.UTF-8"}
        try:
            ran = subprocess.run(words, cwd=data, env=around, input=stream(folder, "stdin"), capture_output=True, timeout=most, check=False)
        except subprocess.TimeoutExpired:
            return [f"it had not ended after {most} seconds"]
    wanted, found = int(stream(folder, "status") or 0), []
    if ran.returncode != wanted:
        found.append(f"it ended with status {ran.returncode}, and not {wanted}: {ran.stderr.decode(errors='replace')[-600:].strip()}")
    if ran.stdout != stream(folder, "stdout"):
        found.append(first_other(ran.stdout, stream(folder, "stdout")))
    return found


if __name__ == "__main__":
    if len(sys.argv) != 3:
        sys.exit(__doc__)
    told = differences(*sys.argv[1:])
    print("\n".join(told) or "as given")
    sys.exit(bool(told))
