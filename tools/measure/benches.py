#!/usr/bin/env python3
"""Makes the program benches, which times parts of the compiler and of runs, and prints where it is.

    tools/measure/benches.py              makes .try/benches before its proofs, where it is not there of the sources as they are
    tools/measure/benches.py check        and compares what it writes on tools/measure/benches/data, digits aside, with tools/measure/benches/stdout
    tools/measure/benches.py lay FOLDER   lays it out in a new folder with the crates below it, to be proved there (crates/benches)
    tools/measure/benches.py take FOLDER  takes its sources back from there
    PROVED=1 tools/measure/benches.py     proves it and all below it by `rt run`, and makes .try/benches_proved

The gate neither proves nor runs it. So its sources stand in tools/measure/benches, where each name has .txt behind it: the gate refuses
other files of Rattle than those of crates/. They are laid out as crates/benches, with the line of tools/measure/benches/crate.txt."""
import os
import pathlib
import shutil
import subprocess
import sys
import tempfile

TOP = pathlib.Path(__file__).resolve().parents[2]
sys.path[:0] = [str(TOP / folder) for folder in ("tools/use", "tools/house")]
import given  # noqa: E402  (their folders were just named)
import program  # noqa: E402
import sources  # noqa: E402
import unproved_program  # noqa: E402

BENCHES = TOP / "tools/measure/benches"
LINE = (BENCHES / "crate.txt").read_text()
BELOW = sources.below(LINE.partition(":")[2].split())


def copy(source, to):
    to.parent.mkdir(parents=True, exist_ok=True)
    shutil.copyfile(source, to)


def lay_out(folder):
    """Lays out benches and the crates below it in a folder, as a repository of their own."""
    known = sources.dependencies()
    (folder / "crates.txt").write_text("".join(f"{name}: {' '.join(known[name])}\n" for name in BELOW) + LINE)
    for name in sources.files(["HANDLES", *(f"crates/{name}/{part}" for name in BELOW for part in sources.PARTS)]):
        copy(TOP / name, folder / name)
    for part in sources.PARTS:
        for name in sources.files([f"tools/measure/benches/{part}"]):
            copy(TOP / name, folder / "crates" / pathlib.Path(name).relative_to("tools/measure").with_suffix(""))


def take(folder):
    """Takes the sources of benches back from a folder in which they were laid out."""
    for part in sources.PARTS:
        shutil.rmtree(BENCHES / part)
        for path in filter(pathlib.Path.is_file, (folder / "crates" / "benches" / part).rglob("*")):
            copy(path, TOP / "tools/measure" / f"{path.relative_to(folder / 'crates')}.txt")


def take_libraries(folder):
    """Takes along the libraries below benches that stand proved in this repository."""
    for name in BELOW:
        proved = TOP / "crates" / name / "out" / "rlib"
        if proved.is_dir():
            shutil.copytree(proved, folder / "crates" / name / "out" / "rlib")


def prove(folder, out):
    """Proves benches, and what below it is not proved, and builds it."""
    take_libraries(folder)
    crate = folder / "crates" / "benches"
    ran = subprocess.run(["rt", "run", "--", "front", BENCHES / "data" / "kernel.c", "1"], cwd=crate, stdout=sys.stderr, check=False)
    if ran.returncode:
        raise unproved_program.Failed(f"`rt run` of benches ended with status {ran.returncode}")
    shutil.copy(crate / "out" / "benches", out)


def benches(is_proved=bool(os.environ.get("PROVED"))):
    """The program, which is made where it is not there of the sources as they are."""
    name, parts = ("benches_proved", sources.PARTS) if is_proved else ("benches", ("src",))

    def make(out):
        with tempfile.TemporaryDirectory() as folder:
            lay_out(pathlib.Path(folder))
            if is_proved:
                prove(pathlib.Path(folder), out)
            else:
                unproved_program.make("benches", out, top=pathlib.Path(folder), tell=program.tell)

    return program.made(name, lambda: sources.state(BELOW, parts, ["tools/measure/benches", program.MAKER]), make)


def main(words):
    if words[:1] == ["lay"]:
        pathlib.Path(words[1]).mkdir()
        lay_out(pathlib.Path(words[1]))
        take_libraries(pathlib.Path(words[1]))
        return 0
    if words[:1] == ["take"]:
        take(pathlib.Path(words[1]))
        return 0
    made = benches()
    if words == ["check"]:
        differ = given.differences(made, BENCHES)
        print("\n".join([f"benches: {'differs' if differ else 'as given'}", *differ]))
        return bool(differ)
    print(made.relative_to(TOP))
    return 0


if __name__ == "__main__":
    if sys.argv[1:] not in ([], ["check"]) and (len(sys.argv) != 3 or sys.argv[1] not in ("lay", "take")):
        sys.exit(__doc__)
    program.ended(lambda: main(sys.argv[1:]))
