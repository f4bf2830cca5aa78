#!/usr/bin/env python3
"""The program at once: the proved one, where `make build` left it for the sources as they are now, else one made before the proofs.

    tools/use/program.py try                                makes the program before its proofs, where no program is there, and says where
    tools/use/program.py run COMMAND FILE.. [-- OPTION..]   runs it; where it refuses something, the words of tools/use/explain.py follow
    tools/use/program.py build                              proves the program and all below it: crates/elastic/out/elastic
    tools/use/program.py install FOLDER                     copies it, its manual page and its completions to where a shell finds them

What is made before the proofs stands in the folder .try, each program with the state of its sources (tools/use/sources.py), and is
made anew when these change. What is told beside the answers goes to the error output."""
import contextlib
import fcntl
import hashlib
import os
import pathlib
import shutil
import subprocess
import sys
import time

import explain
import sources
import unproved_program

TOP = pathlib.Path(__file__).resolve().parents[2]
TRY = TOP / ".try"
PROVED = TOP / "crates" / "elastic" / "out" / "elastic"
MAKER = "tools/use/unproved_program.py"
COPIED = {"docs/elastic.1": "share/man/man1/elastic.1",
          "tools/use/completion/elastic.bash": "share/bash-completion/completions/elastic",
          "tools/use/completion/_elastic": "share/zsh/site-functions/_elastic"}


def tell(line):
    sys.stderr.write(f"elastic: {line}\n")
    sys.stderr.flush()


def kept(name, program):
    """The file that says of which state of its sources a program was made, and the line that it has for a state."""
    return TRY / f"{name}.state", lambda state: f"{state} {hashlib.sha256(program.read_bytes()).hexdigest()}\n"


def is_there(name, program, state):
    """Whether a program is there and was made of this state of its sources."""
    file, line = kept(name, program)
    return program.is_file() and file.is_file() and file.read_text() == line(state)


def note(name, program, state):
    """Notes of which state of its sources a program was made."""
    TRY.mkdir(exist_ok=True)
    file, line = kept(name, program)
    file.write_text(line(state))


@contextlib.contextmanager
def alone(name):
    """Waits until no other process makes this program."""
    TRY.mkdir(exist_ok=True)
    with open(TRY / f"{name}.lock", "w") as lock:
        try:
            fcntl.flock(lock, fcntl.LOCK_EX | fcntl.LOCK_NB)
        except BlockingIOError:
            tell(f"another process makes {name}; this one waits for it")
            fcntl.flock(lock, fcntl.LOCK_EX)
        yield


def made(name, state_now, make):
    """The program of this name in .try, which is made where it is not there of the sources as they are."""
    # (NOINLINE: functions that are kept apart, to be counted)
    program, apart = TRY / name, os.environ.get("NOINLINE", "")
    if is_there(name, program, state_now() + apart):
        return program
    with alone(name):
        state, began = state_now() + apart, time.monotonic()
        if not is_there(name, program, state):
            make(program)
            if state != state_now() + apart:
                raise unproved_program.Failed(f"the sources of {name} changed while it was made")
            note(name, program, state)
            tell(f"{name} was made in {time.monotonic() - began:.0f} s; it stays until its sources change")
    return program


def state_of(crate, level="-O3"):
    """The state of the sources of a program without its proofs: these ask for no specs and no proofs, but for what makes it."""
    return sources.state([crate], ("src",), [MAKER]) + level


def unproved(crate, level="-O3"):
    """The program of a crate before its proofs."""
    return made(crate, lambda: state_of(crate, level), lambda out: unproved_program.make(crate, out, level=level, tell=tell))


def elastic():
    """The program, and whether it is the proved one."""
    if is_there("proved", PROVED, sources.state(["elastic"])):
        return PROVED, True
    if not is_there("elastic", TRY / "elastic", state_of("elastic")):
        tell("no program is there of these sources. One is made now, before the proofs; it takes 2 to 4 minutes")
    return unproved("elastic"), False


def chosen():
    """The program. Where it is not the proved one, that is told."""
    program, is_proved = elastic()
    if not is_proved:
        tell("this program is not the proved one: it was made before its proofs (`make build` makes them)")
    return program


def run(command, words):
    """Runs a command of the program, and answers its status."""
    at = words.index("--") if "--" in words else len(words)
    files, options = words[:at], words[at + 1:]
    # (behind the word `--` a name may begin with `-`)
    ran = subprocess.run([chosen(), command, *options, "--", *files], stderr=subprocess.PIPE, check=False)
    said = ran.stderr.decode("utf-8", "replace")
    sys.stderr.write(said)
    if ran.returncode < 0:
        tell(f"the program was stopped by signal {-ran.returncode}")
        return 128 - ran.returncode
    line, parts = explain.found_in(said)
    if ran.returncode and line:
        print("", *explain.explained(line, parts, explain.Files(files)), sep="\n", file=sys.stderr)
    return ran.returncode


def build():
    """Proves the program and all below it by `rt run`, and notes of which sources it is."""
    state = sources.state(["elastic"])
    words = ["go", "../../examples/sum/kernel.c", "../../examples/sum/inputs.txt"]
    status = subprocess.run(["rt", "run", "--", *words], cwd=TOP / "crates" / "elastic", check=False).returncode
    if status == 0 and state == sources.state(["elastic"]):
        note("proved", PROVED, state)
        print(f"The proved program is {PROVED.relative_to(TOP)}.")
    return status


def install(folder):
    """Copies the program, its manual page and its completions below a folder."""
    to, program = pathlib.Path(folder).expanduser().absolute(), chosen()
    for source, place in {program: "bin/elastic", **COPIED}.items():
        copied = to / place
        copied.parent.mkdir(parents=True, exist_ok=True)
        shutil.copyfile(TOP / source, f"{copied}.new")
        os.chmod(f"{copied}.new", 0o755 if source == program else 0o644)
        os.replace(f"{copied}.new", copied)
        print(copied)
    if str(to / "bin") not in os.environ.get("PATH", "").split(":"):
        tell(f"{to / 'bin'} is not on the path of this shell")
    return 0


def main(words):
    if words == ["try"]:
        print(elastic()[0].relative_to(TOP))
        return 0
    if words == ["build"]:
        return build()
    if len(words) == 2 and words[0] == "install":
        return install(words[1])
    if len(words) > 1 and words[0] == "run":
        return run(words[1], words[2:])
    return __doc__


def ended(work):
    """Ends the process with what some work answers, or with a line that says why it failed."""
    try:
        sys.exit(work())
    except (unproved_program.Failed, OSError) as failed:
        sys.exit(f"elastic: {failed}")
    except KeyboardInterrupt:
        sys.exit(130)


if __name__ == "__main__":
    ended(lambda: main(sys.argv[1:]))
