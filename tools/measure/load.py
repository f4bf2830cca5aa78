#!/usr/bin/env python3
"""Runs the proved program (make build leaves it) on files at each limit and one byte past it, and on large nets and arrays, and
prints how each call ended, how long it took and the most memory that it held. Fails where one ended otherwise than it must.

usage: tools/measure/load.py [PROGRAM]"""
import pathlib
import resource
import subprocess
import sys
import tempfile
import time

TOP = pathlib.Path(__file__).resolve().parents[2]
PROGRAM = pathlib.Path(sys.argv[1] if len(sys.argv) > 1 else TOP / "crates/elastic/out/elastic").resolve()
KERNEL, INPUTS, NETLIST, SCHEDULE, SNAPSHOT = 65_536, 33_554_432, 67_108_864, 16_777_216, 67_108_864


def wide_net(outputs, each, size):
    """A net of a fork of so many outputs with a fork of so many sinks at each, its text padded to a size by the kernel's name."""
    lines = ["scalar a i32", "result none", "unit entry", "unit param 0", "unit exit", f"unit fork 32 {outputs}"]
    lines += [f"unit fork 32 {each}"] * outputs + ["unit sink 32"] * (outputs * each)
    lines += ["chan 0.0 2.0 32 1 0 control", "chan 1.0 3.0 32 1 0"]
    lines += [f"chan 3.{j} {4 + j}.0 32 1 0" for j in range(outputs)]
    lines += [f"chan {4 + j}.{k} {4 + outputs + j * each + k}.0 32 1 0" for j in range(outputs) for k in range(each)]
    rest = "\n".join(lines) + "\nend\n"
    return f"elastic 2\nkernel {'k' * (size - len(rest) - len('elastic 2') - len('kernel ') - 2)}\n{rest}"


def element_inputs(count, size):
    """A text of inputs for n and an array a, its numbers padded by zeros to a size."""
    front = f"n = {count}\na ="
    left = size - len(front) - 1
    width = left // count - 1
    text = front + "".join(f" {1:0{width}}" for _ in range(count - 1))
    return text + f" {1:0{size - len(text) - 2}}\n"


def full_state(size):
    """A net of a fork into sinks, and a state of it with 1,024 tokens on each channel into a sink, padded to a size by the scalar's name."""
    tokens = " ".join(["18446744073709551615"] * 1024)
    front, back = "elastic state 1\nmade 0\nscalar {} = -1\n", "end\n"
    lines = [f"chan {chan} {tokens}\n" for chan in range(2, size // len(tokens) + 1)]
    while sum(map(len, lines)) > size - len(front) - len(back):
        lines.pop()
    name = "s" * (size - sum(map(len, lines)) - len(front.format("")) - len(back))
    sinks = len(lines)
    net = ["elastic 2", "kernel k", f"scalar {name} i64", "result none", "unit entry", "unit param 0", "unit exit", f"unit fork 64 {sinks}"]
    net += ["unit sink 64"] * sinks + ["chan 0.0 2.0 32 1 0 control", "chan 1.0 3.0 64 1 0"]
    net += [f"chan 3.{j} {4 + j}.0 64 1024 0" for j in range(sinks)]
    return "\n".join(net) + "\nend\n", front.format(name) + "".join(lines) + back


def long_schedule(net, inputs, folder, size):
    """The first whole lines of a run that take no more than a size."""
    (folder / "n").write_text(net)
    (folder / "i").write_text(inputs)
    out = subprocess.run([PROGRAM, "run", "n", "i", "--log", "--limit", "16000000"], cwd=folder, capture_output=True, text=True).stdout
    text = out[out.find("%%\n") + 3:][:size]
    return text[:text.rfind("\n") + 1]


def files():
    each = "void f(int32_t n, uint8_t a[1048576]) { for (int32_t i = 0; i < n; i++) a[i] = a[i] + 1; }"
    net = wide_net(65_536, 14, NETLIST)
    hostile = (TOP / "examples/net/net.txt").read_text().replace("unit fork 32 2", "unit fork 32 4294967295", 1)
    inputs = element_inputs(1_048_576, INPUTS)
    full, state = full_state(SNAPSHOT)
    return {
        "kernel": (each + "//").ljust(KERNEL, "x"),
        "kernel_past": (each + "//").ljust(KERNEL + 1, "x"),
        "inputs": inputs,
        "inputs_past": inputs[:-1] + " \n",
        "net": net,
        "net_past": net.replace("kernel k", "kernel kk", 1),
        "one": "a = 5\n",
        "full": full,
        "state": state,
        "state_past": state.replace("end\n", " end\n"),
        "hostile": hostile,
    }


# The words of a call, the wanted status, and what it is.
CALLS = [
    (["compile", "kernel"], 0, "a kernel of 65,536 bytes"),
    (["compile", "kernel_past"], 12, "one more"),
    (["go", "kernel", "inputs", "--limit", "400000000"], 0, "inputs of 33,554,432 bytes, 2^20 elements, a turn of the loop for each"),
    (["ref", "kernel", "inputs"], 0, "the same as C"),
    (["go", "kernel", "inputs_past"], 12, "one more"),
    (["upgrade", "net"], 0, "a netlist of 67,108,864 bytes: 983,044 units, a fork of 65,536 outputs among them"),
    (["upgrade", "net_past"], 12, "one more"),
    (["run", "net", "one"], 0, "a run of it"),
    (["replay", "loop", "given", "schedule"], 0, "a schedule of at most 16,777,216 bytes"),
    (["replay", "loop", "given", "schedule_past"], 12, "a longer one"),
    (["resume", "full", "state"], 0, "a state of 67,108,864 bytes: some 3,200,000 tokens"),
    (["resume", "full", "state_past"], 12, "one more"),
]


# A net whose fork has more outputs than it may: no memory is taken for them.
HOSTILE = ["upgrade", "hostile"]
SMALL = 64 * 1024 * 1024


def measured(words, folder, most=resource.RLIM_INFINITY):
    """The status of a call, its line, its seconds and its most memory in MB. (Of a child the system counts the memory of who
    started it too, and that is little of /usr/bin/time and much of this script.)"""
    began = time.time()
    limit = lambda: resource.setrlimit(resource.RLIMIT_AS, (most, most))
    timed = ["/usr/bin/time", "-f", "%M", "-o", "memory", PROGRAM, *words]
    ran = subprocess.run(timed, cwd=folder, stdout=subprocess.DEVNULL, stderr=subprocess.PIPE, preexec_fn=limit, check=False)
    memory = int((folder / "memory").read_text().split()[-1])
    return ran.returncode, ran.stderr.decode().strip(), time.time() - began, memory / 1024


def main():
    wrong = 0
    with tempfile.TemporaryDirectory() as name:
        folder = pathlib.Path(name)
        for file, text in files().items():
            (folder / file).write_text(text)
        example = TOP / "examples/countdown"
        loop, given = (example / "net.txt").read_text(), "n = 300000\n"
        schedule = long_schedule(loop, given, folder, SCHEDULE)
        for file, text in {"loop": loop, "given": given, "schedule": schedule, "schedule_past": schedule.ljust(SCHEDULE + 1, "x")}.items():
            (folder / file).write_text(text)
        print("| Call | Status | Seconds | Memory, MB |\n|---|---|---|---|")
        for words, want, what in CALLS:
            status, errors, seconds, memory = measured(words, folder)
            print(f"| `{words[0]}`: {what} | {status} | {seconds:.2f} | {memory:,.0f} |", flush=True)
            if status != want:
                print(f"wanted {want}: {errors}")
                wrong += 1
        status, errors, seconds, memory = measured(HOSTILE, folder, SMALL)
        print(f"| `upgrade`: a fork of 4,294,967,295 outputs, with 64 MB of addresses: {errors} | {status} | {seconds:.2f} | {memory:,.0f} |")
        wrong += status != 5 or " 36 C7 " not in errors
    sys.exit(1 if wrong else 0)


if __name__ == "__main__":
    main()
