#!/usr/bin/env python3
"""Prints a netlist with queues as no kernel has, to time and to weigh them.

usage: tools/oracles/queue_nets.py ports COUNT [DEPTH]    one queue of so many load ports, each in a group of its own
       tools/oracles/queue_nets.py queues COUNT [DEPTH]   so many queues of one load port each
       tools/oracles/queue_nets.py inputs COUNT           inputs of the latter; of the former with COUNT 1

The control token goes from group to group, and every port has its address from the start. The depth is 16 where it is not told."""
import sys

WAYS = 1_000
QUEUE = 3


def forks(ports):
    """How many outputs each fork of addresses has."""
    return [min(WAYS, ports - first) for first in range(0, ports, WAYS)]


def addresses(ports, root, place):
    """The channels from the scalar by forks to the places of ports."""
    yield f"chan 1.0 {root}.0 64 1 0"
    for number, outs in enumerate(forks(ports)):
        yield f"chan {root}.{number} {root + 1 + number}.0 64 1 0"
        for out in range(outs):
            yield f"chan {root + 1 + number}.{out} {place(number * WAYS + out)} 64 1 0"


def net(ports, queues, control, place, value):
    """The lines of a netlist with these queues, of so many ports in all."""
    root = QUEUE + len(queues)
    sink = root + 1 + len(forks(ports))
    yield from ["elastic 2", "kernel queues", "scalar n u64"]
    yield from (f"array a{array} u64 8" for array in range(len(queues)))
    yield from ["result none", "unit entry", "unit param 0", "unit exit"]
    yield from (f"unit lsq {array} {queue}" for array, queue in enumerate(queues))
    yield f"unit fork 64 {len(forks(ports))}"
    yield from (f"unit fork 64 {outs}" for outs in forks(ports))
    yield from ["unit sink 64"] * ports
    way = ["0.0", *control, "2.0"]
    for here, there in zip(way, way[1:]):
        yield f"chan {here} {there} 32 1 {int(here != '0.0')} control"
    yield from addresses(ports, root, place)
    yield from (f"chan {value(port)} {sink + port}.0 64 1 1" for port in range(ports))
    yield "end"


def of_ports(count, depth):
    """One queue of so many ports."""
    queue = f"{depth} {'l' * count} {';'.join(map(str, range(count)))} plain"
    control = [f"{QUEUE}.{group}" for group in range(count + 1)]
    return net(count, [queue], control, lambda port: f"{QUEUE}.{count + 1 + 2 * port}", lambda port: f"{QUEUE}.{count + 1 + port}")


def of_queues(count, depth):
    """So many queues of one port."""
    control = [f"{QUEUE + queue}.{place}" for place in (0, 1) for queue in range(count)]
    return net(count, [f"{depth} l 0 plain"] * count, control, lambda port: f"{QUEUE + port}.2", lambda port: f"{QUEUE + port}.2")


def inputs(count):
    """The scalar, and the arrays."""
    return ["n = 3", *(f"a{array} = 1 2 3 4 5 6 7 8" for array in range(count))]


def main():
    words = sys.argv[1:]
    if len(words) not in (2, 3) or words[0] not in ("ports", "queues", "inputs"):
        sys.exit(__doc__)
    count, depth = int(words[1]), int(words[2]) if len(words) == 3 else 16
    made = {"ports": of_ports, "queues": of_queues, "inputs": lambda count, _: inputs(count)}[words[0]](count, depth)
    print("\n".join(made))


if __name__ == "__main__":
    main()
