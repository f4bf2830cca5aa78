"""Walks through graphs: `count` nodes, numbered from 0, and a list of edges, pairs of nodes."""


def back_edges(count, edges):
    """The numbers of the edges that lead back to a node of the walk that reached them, begun at the nodes without inputs."""
    out, entered = [[] for _ in range(count)], {below for _, below in edges}
    for at, (above, _) in enumerate(edges):
        out[above].append(at)
    back, state = set(), [0] * count
    for start in sorted(range(count), key=lambda node: (node in entered, node)):
        stack = [(start, iter(out[start]))] if not state[start] else []
        state[start] = state[start] or 1
        while stack:
            node, left = stack[-1]
            at = next(left, None)
            if at is None:
                state[node] = 2
                stack.pop()
            elif state[edges[at][1]] == 1:
                back.add(at)
            elif state[edges[at][1]] == 0:
                state[edges[at][1]] = 1
                stack.append((edges[at][1], iter(out[edges[at][1]])))
    return back


def topological(count, edges):
    """The nodes in an order in which each comes after those that lead to it; the edges have no cycle."""
    waits, out = [0] * count, [[] for _ in range(count)]
    for above, below in edges:
        waits[below] += 1
        out[above].append(below)
    order = [node for node in range(count) if not waits[node]]
    for node in order:
        for below in out[node]:
            waits[below] -= 1
            if not waits[below]:
                order.append(below)
    return order, out
