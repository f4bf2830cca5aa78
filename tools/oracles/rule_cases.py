#!/usr/bin/env python3
"""Writes crates/given_calls/data/rules.tsv: a kernel for each rule of folding, and kernels whose sides are selected or stay, on edge
values of each type, with results by gcc.

usage: tools/oracles/rule_cases.py [--show]

A kernel of a rule makes of each of 24 numbers the variables a to h, of the eight types, and takes up the values of its expressions in one
number: a value that is wrong changes it, as 31 is odd. --show prints for each kernel what it tries, with the rules that the oracles
take and the blocks before and after the passes, and writes nothing."""
import sys

import by_c
import fold
import optimized_graph
from blocks import Graph

TYPES = {"a": "int8_t", "b": "uint8_t", "c": "int16_t", "d": "uint16_t", "e": "int32_t", "f": "uint32_t", "g": "int64_t", "h": "uint64_t"}
NARROW, WIDE, SIGNED, UNSIGNED = "abcd", "efgh", "aceg", "bdfh"
EVERY = "".join(TYPES)
EDGES = [-2**63, -2**63 + 1, -2**32, -2**31 - 1, -2**31, -2**31 + 1, -32769, -32768, -129, -128, -2, -1, 0, 1, 2, 127, 128, 255, 32767, 65535,
         2**31 - 1, 2**31, 2**32 - 1, 2**63 - 1]
OTHERS = [EDGES[(7 * at + 3) % len(EDGES)] for at in range(len(EDGES))]


def expressions(parts, types=EVERY):
    """Each part with V, a variable of each type, and W, another one of the type."""
    return [part.replace("V", letter).replace("W", f"{letter}w") for letter in types for part in parts]


def kernel(parts):
    """A kernel that takes up the values of expressions."""
    used = [letter for letter in TYPES if any(letter in words(part) or f"{letter}w" in words(part) for part in parts)]
    declared = " ".join(f"{TYPES[letter]} {letter} = x[i], {letter}w = z[i];" for letter in used)
    taken = " ".join(f"t = t * 31 + ({part});" for part in parts)
    return f"void k(int64_t x[24], int64_t z[24], uint64_t y[24]) {{ for (int32_t i = 0; i < 24; i++) {{ uint64_t t = 0; {declared} {taken} y[i] = t; }} }}"


def words(part):
    return "".join(letter if letter.isalnum() else " " for letter in part).split()


# The rules of one operation, and the expressions that try each.
RULES = {
    "operations on constants": [
        "3 + 4", "5 - 9", "-7 / 2", "-7 % 2", "7 / -2", "7 % -2", "1u << 31", "-1 >> 31", "-5 >> 1", "0xFFFFFFFFu + 1u", "(int8_t)200", "(uint8_t)-1",
        "(int16_t)40000", "(uint16_t)-2", "(int64_t)-1", "(uint64_t)0xFFFFFFFFu", "(int64_t)0xFFFFFFFFu", "~0", "~0u", "!5", "!0", "-2147483647 - 1",
        "(-2147483647 - 1) / 2", "(-2147483647 - 1) % 3", "0x8000000000000000u / 3u", "0x8000000000000000u % 7", "-1 < 1u", "-1 < 1", "3 <= 3",
        "3u > 4u", "1 == 1", "1 != 1", "1 ? 5 : 6", "0 ? 5 : 6", "65535 * 65535", "0xFFFF * 0x10001u", "6 & 3", "6 | 3", "6 ^ 3", "-8 >> 2", "2 && 0", "2 || 0"],
    "x + 0, x - 0, x | 0, x ^ 0": expressions(["V + 0", "0 + V", "V - 0", "V | 0", "0 ^ V"]),
    "x * 1, x / 1": expressions(["V * 1", "1 * V", "V / 1"]),
    "x * 0, x & 0, x % 1": expressions(["V * 0", "0 & V", "V % 1"]),
    "x & ~0, x | ~0, x ^ ~0": expressions(["V & ~0", "V | -1", "~0 ^ V", "V & 0xFFFFFFFFu", "V ^ 0xFFFFFFFFu"]),
    "neighbours of ~0": expressions(["V & -2", "V | 0x7FFFFFFF", "V ^ 0xFFFFFFFE", "V & 255", "V & 65535"]),
    "x - x, x ^ x, x & x, x | x": expressions(["V - V", "V ^ V", "V & V", "V | V"]),
    "x == x and the like": expressions(["V == V", "V != V", "V < V", "V <= V", "V > V", "V >= V"]),
    "0 - x": expressions(["0 - V", "-V", "- -V", "0 - (0 - V)"]),
    "a shift by 0 and by places": expressions(["V << 0", "V >> 0", "V << 1", "V >> 1", "V >> 31"]) + expressions(["V >> 63", "V << 63", "V >> 32"], "gh"),
    "x == 0": expressions(["V == 0", "0 == V", "V != 0", "!V", "!!V", "!(V == 0)", "!(V != 0)"]),
    "a test of a test": expressions(["(V == 0) == 0", "(V < W) == 1", "(V < W) != 1", "(V == W) != 0", "(V < W) & 1", "!!(V < W)", "(V < W) == 2"]),
    "the opposite of a comparison": expressions(["!(V < W)", "!(V <= W)", "!(V > W)", "!(V >= W)", "!(V == W)", "!(V != W)"]),
    "operands in order": expressions(["(W + V) - (V + W)", "W * V ^ V * W", "(W & V) == (V & W)", "(W == V) + (V != W)", "W - V", "3 + V", "3 - V"], WIDE),
    "an equal step": expressions(["(V + W) * (V + W)", "(V ^ 5) - (V ^ 5)", "(V < W) + (V < W)", "(V ? W : 3) ^ (V ? W : 3)"], WIDE),
    "x * 2^k and neighbours": expressions(["V * 2", "V * 3", "4 * V", "V * 7", "V * 8", "V * 1073741824", "V * 1073741823"])
    + expressions(["V * 2147483648u", "V * 2147483649u", "V * 0x100000000", "V * 0x4000000000000000", "V * 0x8000000000000000u"], "fgh"),
    "unsigned quotients by 2^k and neighbours": expressions([f"V / {d}u" for d in (2, 3, 4, 8, 128, 2**30, 2**31 - 1, 2**31, 2**31 + 1)], "bdfh")
    + expressions([f"V / 0x{d:X}u" for d in (2**32, 2**32 - 1, 2**63, 2**64 - 1)], "fh"),
    "unsigned remainders by 2^k and neighbours": expressions([f"V % {d}u" for d in (2, 3, 4, 8, 128, 2**30, 2**31 - 1, 2**31, 2**31 + 1)], "bdfh")
    + expressions([f"V % 0x{d:X}u" for d in (2**32, 2**32 - 1, 2**63, 2**64 - 1)], "fh"),
    "signed quotients by 2^k and neighbours": expressions([f"V / {d}" for d in (2, 3, 4, 7, 8, 128, 2**30 - 1, 2**30, 2**31 - 1)], SIGNED),
    "signed remainders by 2^k and neighbours": expressions([f"V % {d}" for d in (2, 3, 4, 7, 8, 128, 2**30 - 1, 2**30, 2**31 - 1)], SIGNED),
    "t ? 1 : 0 and c ? 0 : 1": expressions(["V ? 1 : 0", "V ? 0 : 1", "(V < W) ? 1 : 0", "(V < W) ? 0 : 1", "(V == W) ? 1u : 0u", "V ? 2 : 0"]),
    "a select by a test of its condition": expressions(["!V ? V : W", "!!V ? V : W", "(V != 0) ? V : W", "(V == 0) ? V : W", "!(V < W) ? V : W", "!(V == W) ? W : 7"]),
    "a select on a constant, and of equal sides": expressions(["1 ? V : W", "0 ? V : W", "(2 > 3) ? V : W", "V ? W : W", "(V - V) ? V : W"]),
    "&& and ||": expressions(["V && W", "V || W", "V && 1", "V || 0", "V && 0", "V || 1", "!(V && W)", "!(V || !W)"], "aefgh"),
    "casts of constants and of tests": expressions(["(int8_t)(V < W)", "(uint64_t)(V == W)", "(int64_t)-128 + V", "(uint16_t)70000 + V", "(V != W) + (int64_t)(V != W)"]),
}

# Kernels with accesses, jumps and choices, with their inputs.
KERNELS = [
    ("an address that is computed twice", """void k(int32_t n, int32_t a[16], int32_t b[16]) {
        for (int32_t i = 0; i < n; i++) { a[i * 3 + 1] += b[i * 3 + 1] * b[i * 3 + 1]; b[i * 3 + 1] = a[i * 3 + 1] - b[1 + 3 * i]; } }""",
     dict(n=5, a=range(16), b=range(5, 21))),
    ("addresses in two dimensions", """void k(int32_t m[4][4], int32_t t[4][4]) {
        for (int32_t i = 0; i < 4; i++) for (int32_t j = 0; j < 4; j++) { t[j][i] = m[i][j]; t[j][i] += m[i][j] * m[i][j]; m[i][j] -= t[j][i]; } }""",
     dict(m=range(-8, 8), t=range(16))),
    ("a load after a load", "int32_t k(int64_t n, int32_t a[8]) { int32_t s = a[n]; s = s * 10 + a[n]; s = s * 10 + a[n + 1]; s = s * 10 + a[1 + n]; return s + a[n]; }",
     dict(n=3, a=[9, 8, 7, 6, 5, 4, 3, 2])),
    ("a load after a store", "int32_t k(int64_t n, int32_t v, int32_t a[8]) { a[n] = v; int32_t s = a[n]; a[n] = s + 1; return s * 100 + a[n]; }",
     dict(n=7, v=-2**31, a=range(8))),
    ("a narrow element that is stored and loaded", "int32_t k(int32_t v, int8_t a[4], uint16_t b[4]) { a[1] = v; b[2] = v; a[2] = a[1] + a[1]; b[0] = b[2] * b[2]; return a[1] + b[2]; }",
     dict(v=-32897, a=[1, 2, 3, 4], b=[5, 6, 7, 8])),
    ("loads round a store to surely another address", "int32_t k(int64_t n, int32_t a[8]) { int32_t s = a[n]; a[n + 1] = 50; s += a[n]; a[n + 2] = 60; a[3] = 9; return s * 10 + a[n] + a[n + 1] + a[3]; }",
     dict(n=2, a=[1, 2, 3, 4, 5, 6, 7, 8])),
    ("stores that may be to one address", "int32_t k(int64_t n, int64_t m, int32_t a[8]) { a[n] = 10; a[m] = 20; int32_t s = a[n]; a[m] = 30; return s * 100 + a[n]; }",
     dict(n=4, m=4, a=range(8))),
    ("the same, to two addresses", "int32_t k(int64_t n, int64_t m, int32_t a[8]) { a[n] = 10; a[m] = 20; int32_t s = a[n]; a[m] = 30; return s * 100 + a[n]; }",
     dict(n=4, m=5, a=range(8))),
    ("an overwritten store", "void k(int64_t n, int32_t v, int32_t a[8]) { a[n] = v; a[n] = v * v; a[n + 1] = 3; a[n] = 7; a[n + 1] = 4; }", dict(n=6, v=9, a=range(8))),
    ("an overwritten store with a load between", "int32_t k(int64_t n, int64_t m, int32_t a[8]) { a[n] = 5; int32_t s = a[m]; a[n] = 6; return s + a[m]; }",
     dict(n=2, m=2, a=range(8))),
    ("an overwritten store with another store between", "void k(int64_t n, int64_t m, int32_t a[8]) { a[n] = 5; a[m] = 6; a[n] = 7; a[m + 1] = a[n]; }", dict(n=2, m=2, a=range(8))),
    ("a store of what was loaded, and a swap", """void k(int32_t n, int32_t a[8]) { for (int32_t i = 0; i < n; i++) {
        int32_t x = a[i], y = a[7 - i]; a[i] = x; a[i] = y; a[7 - i] = x; } }""", dict(n=5, a=[3, 1, 4, 1, 5, 9, 2, 6])),
    ("the table of a loop's array", "void k(int32_t h[4], int32_t x[12]) { for (int32_t i = 0; i < 12; i++) { h[x[i]]++; h[x[i]] += x[i]; h[x[i] ^ 1]--; } }",
     dict(h=[0, 10, 20, 30], x=[0, 1, 2, 3, 3, 2, 1, 0, 1, 1, 2, 2])),
    ("jumps on constants", """int32_t k(int32_t n) { int32_t s = 1; if (0) s = 9; if (1) s += 2; else s = 8; while (0) s = 7; do s *= 3; while (0); for (; 0;) s = 6;
        if (2 > 1) s += n; if (n - n) s = 5; if (n == n) s *= 10; while (1) { s++; break; } return s; }""", dict(n=-2**31)),
    ("a queue of an array that nothing stores to", "int32_t k(int32_t n, int32_t a[2]) { if (0) a[0] = n; return a[n]; }", dict(n=1, a=[3, 4])),
    ("a jump to one side", "int32_t k(int32_t n) { int32_t s = n; if (n) ; else ; if (n > 3) { } if (n < 3) s = 5; else s = 5; return s; }", dict(n=7)),
    ("jumps by tests of tests", """int32_t k(int8_t a, uint16_t b, int32_t c, uint64_t d) { int32_t s = 0;
        if (!a) s += 1; if (!!b) s += 2; if (c != 0) s += 4; if (d == 0) s += 8; if (!(c < 3)) s += 16; if ((d != 0) == 0) s += 32; if (!(a && b)) s += 64;
        if (d) s += 128; while (!(s >= 1000)) s += s; return s; }""", dict(a=0, b=65535, c=-1, d=2**63)),
    ("the same, the other ways", """int32_t k(int8_t a, uint16_t b, int32_t c, uint64_t d) { int32_t s = 0;
        if (!a) s += 1; if (!!b) s += 2; if (c != 0) s += 4; if (d == 0) s += 8; if (!(c < 3)) s += 16; if ((d != 0) == 0) s += 32; if (!(a && b)) s += 64;
        if (d) s += 128; while (!(s >= 1000)) s += s; return s; }""", dict(a=-128, b=0, c=3, d=0)),
    ("divisions by 0 and -1 that no run makes", "int32_t k(int32_t n, int32_t m) { int32_t s = 3; if (m) s = n / -1; if (!m) s += n / (m - m); return s + n % -1; }", dict(n=12, m=1)),
    # ---- choices
    ("a least and a greatest", """void k(int32_t x[8], int32_t r[2]) { int32_t m = x[0], n = x[0];
        for (int32_t i = 1; i < 8; i++) { int32_t v = x[i]; if (v < m) m = v; if (v > n) n = v; } r[0] = m; r[1] = n; }""",
     dict(x=[5, -2**31, 3, 2**31 - 1, 0, -1, 7, 7])),
    ("a choice with one arm", "void k(int32_t x[6], int32_t y[6]) { for (int32_t i = 0; i < 6; i++) { int32_t v = x[i]; if (v < 0) v = -v; y[i] = v; } }",
     dict(x=[-2**31, -5, 0, 5, 2**31 - 1, -1])),
    ("a choice whose other side is the arm", "void k(int32_t x[6], int32_t y[6]) { for (int32_t i = 0; i < 6; i++) { int32_t v = x[i]; if (v >= 0) ; else v = v * 2 + 1; y[i] = v; } }",
     dict(x=[-2**31, -5, 0, 5, 2**31 - 1, -1])),
    ("a choice with two arms", "void k(uint8_t x[6], int32_t y[6]) { for (int32_t i = 0; i < 6; i++) { int32_t v = x[i], w; if (v & 1) { v = v * 3 + 1; w = 1; } else { v = v >> 1; w = 2; } y[i] = v * 10 + w; } }",
     dict(x=[0, 1, 2, 127, 254, 255])),
    ("a swap", "void k(int32_t x[8]) { for (int32_t i = 0; i < 7; i++) { int32_t a = x[i], b = x[i + 1]; if (a > b) { int32_t t = a; a = b; b = t; } x[i] = a; x[i + 1] = b; } }",
     dict(x=[8, -3, 7, 7, 2**31 - 1, -2**31, 0, 1])),
    ("one pair of values twice, and a pair of equal ones", "int32_t k(int32_t n, int32_t a, int32_t b) { int32_t x, y, z; if (n) { x = a; y = a; z = b; } else { x = b; y = b; z = b; } return x * 100 + y * 10 + z; }",
     dict(n=0, a=3, b=4)),
    ("choices in choices", """int32_t k(int32_t x[8]) { int32_t s = 0; for (int32_t i = 0; i < 8; i++) { int32_t v = x[i];
        if (v < 0) { if (v < -10) s += 1; else s += 2; } else if (v == 0) s += 4; else if (v < 10) s += 8; else s += 16; s *= 3; } return s; }""",
     dict(x=[-11, -10, -1, 0, 1, 9, 10, 11])),
    ("a condition of 64 bits, and one of 8", "int32_t k(int64_t n, int8_t m) { int32_t s = 3; if (n) s = 5; if (m) s += 7; if (!n) s *= 2; return s; }", dict(n=2**32, m=-128)),
    ("arms in a loop's last block", "int32_t k(int32_t n) { int32_t s = 0; do { if (n & 1) s += n; else s -= 1; n--; } while (n > 0); return s; }", dict(n=9)),
    ("a choice by which the loop goes on", "int32_t k(int32_t n) { int32_t s = 0; while (1) { s++; if (n == 1) break; if (n & 1) n = 3 * n + 1; else n = n / 2; } return s; }", dict(n=27)),
    ("arms with accesses", "int32_t k(int32_t n, int32_t a[8], int32_t b[8]) { int32_t s = 0; for (int32_t i = 0; i < n; i++) { if (a[i] > 2) s += b[i]; if (a[i] < 0) b[i] = s; else s++; } return s; }",
     dict(n=8, a=[3, -1, 2, 5, -7, 0, 9, 1], b=range(10, 18))),
    ("an arm with a division", "int32_t k(int32_t n, int32_t m) { int32_t s = n; if (m) s = n / m; return s; }", dict(n=100, m=0)),
    ("arms that return", "int32_t k(int32_t n) { if (n < 0) return -1; if (n > 100) return 101; return n; }", dict(n=50)),
]


def costly(steps, products):
    """A kernel with an arm of so many sums and so many products, each of values that no other one has."""
    sums = " ".join(f"v ^= v << 1 | w;" for _ in range(steps // 3)) + " ".join(" v += w;" for _ in range(steps % 3))
    return f"""void k(int32_t x[4], int32_t y[4]) {{ for (int32_t i = 0; i < 4; i++) {{ int32_t v = x[i], w = y[i];
        if (v < w) {{ {sums} {' '.join('v *= w;' for _ in range(products))} }} y[i] = v; }} }}"""


COSTS = [(f"an arm of cost {steps + 4 * products}, {products} products", costly(steps, products), dict(x=[1, -5, 2**31 - 1, 7], y=[4, -6, -2**31, 9]))
         for steps, products in ((11, 0), (12, 0), (13, 0), (0, 3), (1, 3), (8, 1), (9, 1))]


def cases():
    """What each row tries, its kernel and its inputs."""
    for name, parts in RULES.items():
        yield name, kernel(parts), dict(x=EDGES, z=OTHERS)
    yield from KERNELS
    yield from COSTS


def show():
    for name, text, _ in cases():
        graph = Graph.of_kernel(text)
        fold.TAKEN.clear()
        made = optimized_graph.optimized(graph, optimized_graph.SELECTING, True)
        taken = ", ".join(f"{rule} {count}" for rule, count in fold.TAKEN.most_common() if count)
        print(f"{name}: {graph.nodes} nodes, blocks {len(graph.blocks)} to {len(made.blocks)}, size {graph.size()} to {made.size()}; {taken}")


def main(words):
    if words == ["--show"]:
        show()
    elif words:
        sys.exit(__doc__)
    else:
        by_c.write("rules.tsv", (by_c.row(text, **given) for _, text, given in cases()))


if __name__ == "__main__":
    main(sys.argv[1:])
