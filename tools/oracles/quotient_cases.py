#!/usr/bin/env python3
"""Writes crates/given_calls/data/quotients.tsv: quotients and remainders by constants, with results by gcc.

usage: tools/oracles/quotient_cases.py

A kernel has some fifty divisors. It takes up the quotients and the remainders of each dividend by all of them in one number: one that is
wrong changes it, as 31 is odd. `common` kernels have the same dividends for all their divisors; `own` ones have for each divisor those that
lie next to its greatest multiples in the type, where a factor that is too small fails first."""
import sys

import by_c
from by_c import C_TYPES
from blocks import BITS

MOST_DIVISORS = {"common": 70, "own": 48}
SMALL = list(range(1, 301))
# Powers of two with their neighbours, and divisors of which the factor has 33 places or is the least of its places.
AROUND = sorted({2**k + by for k in range(9, 32) for by in (-1, 0, 1)} | {641, 1000, 1001, 10**4, 10**6, 10**9, 6700417, 2**31 - 19, 2**30 + 2**29})
ABOVE = [2**31 + 2**30, 2**32 - 2, 2**32 - 1, 3 * 10**9]
POWERS_64 = sorted({2**k + by for k in (1, 2, 3, 7, 8, 16, 31, 32, 33, 47, 62) for by in (-1, 0, 1)} - {0})


def least(ty):
    return -(1 << (BITS[ty] - 1)) if ty[0] == "i" else 0


def greatest(ty):
    return (1 << (BITS[ty] - (ty[0] == "i"))) - 1


def edges(ty):
    """Dividends: the ends of the type and of narrower ones, and some between."""
    wide = [v for k in (7, 8, 15, 16, 31, 32, 63, 64) for v in (2**k - 1, 2**k, 2**k + 1)]
    numbers = {0, 1, 2, 3, 99, 100, 299, 300, 12345, 0x12345678, 987654321, 0xDEADBEEF, 0x123456789ABCDEF, *wide}
    both = numbers | {-v for v in numbers}
    return sorted(v for v in both | {least(ty) + 1, greatest(ty) - 1} if least(ty) <= v <= greatest(ty))


def own(ty, divisors):
    """Lists of dividends, one for each divisor: the greatest multiple and what lies before it, and the same of the least one of a signed
    type; of an unsigned type, of the greatest multiple in its lower half."""
    def of(d):
        top = greatest(ty) // d * d
        low = -(-least(ty) // d) * -d if ty[0] == "i" else greatest(ty) // 2 // d * d
        return top, max(top - 1, 0), low, low + 1 if ty[0] == "i" else max(low - 1, 0)

    return [[of(abs(d))[at] for d in divisors] for at in range(4)]


def number(d, ty):
    """A divisor as C text; an unsigned one has a suffix, so that the division is one of its type."""
    return f"{d}u" if ty[0] == "u" and BITS[ty] >= 32 else str(d)


def common_kernel(ty, divisors, values):
    taken = " ".join(f"h = (h + v / {number(d, ty)}) * 31 + v % {number(d, ty)};" for d in divisors)
    text = f"void q({C_TYPES[ty]} x[{len(values)}], uint64_t y[{len(values)}]) {{ for (int i = 0; i < {len(values)}; i++) {{ {C_TYPES[ty]} v = x[i]; uint64_t h = 0; {taken} y[i] = h; }} }}"
    return by_c.row(text, x=values)


def own_kernel(ty, divisors):
    values = own(ty, divisors)
    taken = " ".join(f"v = x[i][{at}]; h = (h + v / {number(d, ty)}) * 31 + v % {number(d, ty)};" for at, d in enumerate(divisors))
    text = f"void q({C_TYPES[ty]} x[4][{len(divisors)}], uint64_t y[4]) {{ for (int i = 0; i < 4; i++) {{ {C_TYPES[ty]} v; uint64_t h = 0; {taken} y[i] = h; }} }}"
    return by_c.row(text, x=[v for row in values for v in row])


def parts(divisors, form):
    most = MOST_DIVISORS[form]
    return [divisors[at:at + most] for at in range(0, len(divisors), most)]


def of_type(ty, divisors):
    for some in parts(divisors, "common"):
        yield common_kernel(ty, some, edges(ty))
    for some in parts(divisors, "own"):
        yield own_kernel(ty, some)


# What has a known greatest value, and so a shorter product or an unsigned one: kernels with their inputs.
BOUNDED = [
    ("uint32_t", "v & 65535"), ("int32_t", "v & 1023"), ("int32_t", "v & 2147483647"), ("uint32_t", "v >> 7"), ("uint64_t", "v & 4294967295u"), ("uint64_t", "v >> 33"),
    ("int64_t", "v & 4294967295"), ("uint64_t", "v % 1000"), ("int32_t", "v < 0 ? 7 : 65535"), ("uint8_t", "v * 250"), ("uint16_t", "v + 40000"), ("uint32_t", "v | 1"),
    ("uint32_t", "(v & 255) * 16843009u"), ("int32_t", "v == 3"), ("uint32_t", "(v & 15) << 28"), ("uint32_t", "(v & 7) ^ 5")]
BOUNDED_DIVISORS = (1, 2, 3, 5, 6, 7, 8, 9, 10, 11, 60, 100, 127, 128, 255, 641, 1000, 65535, 65536, 65537)


def bounded():
    for ty, value in BOUNDED:
        name = ty.removesuffix("_t").replace("uint", "u").replace("int", "i")
        values = edges(name)
        taken = " ".join(f"h = (h + ({value}) / {d}) * 31 + ({value}) % {d};" for d in BOUNDED_DIVISORS)
        yield by_c.row(f"void q({ty} x[{len(values)}], uint64_t y[{len(values)}]) {{ for (int i = 0; i < {len(values)}; i++) {{ {ty} v = x[i]; uint64_t h = 0; {taken} y[i] = h; }} }}", x=values)


def rows():
    for ty in ("u32", "i32"):
        yield from of_type(ty, SMALL)
        yield from of_type(ty, AROUND if ty == "u32" else [d for d in AROUND if d < 2**31])
    yield from of_type("u32", ABOVE)
    # By the least number and by negative ones; -1 has no quotient of the least number.
    yield from of_type("i32", [-2**31 + by for by in (1, 2)] + [-d for d in (2, 3, 4, 5, 7, 8, 10, 100, 127, 128, 1000, 65536, 2**30)])
    yield common_kernel("i32", [-1], [v for v in edges("i32") if v > least("i32")])
    yield by_c.row("int64_t q(int32_t v) { return v / (-2147483647 - 1) * 10 + v % (-2147483647 - 1) % 7; }", v=-2**31)
    yield by_c.row("int64_t q(int32_t v) { return v / (-2147483647 - 1) * 10 + v % (-2147483647 - 1) % 7; }", v=2**31 - 1)
    for ty in ("u64", "i64"):
        yield from of_type(ty, POWERS_64 + [3, 10, 1000, 10**9 + 7])
    yield common_kernel("u64", [2**63, 2**63 - 1, 2**63 + 1, 2**64 - 1], edges("u64"))
    for ty in ("u8", "i8", "u16", "i16"):
        yield common_kernel(ty, [1, 2, 3, 4, 5, 6, 7, 8, 9, 10, 13, 64, 100, 127, 128, 129, 255, 256, 257, 1000, 32767, 32768, 65535, 65536, -2, -3, -128], edges(ty))
    yield from bounded()


def main(words):
    if words:
        sys.exit(__doc__)
    by_c.write("quotients.tsv", rows())


if __name__ == "__main__":
    main(sys.argv[1:])
