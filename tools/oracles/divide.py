"""Divisions by a constant: the steps that they become, numbered from the next value of the block on. A rule of folding.

For n, d >= 1 and s let m be 2^s / d rounded up, and e = m*d - 2^s. Where 0 <= n and e*n < 2^s, n / d rounded down is m*n / 2^s rounded
down: with n = q*d + r it is q and (r + e*n / 2^s) / d, and r + e*n / 2^s < r + 1 <= d. Where n < 0 < e and e*|n| < 2^s, m*n / 2^s
rounded down is one less than n / d rounded up. So the steps depend on the greatest value that the operand may have."""
import collections

# A division of the value `left` by the value `right`, a constant: the number of the block's next value, the constant, and the greatest
# value that the operand may have.
Division = collections.namedtuple("Division", "next left right divisor top")


def divided(kind, width, x):
    """The steps of an operation (divu, remu, divs or rems) with the rule that makes them; or None."""
    return {"divu": unsigned_quotient, "remu": unsigned_remainder, "divs": signed_quotient, "rems": signed_remainder}[kind](width, x)


# ---- unsigned, by products

def reciprocal(d, s):
    return -(-(1 << s) // d)


def unsigned_amount(top, d):
    """The least s of 32 to 63 whose m serves all values up to a greatest one with products below 2^64; or None."""
    for s in range(32, 64):
        m = reciprocal(d, s)
        if (m * d - (1 << s)) * top < 1 << s and m * top < 1 << 64:
            return s
    return None


def quotient32(x, s):
    """Of 32 bits: by an amount, and by a factor of 33 bits where there is none."""
    m, d = x.next, x.divisor
    if s is not None:
        return [("one", "u32to64", x.left), ("const", 64, reciprocal(d, s)), ("two", "mul64", m, m + 1), ("const", 64, s), ("two", "shru64", m + 2, m + 3),
                ("one", "cut64to32", m + 4)], "an unsigned division by a product"
    t = (d - 1).bit_length()
    return [("one", "u32to64", x.left), ("const", 64, reciprocal(d, 32 + t) - (1 << 32)), ("two", "mul64", m, m + 1), ("const", 64, 32),
            ("two", "shru64", m + 2, m + 3), ("two", "add64", m + 4, m), ("const", 64, t), ("two", "shru64", m + 5, m + 6),
            ("one", "cut64to32", m + 7)], "an unsigned division by a product of 33 places"


def factor64(x):
    """Of 64 bits: the amount with its factor, where that has 32 bits and so has the operand; or None."""
    s = unsigned_amount(x.top, x.divisor) if x.top < 1 << 32 else None
    return None if s is None or reciprocal(x.divisor, s) >= 1 << 32 else (s, reciprocal(x.divisor, s))


def unsigned_quotient(width, x):
    if width == 32:
        return quotient32(x, unsigned_amount(x.top, x.divisor))
    found, m = factor64(x), x.next
    if not found:
        return None
    return [("const", 64, found[1]), ("two", "mul64", x.left, m), ("const", 64, found[0]), ("two", "shru64", m + 1, m + 2)], "an unsigned division by a product"


def by_quotient(division, width, x):
    return [("two", f"{division}{width}", x.left, x.right), ("two", f"mul{width}", x.next, x.right), ("two", f"sub{width}", x.left, x.next + 1)], "a remainder by a quotient"


def unsigned_remainder(width, x):
    return by_quotient("divu", width, x) if width == 32 or factor64(x) else None


# ---- signed

def signed_amount(d):
    """The least s of 32 to 63 whose m serves all values of 32 bits."""
    return next((s for s in range(32, 64) if (reciprocal(d, s) * d - (1 << s)) << 31 < 1 << s), None)


def signed32(x):
    """The quotient of 32 bits by a constant that is no power of two."""
    m, s = x.next, signed_amount(x.divisor)
    if s is None:
        return None
    return [("one", "s32to64", x.left), ("const", 64, reciprocal(x.divisor, s)), ("two", "mul64", m, m + 1), ("const", 64, s), ("two", "shrs64", m + 2, m + 3),
            ("one", "cut64to32", m + 4), ("const", 32, 31), ("two", "shrs32", x.left, m + 6), ("two", "sub32", m + 5, m + 7)], "a signed division by a product"


def by_power(width, x, k):
    """By 2^k: 2^k - 1 is added to what is negative. The steps of the sum, with its number."""
    m = x.next
    if k == 1:
        return [("const", width, width - 1), ("two", f"shru{width}", x.left, m), ("two", f"add{width}", x.left, m + 1)], m + 2
    return [("const", width, width - 1), ("two", f"shrs{width}", x.left, m), ("const", width, width - k), ("two", f"shru{width}", m + 1, m + 2),
            ("two", f"add{width}", x.left, m + 3)], m + 4


def exponent_of(d):
    """The k from 1 on with 2^k = d; or None."""
    return d.bit_length() - 1 if d > 1 and d & (d - 1) == 0 else None


def signed_quotient(width, x):
    if x.top < 1 << (width - 1):
        return [("two", f"divu{width}", x.left, x.right)], "a signed division of what is never negative"
    k = exponent_of(x.divisor)
    if k is None:
        return signed32(x) if width == 32 else None
    steps, total = by_power(width, x, k)
    return [*steps, ("const", width, k), ("two", f"shrs{width}", total, total + 1)], "a signed division by a power of two"


def signed_remainder(width, x):
    if x.top < 1 << (width - 1):
        return [("two", f"remu{width}", x.left, x.right)], "a signed division of what is never negative"
    k = exponent_of(x.divisor)
    if k is None:
        return by_quotient("divs", width, x) if width == 32 else None
    steps, total = by_power(width, x, k)
    return [*steps, ("const", width, (1 << width) - x.divisor), ("two", f"and{width}", total, total + 1),
            ("two", f"sub{width}", x.left, total + 2)], "a signed division by a power of two"
