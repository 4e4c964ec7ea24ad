#!/usr/bin/env python3
"""The numerics worked a second time, by RULES 4.3 to 4.6 alone: prints what the program `run_readings` must print of them, its first lines.

Each operation is one Python float operation, which is the same f64 operation. Roots halve as RULES 4.6 says, with no guess.
    (crosscheck/numerics.py; python3 crosscheck/doors.py) | diff - crates/run_readings/stdout
"""
import math
import struct


def bits(x):
    return struct.unpack("<Q", struct.pack("<d", x))[0]


def number(b):
    return struct.unpack("<d", struct.pack("<Q", b))[0]


def power(x, n):
    if n == 0:
        return 1.0
    p = x
    for _ in range(n - 1):
        p = p * x
    return p


def exponential(x):
    """RULES 4.4: the answer, and what is said with it: whether x was below -36 (docs/ARRANGEMENT.md, section 12). None where refused: it says nothing then."""
    if not math.isfinite(x):
        return None
    if x < -700.0:
        return 0.0, True
    if x > 700.0:
        return None
    if x <= 0.0:
        return series(x), x < -36.0
    # by step 4, and not by the whole of the rule: what e to -x would say is not said of x
    return 1.0 / series(-x), False


def series(x):
    """RULES 4.4, step 4."""
    y = (-x) / 1024.0
    s = 1.0
    for k in range(14, 0, -1):
        s = 1.0 - (y / k) * s
    for _ in range(10):
        s = s * s
    return s


def halve(figure, target, lo, hi):
    """The bits of the crossing; 'no crossing'; or None where a figure is not finite."""
    if lo >= hi:
        return "no crossing"
    first = figure(lo)
    if not math.isfinite(first):
        return None
    second = figure(hi)
    if not math.isfinite(second):
        return None
    if first > target or not second > target:
        return "no crossing"
    while hi != lo + 1:
        mid = lo + (hi - lo) // 2
        f = figure(mid)
        if not math.isfinite(f):
            return None
        if f > target:
            hi = mid
        else:
            lo = mid
    return lo


def root(x, m, k):
    if not m < 2 * k or not math.isfinite(x) or x < 0.0:
        return None
    if x == 0.0:
        return 0.0
    target = power(x, m)
    if not math.isfinite(target):
        return None
    found = halve(lambda b: power(number(b), k), target, bits(0.0), bits(2.0**20))
    return number(found) if isinstance(found, int) else None


def show(x):
    return "%016x" % bits(x) if math.isfinite(x) else "not finite"


def tell(w):
    return "refused" if w is None else show(w)


def tell_said(e):
    return "refused" if e is None else f"{show(e[0])} fallen {int(e[1])}"


def main():
    for x, n in [(2.0, 10), (0.1, 0), (0.1, 1), (1.1, 10), (1.3972, 28), (1e200, 2)]:
        print(f"power {n} of {show(x)} is {tell(power(x, n))}")
    inf, nan = float("inf"), float("nan")
    worked = [0.0, -0.0, -701.0, -700.0, -700.0000000000001, 700.0, 700.0000000000001, inf, -inf, nan, 1.0, -1.0, -0.0001220703125, -36.5, 0.3, 12.25,
              -123.456, 650.1, -1e-300]
    # -36, the next float below it and the next above; two numbers whose negative is below -36; one that is so itself
    said = [-36.0, -36.00000000000001, -35.99999999999999, 36.00000000000001, 36.5, -37.0]
    for x in worked + said:
        print(f"e to {show(x)} is {tell_said(exponential(x))}")
    edges = [(4.0, 1, 2), (0.0, 1, 2), (-0.0, 17, 50), (1.0, 1, 2), (-1.0, 1, 2), (inf, 1, 2), (nan, 1, 2), (2.0, 2, 1), (2.0, 0, 0), (2.0, 0, 1), (2.0, 1, 51),
             (2.0, 1, 52), (0.0, 1, 52), (1099511627775.9999, 1, 2), (1099511627776.0, 1, 2), (5e-324, 1, 2), (5e-324, 3, 2), (1e-200, 5, 3), (1e-308, 37, 40),
             (1e300, 3, 2), (1e-17, 2, 3)]
    exponents = [(1, 2), (1, 3), (2, 3), (3, 2), (5, 3), (11, 6), (7, 8), (37, 40), (17, 50)]
    printed = [("0.34", 17, 50), ("10/6", 5, 3), ("0.875", 7, 8), ("0.925", 37, 40)]
    named = [(f"{m}/{k}", m, k) for m, k in exponents] + printed
    spread = [(x, name, m, k) for x in [0.000001, 0.0712890625, 0.7, 1.0, 1.4042, 17.77, 1000.0] for name, m, k in named]
    for x, name, m, k in [(x, f"{m}/{k}", m, k) for x, m, k in edges] + spread:
        print(f"root {name} of {show(x)} is {tell(root(x, m, k))}")


if __name__ == "__main__":
    main()
