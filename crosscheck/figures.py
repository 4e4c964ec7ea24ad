"""Saturation, melting and the ideal part worked a second time, from 004, RULES 4.7 and docs/ARRANGEMENT.md, sections 8, 10 and 11: the first part of what the
program `run_figures` must print. equation.py prints it, before its own.

Each operation is one Python float operation, which is the same f64 operation. Each number is tested as it is worked, where the code tests at the end.
"""
import math
import sys

sys.dont_write_bytecode = True
import numerics

TEMPERATURE, PRESSURE, DENSITY = 304.1282, 7377300.0, 467.6
EQ_3_10 = [216.592, 517950.0, 1955.5390, 2055.4593]
EQ_3_13 = [-7.0602087, 1.9391218, -1.6463597, -3.2995634]
EQ_3_14 = [1.9245108, -0.62385555, -0.32731127, 0.39245142]
EQ_3_15 = [-1.7074879, -0.82274670, -4.6008549, -10.111178, -29.742252]
A2, A3 = -3.70454304, 2.50000000
ROWS = [(1.99427042, 3.15163), (0.62105248, 6.11190), (0.41195293, 6.77708), (1.04028922, 11.32384), (0.08327678, 27.08792)]


class Failure(Exception):
    """Refusal 7."""


class Num:
    """A finite number: to work one that is not is a failure."""

    def __init__(self, x):
        if x is None or not math.isfinite(x):
            raise Failure
        self.x = x

    def __neg__(self):
        return Num(-self.x)

    def __add__(self, other):
        return Num(self.x + other.x)

    def __sub__(self, other):
        return Num(self.x - other.x)

    def __mul__(self, other):
        return Num(self.x * other.x)

    def __truediv__(self, other):
        if other.x == 0.0:
            raise Failure
        return Num(self.x / other.x)

    def __pow__(self, n):
        p = self
        for _ in range(n - 1):
            p = p * self
        return p


def e_said(a):
    """e to a, and what the exponential says of a: for those who pass it on."""
    e = numerics.exponential(a.x)
    if e is None:
        raise Failure
    answer, fallen = e
    return Num(answer), fallen


def e_to(a):
    """e to a, for those who drop what the exponential says: the saturation equations, the ideal part and the conductivity (docs/ARRANGEMENT.md, sections 12
    and 13)."""
    answer, _dropped = e_said(a)
    return answer


def root(a, m, k):
    return Num(numerics.root(a.x, m, k))


def theta(t):
    return Num(1.0) - Num(t) / Num(TEMPERATURE)


def above_zero(a):
    if not a.x > 0.0:
        raise Failure
    return a


def vapour_pressure(t):
    h = theta(t)
    tau = Num(TEMPERATURE) / Num(t)
    a1, a2, a3, a4 = map(Num, EQ_3_13)
    total = a1 * h + a2 * root(h, 3, 2) + a3 * h**2 + a4 * h**4
    return Num(PRESSURE) * e_to(tau * total)


def liquid_density(t):
    h = theta(t)
    a1, a2, a3, a4 = map(Num, EQ_3_14)
    total = a1 * root(h, 17, 50) + a2 * root(h, 1, 2) + a3 * root(h, 5, 3) + a4 * root(h, 11, 6)
    return above_zero(Num(DENSITY) * e_to(total))


def vapour_density(t):
    h = theta(t)
    a1, a2, a3, a4, a5 = map(Num, EQ_3_15)
    total = a1 * root(h, 17, 50) + a2 * root(h, 1, 2) + a3 * h + a4 * (h**2 * root(h, 1, 3)) + a5 * (h**4 * root(h, 2, 3))
    return above_zero(Num(DENSITY) * e_to(total))


def melting_pressure(t):
    tt, pt, a1, a2 = map(Num, EQ_3_10)
    y = Num(t) / tt - Num(1.0)
    return pt * (Num(1.0) + a1 * y + a2 * y**2)


def first(x):
    tau = Num(x)
    total = Num(A2) + Num(A3) / tau
    for a, h in ROWS:
        o = Num(1.0) - e_to(-(Num(h) * tau))
        total = total + Num(a) * Num(h) * (Num(1.0) / o - Num(1.0))
    return tau * total


def second(x):
    tau = Num(x)
    total = -(Num(A3) / (tau * tau))
    for a, h in ROWS:
        e = e_to(-(Num(h) * tau))
        o = Num(1.0) - e
        total = total - Num(a) * (Num(h) * Num(h)) * e / (o * o)
    return tau * tau * total


def worked(f, *xs):
    try:
        return f(*xs).x
    except Failure:
        return None


def main():
    inf, nan = float("inf"), float("nan")
    line = [216.592, 220.0, 233.15, 250.0, 273.15, 280.0, 295.5, 300.0, 303.5, 304.1, 304.12, 304.12819999999994, 304.1282, 250.29, 267.1, 217.64, 298.53, 271.99]
    off = [305.0, 50.0, 20.0, 3.1, 2.9, 1.0, 0.4, 1e-300, 0.0, -0.0, -5.0, -1000.0, 1e300, inf, -inf, nan]
    # the first five tell other orders of eq. (3.10) from this one
    melting = [216.6478, 216.9646, 218.2975, 218.3518, 330.0, 216.592, 216.59199999999998, 216.59200000000004, 216.5920025, 216.598387,
               217.0, 217.5460227897887, 217.54602278978874, 222.7145, 222.7146, 250.0, 304.1282, 523.0, 327.673, 1100.0,
               216.4812, 100.0, 0.0, -0.0, -300.0, 5e-324, 1e140, 1e151, 1e152, 1e300,
               -1e300, 1.7976931348623157e308, inf, -inf, nan]
    taus = [0.58, 0.8, 1.0, 1.2, 1.4, 1.4041]
    off_taus = [200.0, 230.0, 1e160, 1e200, 1e300, 3e-17, 1e-17, 1e-154, 1e-160, 1e-200, 0.0, -0.0, -1.0, -13.0, -20.0, -25.7, -25.85, -30.0, inf, -inf, nan]
    saturation = [("vapour pressure", vapour_pressure), ("liquid density", liquid_density), ("vapour density", vapour_density)]
    ideal = [("I1", first), ("I2", second)]
    for xs, figures in [(line + off, saturation), (melting, [("melting pressure", melting_pressure)]), (taus + off_taus, ideal)]:
        for x in xs:
            for name, f in figures:
                print(f"{name} at {numerics.show(x)} is {numerics.tell(worked(f, x))}")
