#!/usr/bin/env python3
"""The pressure and the state worked a second time, from 004 and docs/ARRANGEMENT.md, sections 2 to 9 and 12: prints what the program `run_figures` must print,
with figures.py's lines before its own and conductivity.py's after them. saturation.py has what comes last.

Each operation is one Python float operation, which is the same f64 operation. Each number is tested as it is worked, where the code tests at the end.
    (crosscheck/equation.py; python3 crosscheck/saturation.py) | diff - crates/run_figures/stdout
"""
import sys

sys.dont_write_bytecode = True
import conductivity
import figures
import numerics
from figures import DENSITY, TEMPERATURE, Failure, Num, e_said, first, root, second

GAS = 188.9241
# Table 31, rows 1 to 34: n, d, t in quarters, c (0: no exponential)
ROWS = [
    (0.38856823203161e0, 1, 0, 0), (0.29385475942740e1, 1, 3, 0), (-0.55867188534934e1, 1, 4, 0), (-0.76753199592477e0, 1, 8, 0), (0.31729005580416e0, 2, 3, 0),
    (0.54803315897767e0, 2, 8, 0), (0.12279411220335e0, 3, 3, 0), (0.21658961543220e1, 1, 6, 1), (0.15841735109724e1, 2, 6, 1), (-0.23132705405503e0, 4, 10, 1),
    (0.58116916431436e-1, 5, 0, 1), (-0.55369137205382e0, 5, 6, 1), (0.48946615909422e0, 5, 8, 1), (-0.24275739843501e-1, 6, 0, 1), (0.62494790501678e-1, 6, 4, 1),
    (-0.12175860225246e0, 6, 8, 1), (-0.37055685270086e0, 1, 12, 2), (-0.16775879700426e-1, 1, 24, 2), (-0.11960736637987e0, 4, 12, 2), (-0.45619362508778e-1, 4, 24, 2),
    (0.35612789270346e-1, 4, 32, 2), (-0.74427727132052e-2, 7, 24, 2), (-0.17395704902432e-2, 8, 0, 2), (-0.21810121289527e-1, 2, 28, 3), (0.24332166559236e-1, 3, 48, 3),
    (-0.37440133423463e-1, 3, 64, 3), (0.14338715756878e0, 5, 88, 4), (-0.13491969083286e0, 5, 96, 4), (-0.23151225053480e-1, 6, 64, 4), (0.12363125492901e-1, 7, 96, 4),
    (0.21058321972940e-2, 8, 32, 4), (-0.33958519026368e-3, 10, 8, 4), (0.55993651771592e-2, 4, 112, 5), (-0.30335118055646e-3, 8, 56, 6)]
# rows 35 to 39: n, d, t in quarters, alpha, beta, gamma, epsilon
GAUSSIAN = [
    (-0.21365488688320e3, 2, 4, 25.0, 325.0, 1.16, 1.0), (0.26641569149272e5, 2, 0, 25.0, 300.0, 1.19, 1.0), (-0.24027212204557e5, 2, 4, 25.0, 300.0, 1.19, 1.0),
    (-0.28341603423999e3, 3, 12, 15.0, 275.0, 1.25, 1.0), (0.21247284400179e3, 3, 12, 20.0, 275.0, 1.22, 1.0)]
# rows 40 to 42: n, a, b, b as m and k, A, B, C, D
NON_ANALYTIC = [
    (-0.66642276540751e0, 3.5, 0.875, (7, 8), 0.7, 0.3, 10.0, 275.0), (0.72608632349897e0, 3.5, 0.925, (37, 40), 0.7, 0.3, 10.0, 275.0),
    (0.55068668612842e-1, 3.0, 0.875, (7, 8), 0.7, 1.0, 12.5, 275.0)]
ONE, TWO, FOUR = Num(1.0), Num(2.0), Num(4.0)


def power(x, n):
    """xⁿ; of x⁰ nothing is worked."""
    return ONE if n == 0 else x**n


class Point:
    def __init__(self, t, rho):
        self.delta, self.tau = Num(rho) / Num(DENSITY), Num(TEMPERATURE) / Num(t)
        self.q = root(root(self.tau, 1, 2), 1, 2)

    def tau_to(self, j):
        return power(self.tau, j // 4) * power(self.q, j % 4)


# A row is its term, its five brackets, and what its exponential says (docs/ARRANGEMENT.md, section 12); rows 1 to 7 have none.


def rows_1_34(at, row):
    n, d, j, c = row
    term = Num(n) * power(at.delta, d) * at.tau_to(j)
    dn, t = Num(float(d)), Num(j / 4)
    if c == 0:
        return term, [lambda: dn, lambda: dn * (dn - ONE), lambda: t, lambda: t * (t - ONE), lambda: t * dn], False
    z = power(at.delta, c)
    e, fallen = e_said(-z)
    term = term * e
    g = Num(float(c)) * z
    b = dn - g
    return term, [lambda: b, lambda: b * ((dn - ONE) - g) - Num(float(c)) * g, lambda: t, lambda: t * (t - ONE), lambda: t * b], fallen


def rows_35_39(at, row):
    n, d, j, alpha, beta, gamma, epsilon = row
    delta, tau = at.delta, at.tau
    dn, t, alpha, beta = Num(float(d)), Num(j / 4), Num(alpha), Num(beta)
    x, y = delta - Num(epsilon), tau - Num(gamma)
    e, fallen = e_said(-(alpha * (x * x) + beta * (y * y)))
    term = Num(n) * power(delta, d) * at.tau_to(j) * e

    def b():
        return dn - TWO * alpha * delta * x

    def s():
        return t - TWO * beta * tau * y
    brackets = [b, lambda: b() * b() - dn - TWO * alpha * power(delta, 2), s, lambda: s() * s() - t - TWO * beta * power(tau, 2), lambda: b() * s()]
    return term, brackets, fallen


def rows_40_42(at, row):
    n, a, b, exponent, ka, kb, kc, kd = [x if isinstance(x, tuple) else Num(x) for x in row]
    delta, tau = at.delta, at.tau
    e, f = delta - ONE, tau - ONE
    x, y = e * e, f * f
    size = -e if e.x < 0.0 else e
    cube, square = power(x, 3), power(x, 2)
    up, low = (cube * size, square * size) if row[1] == 3.5 else (cube, square)
    r, v = root(x, 5, 3), root(x, 2, 3)
    theta = (ONE - tau) + ka * r
    d = theta * theta + kb * up
    psi, fallen = e_said(-(kc * x + kd * y))
    p0 = root(d, *exponent)
    p1 = p0 / d
    term = n * delta * psi
    m = ka * theta * Num(20 / 3) * v + TWO * kb * a * low
    dd = e * m
    k = delta * -(TWO * kc * e)
    g = ONE + k
    rise = delta * (b * p1 * dd)

    def p2():
        return p1 / d

    def psi_t():
        return -(TWO * kd * f)

    def p_t():
        return -(TWO * theta * b * p1)

    def by_delta_delta():
        curve = m + FOUR * kb * a * (a - ONE) * low + TWO * (ka * ka) * Num(100 / 9) * x * (v * v) + ka * theta * Num(40 / 3) * Num(2 / 3) * v
        pdd = b * (p1 * curve + (b - ONE) * p2() * (dd * dd))
        psi_dd = (TWO * kc * x - ONE) * (TWO * kc)
        return p0 * (TWO * k + power(delta, 2) * psi_dd) + TWO * rise * g + power(delta, 2) * pdd

    def by_tau_tau():
        ptt = TWO * b * p1 + FOUR * (theta * theta) * (b * (b - ONE)) * p2()
        psi_tt = (TWO * kd * y - ONE) * (TWO * kd)
        return power(tau, 2) * (ptt + TWO * p_t() * psi_t() + p0 * psi_tt)

    def by_delta_tau():
        pdt = -(ka * b * Num(20 / 3) * p1 * e * v) - TWO * theta * (b * (b - ONE)) * p2() * dd
        return tau * (p0 * psi_t() * g + rise * psi_t() + p_t() * g + delta * pdt)
    return term, [lambda: p0 * g + rise, by_delta_delta, lambda: tau * (p_t() + p0 * psi_t()), by_tau_tau, by_delta_tau], fallen


def residual(at, which):
    """One of the five sums, in row order from the first row's product; and how many of its rows fell away, each row by itself."""
    total, count = None, 0
    for work, table in [(rows_1_34, ROWS), (rows_35_39, GAUSSIAN), (rows_40_42, NON_ANALYTIC)]:
        for row in table:
            term, brackets, fallen = work(at, row)
            figure = term * brackets[which]()
            total = figure if total is None else total + figure
            count += fallen
    return total, count


def pressure(t, rho):
    s1, _dropped = residual(Point(t, rho), 0)
    return Num(rho) * Num(GAS) * Num(t) * (ONE + s1)


def state(t, rho):
    """The eight numbers, and the count of the rows that fell away: each of the five sums goes over the same rows, so each has the same count."""
    at = Point(t, rho)
    (s1, count), (s2, _), (s3, _), (s4, _), (s5, _) = [residual(at, k) for k in range(5)]
    i1, i2 = first(at.tau.x), second(at.tau.x)
    t, rho, gas = Num(t), Num(rho), Num(GAS)
    s, z, g, k = i1 + s3, i2 + s4, ONE + s1 - s5, ONE + TWO * s1 + s2
    eight = [t, rho * gas * t * (ONE + s1), rho, gas * t * s, gas * t * (ONE + s + s1), gas * -z, gas * (-z + g * g / k), root(gas * t * (k - g * g / z), 1, 2)]
    return eight, count


# Two neighbouring floats each, with an argument of -36 or the last above it, then one below it: the rows named count at the second alone. The argument is -36
# itself at the first of all pairs but those of c = 2, 4 and 5. Of c = 1 there is none: a density that high is refused by the roots of rows 40 to 42.
FALLEN = [
    (300.0, 2805.6), (300.0, 2805.6000000000004),  # c = 2, rows 17 to 23; the arguments of c = 4 to 6 are below -700
    (300.0, 1543.9811815831276), (300.0, 1543.9811815831279),  # c = 3, rows 24 to 26
    (230.0, 1145.381403725414), (230.0, 1145.3814037254142),  # c = 4, rows 27 to 32
    (280.0, 957.4916661806428), (280.0, 957.4916661806429),  # c = 5, row 33
    (300.0, 849.6855892083086), (300.0, 849.6855892083087),  # c = 6, row 34
    (265.0, 1028.3337772507039), (265.0, 1028.333777250704),  # row 35
    (304.86379908770004, 1.0), (304.8637990877001, 1.0),  # rows 36 and 37, of one argument
    (320.0, 61.459336211435975), (320.0, 61.45933621143597),  # row 38
    (250.0, 1094.9220927601548), (250.0, 1094.922092760155),  # row 39
    (243.0, 1105.2842056135098), (243.0, 1105.28420561351),  # rows 40 and 41, of one argument
    (235.153310960611, 3.0), (235.15331096061098, 3.0),  # row 42
    (1000.0, -981.96),  # row 33 is e to a number above 36, which doesn't count
]


def states():
    inf, nan = float("inf"), float("nan")
    points = [(216.592, 0.1), (216.592, 1178.46), (250.0, 1058.86), (250.0, 46.644), (273.15, 500.0), (300.0, 128.4), (300.0, 1300.0), (303.9, 420.3), (304.1282, 467.5),
              (304.2, 467.6), (305.0, 467.6), (306.5, 530.25), (330.0, 701.2), (400.0, 72.804), (450.0, 467.6), (523.0, 0.05), (523.0, 1400.0),
              (327.6, 596.9), (321.9, 282.0), (316.0, 725.1), (305.5, 668.7), (304.11, 490.7), (311.1, 522.1),
              (304.1282, 467.6), (300.0, 0.0), (300.0, -1.0), (0.0, 100.0), (-300.0, 100.0), (1e-300, 100.0), (300.0, 1e300), (300.0, inf), (inf, 100.0), (nan, 100.0), (300.0, nan)]
    for t, rho in points + FALLEN:
        where = f"at {numerics.show(t)} {numerics.show(rho)} is"
        print(f"pressure {where} {numerics.tell(figures.worked(pressure, t, rho))}")
        try:
            eight, count = state(t, rho)
            print(f"state {where} {' '.join(numerics.show(x.x) for x in eight)} fallen {count}")
        except Failure:
            print(f"state {where} refused")


def sharp():
    """The figures of the non-analytic rows by themselves, which are small in the sums."""
    for t, rho in [(290.1, 567.9), (295.4, 588.8), (312.2, 580.6), (290.4, 404.2)]:
        at = Point(t, rho)
        for which in range(5):
            for row in NON_ANALYTIC:
                term, brackets, _dropped = rows_40_42(at, row)
                print(f"rows 40 to 42 is {numerics.show((term * brackets[which]()).x)}")


if __name__ == "__main__":
    figures.main()
    states()
    sharp()
    conductivity.main()
