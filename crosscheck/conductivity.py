"""The thermal conductivity worked a second time, from 002 and docs/ARRANGEMENT.md, section 13: a part of what the program `run_figures` must print.
It is equation.py that prints it, after its own.

Each operation is one Python float operation, which is the same f64 operation. Each number is tested as it is worked.
"""
import sys

sys.dont_write_bytecode = True
import figures
import numerics
from figures import DENSITY, TEMPERATURE, Num, e_to, root

# L0 to L3, and B1 with B2 for i = 1 to 6
TABLE_3 = [1.51874307e-2, 2.80674040e-2, 2.28564190e-2, -7.41624210e-3]
TABLE_4 = [(1.00128e-2, 4.30829e-3), (5.60488e-2, -3.58563e-2), (-8.11620e-2, 6.71480e-2), (6.24337e-2, -5.22855e-2), (-2.06336e-2, 1.74571e-2),
           (2.53248e-3, -1.96414e-3)]
ONE, THOUSAND = Num(1.0), Num(1000.0)


def dilute_gas(r):
    """Eq. (3), in mW/(m K)."""
    l0, l1, l2, l3 = map(Num, TABLE_3)
    return root(r, 1, 2) / (l0 + l1 / r + l2 / r**2 + l3 / r**3)


def residual(r, delta):
    """Eq. (4), in W/(m K)."""
    total = None
    for i, (b1, b2) in enumerate(TABLE_4, 1):
        term = (Num(b1) + Num(b2) * r) * delta**i
        total = term if total is None else total + term
    return total


def critical_enhancement(r, delta):
    """Eq. (10), in mW/(m K)."""
    t, d = r - ONE, delta - ONE
    e = e_to(Num(8.865) * t + Num(4.16) * d**2 + Num(2.302) * t * d - d**3)
    n = Num(-17.47) - Num(44.88) * t
    m = Num(0.8563) - e - Num(0.4503) * d - Num(7.197) * t
    return n / m


def conductivity(t, rho):
    """Eq. (1), in W/(m K)."""
    r, delta = Num(t) / Num(TEMPERATURE), Num(rho) / Num(DENSITY)
    return dilute_gas(r) / THOUSAND + residual(r, delta) + critical_enhancement(r, delta) / THOUSAND


INF, NAN = float("inf"), float("nan")
# the temperatures and densities of 002's Table 7
SAMPLES = [(310.0, 400.0), (250.0, 0.0), (250.0, 2.0), (250.0, 1058.0)]
# liquid, vapour, supercritical; at r = 1, beside the critical box, at delta = 1, at ends of the ranges
FLUID = [
    (216.592, 1178.46), (230.0, 1172.07), (250.0, 1058.86), (300.0, 959.7), (220.0, 15.8),
    (250.0, 46.644), (300.0, 128.4), (304.1282, 340.0), (305.1282, 350.6), (305.1283, 467.6),
    (305.1282, 584.6), (350.0, 614.18), (400.0, 72.804), (523.0, 0.1012), (523.0, 300.0),
]
# each tells some other orders of section 13 from this one; 2.302*(t*d) is told by the first two
ORDERS = [(454.9, 277.9), (518.3, 238.2), (314.8, 346.9), (319.9, 396.9), (323.2, 15.3), (329.2, 185.2), (385.1, 473.8), (344.2, 759.6)]
# between the saturated densities, where x is below 0; then the critical point, where it is 0
BETWEEN = [(252.0, 530.0), (254.0, 450.0), (304.1282, 467.6)]
# neighbouring floats, the second with a divisor of 0: M, then the sum under the root of r
POLES = [(272.4, 757.1236308241799), (272.4, 757.12363082418), (73.80111870258995, 400.0), (73.80111870258996, 400.0)]
# x is 700, above it at the next float, and above it by far; it is below -36, and below -700, where E is 0
ARGUMENTS = [(24318.763281782292, 467.6), (24318.763281782296, 467.6), (300.0, -3300.0), (300.0, 3273.2), (300.0, 5611.2)]
# no temperatures, no densities: at 1e-110 K the third power of r is 0, at 2e54 the sixth of delta is not finite
NO_STATES = [
    (0.0, 400.0), (-0.0, 400.0), (-300.0, 400.0), (1e-300, 400.0), (1e-110, 400.0), (1e-100, 400.0),
    (1e300, 400.0), (INF, 400.0), (-INF, 400.0), (NAN, 400.0), (300.0, -0.0), (300.0, -1.0),
    (300.0, 1e53), (300.0, 2e54), (300.0, 1e300), (300.0, INF), (300.0, -INF), (300.0, NAN),
]


def main():
    for t, rho in SAMPLES + FLUID + ORDERS + BETWEEN + POLES + ARGUMENTS + NO_STATES:
        print(f"conductivity at {numerics.show(t)} {numerics.show(rho)} is {numerics.tell(figures.worked(conductivity, t, rho))}")
