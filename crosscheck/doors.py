"""The doors worked a second time, by RULES 2.2, 2.3, 3.3 and 5: what the program `run_readings` must print of them, after numerics.py's lines. First those
that aren't asked for the conductivity, then some that are.
`python3 numerics.py; python3 doors.py` is all of it.
"""
import math
import sys

sys.dont_write_bytecode = True
import conductivity
import equation
import figures
import numerics

PRESSURES = [
    (250.0, 5000000.0), (300.0, 5000000.0), (400.0, 5000000.0), (216.5919, 5000000.0), (216.592, 5000000.0),
    (523.0, 5000000.0), (523.0001, 5000000.0), (300.0, 9999.0), (300.0, 10000.0), (300.0, 30000001.0),
    (303.1282, 7000000.0), (303.1281, 7000000.0), (216.59199999999998, 5000000.0), (523.0000000000001, 5000000.0), (300.0, 9999.999999999998),
    (300.0, 10000.000000000002), (300.0, 29999999.999999996), (300.0, 30000000.0), (300.0, 30000000.000000004), (216.592, 10000.0),
    (216.592, 30000000.0), (523.0, 10000.0), (523.0, 30000000.0), (-0.0, 5000000.0), (5e-324, 5000000.0),
    (1e+308, 5000000.0), (-300.0, 5000000.0), (300.0, -0.0), (300.0, 5e-324), (300.0, 1e+308),
    (200.0, 1.0), (250.0, 1785029.0653665012), (250.0, 1785029.065366501), (250.0, 1785029.0653665015), (303.12819999999994, 7000000.0),
    (303.1282, 6999999.999999999), (303.1282, 8000000.0), (303.1282, 8000000.000000001), (305.1282, 7000000.0), (305.1282, 8000000.0),
    (305.12820000000005, 8000000.0), (304.0, 7500000.0), (304.12819999999994, 6900000.0), (304.1282, 6900000.0), (304.1282, 8100000.0),
    (304.12820000000005, 12000000.0), (216.59200000000004, 5000000.0), (522.9999999999999, 5000000.0), (300.0, -5000000.0), (305.1282, 6999999.999999999),
    (305.1282, 8000000.000000001), (217.0, 500000.0), (217.0, 600000.0), (303.1, 7100000.0), (303.1, 7300000.0),
    (217.0, 5000000.0), (217.0, 2429700.0), (217.0, 2429701.0), (217.0, 2429700.0645423313), (217.0, 2429700.0645423317),
    (217.546, 5000000.0), (217.5461, 5000000.0), (217.5460227897887, 5000000.0), (217.54602278978874, 5000000.0), (222.7145, 30000000.0),
    (222.7146, 30000000.0), (216.592, 517950.0), (216.592, 517950.00000000006), (216.592, 517951.0), (216.592, 30000001.0),
    (216.592003, 517964.0), (216.592003, 517965.0), (217.6, 5000000.0), (230.0, 20000000.0), (304.1282, 30000000.0),
    (350.0, 20000000.0),
]
DENSITIES = [
    (250.0, 1058.86), (300.0, 128.4), (400.0, 72.804), (250.0, 46.646153870768245), (250.0, 46.64615387076825),
    (250.0, 500.0), (250.0, 1045.9895507737242), (250.0, 1045.9895507737244), (523.0, 1300.0), (300.0, 0.1),
    (523.0, 0.1), (523.0, 0.2), (216.59199999999998, 100.0), (523.0000000000001, 100.0), (300.0, 0.09999999999999999),
    (300.0, 1300.0000000000002), (300.0, -0.0), (300.0, 5e-324), (-0.0, 100.0), (303.1282, 350.7),
    (303.1282, 350.69999999999993), (303.12819999999994, 350.7), (305.1282, 584.5), (305.1282, 584.5000000000001), (305.12820000000005, 584.5),
    (304.1282, 467.6), (304.12819999999994, 340.0), (304.1282, 340.0), (304.1282, 600.0), (216.592, 1178.0),
    (216.59200000000004, 1178.0), (522.9999999999999, 100.0), (5e-324, 100.0), (1e+308, 100.0), (-300.0, 100.0),
    (300.0, 1e+308), (300.0, -100.0), (300.0, 0.10000000000000002), (300.0, 1299.9999999999998), (303.1282, 584.5),
    (303.1282, 584.5000000000001), (305.1282, 350.7), (305.1282, 350.69999999999993), (217.0, 13.0), (217.0, 1177.0),
    (303.1, 300.0), (303.1, 560.0),
    (217.0, 1186.152), (217.0, 1180.969), (217.0, 1180.97), (216.592, 13.76), (216.592, 13.761),
    (216.592, 1178.6), (216.592, 1178.5), (216.5983, 1178.5025589536633), (216.5984, 1178.5022008008582),
]
INF, NAN = float("inf"), float("nan")
# asked for the conductivity too: answered, the last two beside the critical box; then refused by 3, 4, 5, 6, 8 and 19
PRESSURES_ASKED = [
    (250.0, 5000000.0), (300.0, 5000000.0), (400.0, 5000000.0), (523.0, 30000000.0), (303.12819999999994, 7000000.0), (305.12820000000005, 8000000.0),
    (NAN, 5000000.0), (216.5919, 5000000.0), (300.0, 9999.0), (303.1282, 7000000.0), (250.0, 1785029.0653665012), (217.0, 5000000.0),
]
DENSITIES_ASKED = [
    (310.0, 400.0), (250.0, 2.0), (250.0, 1058.0), (523.0, 0.2), (305.1282, 350.69999999999993), (305.1282, 584.5000000000001),
    (300.0, INF), (523.0000000000001, 100.0), (523.0, 1300.0), (305.1282, 584.5), (250.0, 500.0), (217.0, 1186.152),
]


class Refusal(Exception):
    """By its number."""


def worked(f, *args):
    try:
        x = f(*args)
    except figures.Failure:
        raise Refusal(7)
    return x.x if isinstance(x, figures.Num) else x


def in_range(t, x, low, high):
    if not (math.isfinite(t) and math.isfinite(x)):
        raise Refusal(3)
    if not 216.592 <= t <= 523.0:
        raise Refusal(4)
    if not low <= x <= high:
        raise Refusal(5)


def out_of_box(t, x, low, high):
    if 303.1282 <= t <= 305.1282 and low <= x <= high:
        raise Refusal(6)


def not_solid(t, p):
    if p > worked(figures.melting_pressure, t):
        raise Refusal(19)


def state(phase, t, rho):
    try:
        eight, count = equation.state(t, rho)
    except figures.Failure:
        raise Refusal(7)
    return phase, [x.x for x in eight], count


def pressure_figure(t):
    def figure(b):
        try:
            return equation.pressure(t, numerics.number(b)).x
        except figures.Failure:
            return NAN
    return figure


def by_pressure(t, p):
    in_range(t, p, 10000.0, 30000000.0)
    not_solid(t, p)
    out_of_box(t, p, 7000000.0, 8000000.0)
    phase, low, high = "supercritical", 0.05, 1400.0
    if t < 304.1282:
        s = worked(figures.vapour_pressure, t)
        if p == s:
            raise Refusal(8)
        if p < s:
            phase, high = "vapour", 1.01 * worked(figures.vapour_density, t)
        else:
            phase, low = "liquid", 0.99 * worked(figures.liquid_density, t)
        if not math.isfinite(low) or not math.isfinite(high):
            raise Refusal(7)
    found = numerics.halve(pressure_figure(t), p, numerics.bits(low), numerics.bits(high))
    if found is None:
        raise Refusal(7)
    if found == "no crossing":
        raise Refusal(9)
    return state(phase, t, numerics.number(found))


def by_density(t, rho):
    in_range(t, rho, 0.1, 1300.0)
    out_of_box(t, rho, 350.7, 584.5)
    phase = "supercritical"
    if t < 304.1282:
        vapour, liquid = worked(figures.vapour_density, t), worked(figures.liquid_density, t)
        if vapour < rho < liquid:
            raise Refusal(8)
        phase = "liquid" if vapour < rho else "vapour"
    p = worked(equation.pressure, t, rho)
    if not 10000.0 <= p <= 30000000.0:
        raise Refusal(5)
    not_solid(t, p)
    return state(phase, t, rho)


def asked(door):
    """The door when it is asked for the conductivity too (RULES 5.5): all its steps, then that of the T and rho of its state."""
    def steps(t, x):
        phase, eight, count = door(t, x)
        return phase, eight, count, worked(conductivity.conductivity, eight[0], eight[2])
    return steps


def told(name, door, t, x):
    where = f"T {numerics.show(t)} and {name} {numerics.show(x)}"
    try:
        phase, eight, count, *carried = door(t, x)
    except Refusal as r:
        return f"{where} refused by {r.args[0]}"
    named = zip(["T", "p", "rho", "u", "h", "cv", "cp", "w"], eight)
    line = f"{where} {phase} " + " ".join(f"{n} {numerics.show(v)}" for n, v in named) + f" fallen {count}"
    return line + "".join(f" conductivity {numerics.show(v)}" for v in carried)


def tell(name, door, t, x):
    print(told(name, door, t, x))


def tell_asked(name, door, t, x):
    print(f"asked: {told(name, asked(door), t, x)}")


if __name__ == "__main__":
    for t, p in PRESSURES:
        tell("p", by_pressure, t, p)
    for t, rho in DENSITIES:
        tell("rho", by_density, t, rho)
    for t, p in [(INF, 5000000.0), (NAN, 5000000.0), (300.0, -INF), (200.0, NAN), (-INF, 5000000.0), (300.0, INF), (300.0, NAN)]:
        tell("p", by_pressure, t, p)
    for t, rho in [(-INF, 100.0), (NAN, NAN), (300.0, INF), (300.0, NAN), (NAN, 100.0)]:
        tell("rho", by_density, t, rho)
    # what the pressure door found, asked of the density door: the same eight numbers, and the same count
    for t, p in [(250.0, 5000000.0), (300.0, 5000000.0), (400.0, 5000000.0), (217.0, 2429700.0645423313), (217.6, 5000000.0), (230.0, 20000000.0)]:
        tell("rho", by_density, t, by_pressure(t, p)[1][2])
    for t, p in PRESSURES_ASKED:
        tell_asked("p", by_pressure, t, p)
    for t, rho in DENSITIES_ASKED:
        tell_asked("rho", by_density, t, rho)
    # what the pressure door found, asked of the density door: the same conductivity too
    tell_asked("rho", by_density, 250.0, by_pressure(250.0, 5000000.0)[1][2])
