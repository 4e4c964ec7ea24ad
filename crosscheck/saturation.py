"""Saturation by itself worked a second time, by RULES 5.6: the last lines that the program `run_figures` must print; equation.py prints the others."""
import math
import sys

sys.dont_write_bytecode = True
import doors
import figures
import numerics

TEMPERATURES = [
    # 216.592, 304.1282 and 523: the float below, itself, the float above
    "406b12f1a9fbe76c", "406b12f1a9fbe76d", "406b12f1a9fbe76e", "4073020d1b71758d", "4073020d1b71758e", "4073020d1b71758f",
    "408057ffffffffff", "4080580000000000", "4080580000000001",
    # 216.6, 220, then every 10 to 300, 303.1282, 304, 304.128, 305.1282
    "406b133333333333", "406b800000000000", "406cc00000000000", "406e000000000000", "406f400000000000", "4070400000000000", "4070e00000000000",
    "4071800000000000", "4072200000000000", "4072c00000000000", "4072f20d1b71758e", "4073000000000000", "4073020c49ba5e35", "4073120d1b71758e",
    # 0, 5, 10, 15, 20, 25 and 29 degrees Celsius, with 273.15 added
    "4071126666666666", "4071626666666666", "4071b26666666666", "4072026666666666", "4072526666666666", "4072a26666666666", "4072e26666666666",
    # 0, -0, the least float above 0, -1, -250, 1e300, the infinities, a NaN
    "0000000000000000", "8000000000000000", "0000000000000001", "bff0000000000000", "c06f400000000000", "7e37e43c8800759c",
    "7ff0000000000000", "fff0000000000000", "7ff8000000000000",
]


def at(t):
    """RULES 5.6: the vapour pressure and the saturated densities, of vapour and of liquid."""
    if not math.isfinite(t):
        raise doors.Refusal(3)
    if not 216.592 <= t <= 523.0 or not t < 304.1282:
        raise doors.Refusal(4)
    return [doors.worked(figure, t) for figure in (figures.vapour_pressure, figures.vapour_density, figures.liquid_density)]


def tell(t):
    try:
        told = " ".join(map(numerics.show, at(t)))
    except doors.Refusal as r:
        told = f"refused by {r.args[0]}"
    print(f"saturation at {numerics.show(t)} is {told}")


if __name__ == "__main__":
    for t in TEMPERATURES:
        tell(numerics.number(int(t, 16)))
