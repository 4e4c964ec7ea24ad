"""The package's answers against the second implementations, bit for bit: crosscheck/again, in Rust, which answers here by itself and has no library
linked, and crosscheck/*.py."""
import collections
import math
import os
import random
import subprocess
import sys
import unittest
from typing import Any

import makhroeng
from common import AGAIN, ROOT, STATES, bits, column, number, places, state_or_refusal, with_again

SEED = int(os.environ.get("SEED", "20261117"))
SINGLE = max(STATES // 10, 100)
# the ends of what may be asked (RULES 2.2), and of the critical box (RULES 2.3)
EDGES = {
    "T": [216.592, 303.1282, 304.1282, 305.1282, 523.0],
    "p": [1e4, 7e6, 8e6, 3e7],
    "rho": [0.1, 350.7, 584.5, 1300.0],
}
RANGES = {"p": (9e3, 3.01e7), "rho": (0.09, 1310.0)}


def beside(random: random.Random, x: float) -> float:
    """x, or a float up to 3 away."""
    for _ in range(random.randrange(4)):
        x = math.nextafter(x, random.choice((-math.inf, math.inf)))
    return x


def asked(random: random.Random, name: str) -> tuple[float, float]:
    """A temperature and a pressure or density: spread over the ranges, at their ends, near the saturation and melting lines, or any bits."""
    low, high = RANGES[name]
    t, x = random.uniform(216.0, 524.0), random.uniform(low, high)
    kind = random.randrange(10)
    if kind == 0:
        x = math.exp(random.uniform(math.log(low), math.log(high)))
    elif kind == 1:
        t = beside(random, random.choice(EDGES["T"]))
    elif kind == 2:
        x = beside(random, random.choice(EDGES[name]))
    elif kind == 3:
        t, x = beside(random, random.choice(EDGES["T"])), beside(random, random.choice(EDGES[name]))
    elif kind == 4:
        t = random.uniform(216.592, 304.1281)
        at = makhroeng.saturation(t)
        x = beside(random, at.p if name == "p" else random.choice((at.rho_vapour, at.rho_liquid)))
        x *= random.choice((1.0, 1.0, 1.0 + random.uniform(-1e-3, 1e-3)))
    elif kind == 5:
        t, x = random.uniform(216.592, 222.8), x if name == "p" else random.uniform(1170.0, 1200.0)
    elif kind == 6:
        t, x = random.uniform(302.0, 306.0), x if name == "rho" else random.uniform(6.9e6, 8.1e6)
    elif kind == 7:
        wild = random.choice((math.nan, math.inf, -math.inf, 0.0, -0.0, 5e-324, 1e308, -t, number(f"{random.getrandbits(64):016x}")))
        t, x = random.choice(((wild, x), (t, wild), (t, -x)))
    return t, x


def again(lines: list[str]) -> list[tuple[Any, ...]]:
    """What the second implementation answers to each line, as state_or_refusal tells it."""
    said = subprocess.run([AGAIN, "--ask"], input="\n".join(lines) + "\n", capture_output=True, text=True, check=True).stdout.splitlines()
    return [told(line.split()) for line in said]


def told(words: list[str]) -> tuple[Any, ...]:
    if len(words) == 1:
        return (int(words[0]),)
    if words[0] == "Saturated":
        return tuple(words[1:])
    phase, *eight, fallen, count, conductivity, last = words
    assert (fallen, conductivity, len(eight)) == ("fallen", "conductivity", 8), words
    return (phase.lower(), *eight, bits(float(count)), last)


class Crosscheck(unittest.TestCase):
    def compare(self, what: str, asked: list[Any], found: list[Any], right: list[Any]) -> None:
        self.assertGreater(len(asked), 0)
        self.assertEqual([len(found), len(right)], [len(asked)] * 2)
        differ = [case for case in zip(asked, found, right) if case[1] != case[2]]
        kinds = collections.Counter("answered" if len(told) > 1 else f"refused by {told[0]}" for told in right)
        print(f"{what}: {len(asked):,} compared, {len(differ):,} differ; {', '.join(f'{n:,} {kind}' for kind, n in sorted(kinds.items()))}")
        self.assertEqual(differ[:3], [])

    @with_again
    def test_arrays(self) -> None:
        chance = random.Random(SEED)
        pairs = [asked(chance, "p") for _ in range(STATES)]
        right = again([f"P {bits(t)} {bits(p)} conductivity" for t, p in pairs])
        ts, ps = (column(list(xs)) for xs in zip(*pairs))
        self.compare(f"states() and again, seed {SEED}", pairs, places(makhroeng.states(ts, ps)), right)

    @with_again
    def test_single_by_pressure(self) -> None:
        chance = random.Random(SEED + 1)
        pairs = [asked(chance, "p") for _ in range(SINGLE)]
        right = again([f"P {bits(t)} {bits(p)} conductivity" for t, p in pairs])
        self.compare("state(T, p) and again", pairs, [state_or_refusal(T=t, p=p) for t, p in pairs], right)

    @with_again
    def test_single_by_density(self) -> None:
        chance = random.Random(SEED + 2)
        pairs = [asked(chance, "rho") for _ in range(SINGLE)]
        right = again([f"D {bits(t)} {bits(rho)} conductivity" for t, rho in pairs])
        self.compare("state(T, rho) and again", pairs, [state_or_refusal(T=t, rho=rho) for t, rho in pairs], right)

    @with_again
    def test_saturation(self) -> None:
        chance = random.Random(SEED + 3)
        ts = [asked(chance, "p")[0] if chance.randrange(2) else chance.uniform(216.5, 304.2) for _ in range(SINGLE)]

        def found(t: float) -> tuple[Any, ...]:
            try:
                kept, *three = makhroeng.saturation(t)
            except makhroeng.Refused as refused:
                return (refused.number,)
            self.assertEqual(kept, t)
            return tuple(map(bits, three))

        self.compare("saturation() and again", ts, [found(t) for t in ts], again([f"S {bits(t)}" for t in ts]))

    def test_in_python(self) -> None:
        """crosscheck/*.py takes 60 ms a state by pressure and more, so that there are few of these."""
        sys.dont_write_bytecode = True
        sys.path.insert(0, str(ROOT / "crosscheck"))
        import doors

        def right(door: Any, t: float, x: float) -> tuple[Any, ...]:
            try:
                phase, eight, fallen, conductivity = doors.asked(door)(t, x)
            except doors.Refusal as refused:
                return (refused.args[0],)
            return (phase, *map(bits, eight), bits(float(fallen)), bits(conductivity))

        def few(part: int, most: int) -> int:
            return min(max(STATES // part, 1), most)

        chance = random.Random(SEED + 4)
        for name, door, count in (("p", doors.by_pressure, few(1000, 30)), ("rho", doors.by_density, few(100, 300))):
            pairs = [asked(chance, name) for _ in range(count)]
            found = [state_or_refusal(**{"T": t, name: x}) for t, x in pairs]
            self.compare(f"state(T, {name}) and crosscheck/doors.py", pairs, found, [right(door, t, x) for t, x in pairs])


if __name__ == "__main__":
    unittest.main()
