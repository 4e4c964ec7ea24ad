"""What the tests share. They run in the repository's root, with the package as it is installed."""
from __future__ import annotations

import os
import struct
import unittest
from pathlib import Path
from typing import Any

import makhroeng

try:
    import numpy
except ModuleNotFoundError:
    numpy = None

ROOT = Path(__file__).parents[2]
README = (ROOT / "README.md").read_text(encoding="utf-8")
HEADER = (ROOT / "include/makhroeng.h").read_text(encoding="utf-8")
# the second implementation, as python/check built it, and how many states are compared with it
AGAIN = os.environ.get("AGAIN", "")
STATES = int(os.environ.get("STATES", "100000"))

FIGURES = makhroeng.State._fields[1:]
INF, NAN = float("inf"), float("nan")
with_numpy = unittest.skipIf(numpy is None, "no numpy")
with_again = unittest.skipIf(not AGAIN, "no second implementation")


def bits(x: float) -> str:
    return struct.pack(">d", x).hex()


def number(hexadecimal: str) -> float:
    return struct.unpack(">d", bytes.fromhex(hexadecimal))[0]


def state_or_refusal(**asked: float) -> tuple[Any, ...]:
    """What state() answers, its floats by their bits, or the number it is refused by."""
    try:
        phase, *figures = makhroeng.state(**asked)
    except makhroeng.Refused as refused:
        return (refused.number,)
    return (str(phase), *(bits(float(x)) for x in figures))


def places(found: makhroeng.States) -> list[tuple[Any, ...]]:
    """The same of each place of what states() gives."""
    flat = [column.reshape(-1).tolist() if numpy is not None else column.tolist() for column in found]
    told: list[tuple[Any, ...]] = []
    for phase, *figures, refused in zip(*flat):
        if refused:
            told.append((refused,) if phase == 0 and all(x != x for x in figures) else (refused, phase, *figures))
        else:
            told.append((str(makhroeng.Phase(phase)), *map(bits, figures)))
    return told


def column(values: list[float], typecode: str = "d") -> Any:
    """An array as the one who calls would have it: numpy's, or array.array."""
    if numpy is not None:
        return numpy.array(values, dtype=typecode)
    from array import array

    return array(typecode, values)
