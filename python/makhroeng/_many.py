"""Many states by one call of the library (RULES 12 and 16), which then works without Python's lock."""
from __future__ import annotations

import ctypes
import functools
from array import array
from typing import Any

from makhroeng._answers import Refused, States
from makhroeng._library import ANSWERED, FIGURES, LIBRARY, WORKED
from makhroeng._numbers import MANY, Numbers, is_sequence, number, numpys, sequence

NAN = float("nan")
_SOMEWHERE = ctypes.c_double()  # what an empty array points to: no pointer may be null


@functools.cache
def _numpy() -> Any:
    """numpy, or None where there is none. Loaded when it is first wanted, and one that is there but broken says so."""
    try:
        import numpy
    except ModuleNotFoundError as missing:
        if missing.name != "numpy":
            raise
        return None
    return numpy


def states(T: Numbers, p: Numbers) -> States:
    """The states at temperatures T, in K, and absolute pressures p, in Pa, place by place; one of the two may be a single number, which then
    stands at every place. Nothing is raised for a place that is refused: its figures are NaN, and `refused` has the number.

    >>> found = states([293.15, 253.15, 200.0], 2.5e6)
    >>> found.phase.tolist(), found.refused.tolist()
    ([256, 257, 0], [0, 0, 4])
    >>> [f"{x:.6f}" for x in found.conductivity]
    ['0.018447', '0.133759', 'nan']
    >>> states([313.15, None], 2.5e6)
    Traceback (most recent call last):
    TypeError: T[1] is None: a blank is never read as a number

    Taken are numpy's arrays, of any shape and of floats or ints, array.array and flat sequences; two arrays of the same shape, since only a single
    number, or an array without a dimension, is spread. What comes back is numpy's where numpy is there, else array.array. All is worked in one call,
    without Python's lock, at some 20 us a state: threads that take a slice each work side by side. It can't be interrupted.
    """
    np = _numpy()
    if np is not None:
        return _by_numpy(np, T, p)
    return _by_arrays(T, p)


def _by_numpy(np: Any, T: Numbers, p: Numbers) -> States:
    def taken(name: str, x: Any) -> Any:
        if is_sequence(x):
            return np.array(sequence(name, x), dtype=np.float64)
        if isinstance(x, np.ndarray):
            return numpys(np, name, x)
        return number(name, x, MANY)

    def spread(x: Any, shape: tuple[int, ...]) -> Any:
        return x if np.shape(x) else np.full(shape, x, dtype=np.float64)

    temperatures, pressures = taken("T", T), taken("p", p)
    shape = _shape(getattr(temperatures, "shape", None), getattr(pressures, "shape", None))
    temperatures, pressures = spread(temperatures, shape), spread(pressures, shape)
    count = temperatures.size
    answers = np.zeros(count, dtype=np.uint32)
    figures = np.full((count, FIGURES), NAN)
    _work(count, *(x.ctypes.data for x in (temperatures, pressures, answers, figures)))
    refused = np.where(answers < ANSWERED, answers, np.uint32(0))
    columns = np.ascontiguousarray(figures.T)
    return States._make(column.reshape(shape) for column in (answers - refused, *columns, refused))


def _by_arrays(T: Numbers, p: Numbers) -> States:
    def taken(name: str, x: Any) -> Any:
        return sequence(name, x) if is_sequence(x) else number(name, x, MANY)

    def length(x: Any) -> Any:
        return (len(x),) if isinstance(x, array) else None

    temperatures, pressures = taken("T", T), taken("p", p)
    (count,) = _shape(length(temperatures), length(pressures))
    temperatures, pressures = (x if isinstance(x, array) else array("d", [x]) * count for x in (temperatures, pressures))
    answers = array("I", [0]) * count
    figures = array("d", [NAN]) * (FIGURES * count)
    _work(count, *(x.buffer_info()[0] for x in (temperatures, pressures, answers, figures)))
    refused = array("I", [answer if answer < ANSWERED else 0 for answer in answers])
    phase = array("I", [answer if answer >= ANSWERED else 0 for answer in answers])
    return States._make((phase, *(figures[i::FIGURES] for i in range(FIGURES)), refused))


def _shape(of_temperatures: Any, of_pressures: Any) -> tuple[int, ...]:
    """The shape of both. A single number has none, and numpy's array without a dimension is one as well."""
    if of_temperatures is None and of_pressures is None:
        raise TypeError("states() takes arrays, and T and p are a number each: state() is for one state")
    if of_temperatures and of_pressures and of_temperatures != of_pressures:
        raise ValueError(f"the lengths don't fit: T has the shape {of_temperatures}, and p {of_pressures}")
    return of_temperatures or of_pressures or ()


def _work(count: int, *addresses: int) -> None:
    """Lends temperatures, pressures, answers and figures, by their addresses, for `count` states."""
    if count == 0:
        addresses = (ctypes.addressof(_SOMEWHERE),) * 4
    temperatures, pressures, answers, figures = addresses
    worked: int = LIBRARY.makhroeng_states_from_pressure(temperatures, count, pressures, count, answers, count, figures, FIGURES * count)
    if worked != WORKED:
        raise Refused(worked)
