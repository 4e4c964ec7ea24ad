"""One call of the library each."""
from __future__ import annotations

import ctypes
from typing import Any, Union, overload

from makhroeng._answers import Phase, Refused, Saturation, State
from makhroeng._library import ANSWERED, FIGURES, LIBRARY, LONGEST_REPORT, TOO_SHORT, dotted
from makhroeng._numbers import Number, number


class _NotGiven:
    """What stands for a word that was left out: None would be a blank."""

    def __repr__(self) -> str:
        return "not given"


_NOT_GIVEN: Any = _NotGiven()
_PHASES = {phase.value: phase for phase in Phase}
_FIGURES = ctypes.c_double * FIGURES
_THREE = ctypes.c_double * 3


@overload
def state(*, T: Number, p: Number) -> State: ...


@overload
def state(*, T: Number, rho: Number) -> State: ...


def state(*, T: Number, p: Number = _NOT_GIVEN, rho: Number = _NOT_GIVEN) -> State:
    """The state at T, in K, and either the pressure p, in Pa and absolute, or the density rho, in kg/m3; raises Refused where there is none.

    >>> s = state(T=313.15, p=10e6)
    >>> f"{s.phase}, {s.rho:.6f} kg/m3, {s.w:.3f} m/s"
    'supercritical, 628.611562 kg/m3, 269.890 m/s'
    >>> state(T=313.15, rho=s.rho) == s
    True
    >>> state(T=253.15, p=None)
    Traceback (most recent call last):
    TypeError: p is None: a blank is never read as a number

    A float may be infinite or NaN, which the library refuses by 3. An int is taken up to 2**53, where each is a float.
    """
    if (p is _NOT_GIVEN) == (rho is _NOT_GIVEN):
        raise TypeError(f"state() takes T and either p or rho, and {'neither is' if p is _NOT_GIVEN else 'both are'} given")
    figures = _FIGURES()
    answer: int
    if rho is _NOT_GIVEN:
        answer = LIBRARY.makhroeng_state_from_pressure(number("T", T), number("p", p), figures, FIGURES)
    else:
        answer = LIBRARY.makhroeng_state_from_density(number("T", T), number("rho", rho), figures, FIGURES)
    if answer < ANSWERED:
        raise Refused(answer)
    *eight, fallen, conductivity = figures[:]  # one copy is quicker than ten looks
    return State._make((_PHASES[answer], *eight, int(fallen), conductivity))


def saturation(T: Number) -> Saturation:
    """The vapour pressure and the saturated densities at T, in K: a cylinder that holds both liquid and vapour shows this pressure, however much it
    holds. Raises Refused, by 4 from the critical temperature on.

    >>> s = saturation(293.15)
    >>> f"{s.p / 1e5:.2f} bar, {s.rho_vapour:.1f} and {s.rho_liquid:.1f} kg/m3"
    '57.29 bar, 194.2 and 773.4 kg/m3'
    """
    figures = _THREE()
    temperature = number("T", T)
    answer: int = LIBRARY.makhroeng_saturation(temperature, figures, 3)
    if answer < ANSWERED:
        raise Refused(answer)
    return Saturation(temperature, *figures)


def report(sheet: Union[bytes, bytearray, memoryview]) -> bytes:
    r"""The report of a sheet's bytes, whatever bytes these are; nothing is raised for what is in them.

    >>> report(b"N 40000000\nC 1 3131500 P 10600000 67500\n")
    b'L 1 M 44909480\nTOTAL 44909480 COVERED\n'

    A text is a TypeError: its line ends may have been changed on the way. Path(name).read_bytes() has a file's own.
    """
    if not isinstance(sheet, (bytes, bytearray, memoryview)):
        raise TypeError(f"report() takes a sheet's bytes, as Path(name).read_bytes() gives them, and not a {type(sheet).__name__}")
    if isinstance(sheet, memoryview) and sheet.itemsize != 1:
        raise TypeError(f"report() takes bytes, and this memoryview is of items of {sheet.itemsize}")
    # a copy: nobody else can write to it, or let go of it, while the library reads. By memoryview: what a subclass holds, whatever it would say of itself
    text = bytes(memoryview(sheet))
    out = ctypes.create_string_buffer(LONGEST_REPORT)
    length: int = LIBRARY.makhroeng_report(text, len(text), out, LONGEST_REPORT)  # before out.raw, which copies
    if length == 0:
        raise Refused(TOO_SHORT)
    return out.raw[:length]


def version() -> str:
    """The library's version; the package has the same, or it would not have been loaded."""
    return dotted(LIBRARY.makhroeng_version())
