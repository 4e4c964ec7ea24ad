"""What the library answers, and how it refuses."""
from __future__ import annotations

import enum
import operator
from typing import NamedTuple, SupportsIndex

from makhroeng import _library
from makhroeng._numbers import Codes, Floats


class Phase(enum.IntEnum):
    """The phase of a state, by the library's number for it. As text it is its word: 'vapour', 'liquid' or 'supercritical'."""

    VAPOUR = 256
    LIQUID = 257
    SUPERCRITICAL = 258

    def __str__(self) -> str:
        return self.name.lower()

    def __format__(self, spec: str) -> str:
        return format(str(self), spec)


class State(NamedTuple):
    """A state of carbon dioxide, with all that it carries.

    phase         Phase.VAPOUR, Phase.LIQUID or Phase.SUPERCRITICAL
    T             K        temperature, as asked
    p             Pa       pressure, absolute, as worked at this temperature and density
    rho           kg/m3    density
    u             J/kg     energy
    h             J/kg     enthalpy
    cv            J/(kg K) heat capacity at constant volume
    cp            J/(kg K) heat capacity at constant pressure
    w             m/s      speed of sound
    fallen                 how many of the equation's 42 terms fell away
    conductivity  W/(m K)  thermal conductivity; from 294 to 314 K its authors don't vouch for it (README)
    """

    phase: Phase
    T: float
    p: float
    rho: float
    u: float
    h: float
    cv: float
    cp: float
    w: float
    fallen: int
    conductivity: float


class States(NamedTuple):
    """Many states, each field a column: numpy arrays of the shape asked for, or, without numpy, array.array.

    phase         the numbers of Phase; 0 where the place was refused
    T .. conductivity   float64, in the units of State, `fallen` too; NaN, all ten, where the place was refused
    refused       the refusal's number; 0 where the place was answered. Refused(number).words says what it means
    """

    phase: Codes
    T: Floats
    p: Floats
    rho: Floats
    u: Floats
    h: Floats
    cv: Floats
    cp: Floats
    w: Floats
    fallen: Floats
    conductivity: Floats
    refused: Codes


class Saturation(NamedTuple):
    """Where liquid and vapour stand together.

    T           K      temperature, as asked
    p           Pa     vapour pressure
    rho_vapour  kg/m3  density of the saturated vapour
    rho_liquid  kg/m3  density of the saturated liquid
    """

    T: float
    p: float
    rho_vapour: float
    rho_liquid: float


class Refused(ValueError):
    """The library does not answer, and says why.

    number  the refusal's number (README's table; RULES 3.1)
    words   the library's own words: what it says, and what to do
    says    the first part of them
    todo    the second

    The words are for whoever fills in a sheet, and speak of its units: where they say "times 10,000" it is the sheet's 0.1 mK, while T is in K here.

    >>> Refused(19).says
    'Solid: dry ice and no agent that flows'
    """

    def __init__(self, number: SupportsIndex) -> None:
        super().__init__(int(operator.index(number)))  # its one argument, by which it is pickled
        if not self.words:
            raise ValueError(f"no refusal has the number {self.number}")

    @property
    def number(self) -> int:
        number: int = self.args[0]
        return number

    @property
    def words(self) -> str:
        return _library.words(self.number)

    # RULES 14.1: up to the first full stop with a space after it, and then what to do

    @property
    def says(self) -> str:
        return self.words.partition(". ")[0]

    @property
    def todo(self) -> str:
        return self.words.partition(". ")[2]

    def __str__(self) -> str:
        return f"refused by {self.number}. {self.words}"
