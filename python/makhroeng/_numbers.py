"""What is taken as a number (RULES 16). A blank never is: None, a masked place, a bool and a text are each a TypeError that names the place, and so is whatever
else is neither a float nor an int, since its worth as a float would be a guess."""
from __future__ import annotations

import sys
from array import array
from collections.abc import Callable, Sequence
from typing import TYPE_CHECKING, Any, Union

if TYPE_CHECKING:
    import numpy as np
    from numpy.typing import NDArray

    Number = Union[float, np.floating[Any], np.integer[Any]]
    Numbers = Union[Number, Sequence[Number], NDArray[np.floating[Any]], NDArray[np.integer[Any]]]
    Floats = NDArray[np.float64]
    Codes = NDArray[np.uint32]
else:
    Number = Numbers = Floats = Codes = Any  # a column is numpy's where it is there, else array.array's

WHOLE = 2**53  # up to here every int is a float
NO_SEQUENCE_OF_NUMBERS = (str, bytes, bytearray, memoryview)
ONE = "a float or an int"
MANY = "a number, a flat sequence of numbers or one of numpy's own arrays"


def no_number(place: str, x: object, wanted: str = ONE) -> TypeError:
    if x is None:
        return TypeError(f"{place} is None: a blank is never read as a number")
    return TypeError(f"{place} is of type {type(x).__name__}: {wanted} is wanted")


def too_large(place: str) -> ValueError:
    return ValueError(f"{place} is an int beyond 2**53 on either side of 0: not every one is a float")


def number(place: str, x: object, wanted: str = ONE) -> float:
    """x as a float. An int is taken up to 2**53, numpy's numbers where a float64 is each of their values. Of a subclass it is the value that it holds,
    whatever it would say of itself."""
    if isinstance(x, float):
        return float.__float__(x)
    held = x if isinstance(x, int) else _pythons(x)
    if isinstance(held, float):
        return held
    if not isinstance(held, int) or isinstance(held, bool):
        raise no_number(place, x, wanted)
    whole = int.__int__(held)
    if not -WHOLE <= whole <= WHOLE:
        raise too_large(place)
    return float(whole)


def _pythons(x: object) -> object:
    """One of numpy's numbers as Python's. Whoever has one has loaded numpy."""
    generic: Any = getattr(sys.modules.get("numpy"), "generic", ())
    own: Any = x
    return generic.item(own) if isinstance(own, generic) and is_number(own.dtype) else own


def is_number(dtype: Any) -> bool:
    """Whether a float64 is each of the values, the ints up to 2**53."""
    return dtype.kind in "iu" or (dtype.kind == "f" and dtype.itemsize <= 8)


def is_sequence(x: object) -> bool:
    return isinstance(x, (Sequence, array)) and not isinstance(x, NO_SEQUENCE_OF_NUMBERS)  # Python 3.9 doesn't count array among the sequences


def sequence(name: str, xs: Sequence[object]) -> array[float]:
    """The numbers of a sequence, in an array of our own."""
    held = tuple(xs)
    if set(map(type, held)) <= {float}:
        return array("d", held)  # type: ignore[arg-type]
    return array("d", [number(f"{name}[{i}]", x) for i, x in enumerate(held)])


# ---- numpy's arrays


def numpys(np: Any, name: str, xs: Any) -> Floats:
    """An array's numbers, in one of our own: C order, float64. Somebody else may write to theirs meanwhile, so that what is looked at is the copy."""
    masked = isinstance(xs, np.ma.MaskedArray)
    data = np.ma.getdata(xs) if masked else xs
    # another kind of array may carry a unit, or a blank in its own way
    if type(data) not in (np.ndarray, np.memmap):
        raise no_number(name, data, MANY)
    if data.dtype.kind != "O" and not is_number(data.dtype):
        raise TypeError(f"{name} is an array of {data.dtype}: one of floats or ints is wanted")

    def none_masked() -> None:
        if masked:
            _none(np, name, np.array(np.ma.getmaskarray(xs)), lambda place: TypeError(f"{place} is masked: a blank is never read as a number"))

    none_masked()
    if data.dtype.kind == "O":
        flat = [number(_place(name, i), data[i]) for i in np.ndindex(data.shape)]
        held = np.array(flat, dtype=np.float64).reshape(data.shape)
    else:
        held = np.array(data, order="C")
    none_masked()  # nor was one while its number was copied
    if held.dtype.kind in "iu" and held.dtype.itemsize == 8:
        _none(np, name, (held > WHOLE) | (held < -WHOLE) if held.dtype.kind == "i" else held > WHOLE, too_large)
    with np.errstate(all="ignore"):  # a NaN that signals is the library's to refuse
        floats: Floats = held.astype(np.float64, copy=False)
    return floats


def _none(np: Any, name: str, wrong: Any, error: Callable[[str], Exception]) -> None:
    if wrong.any():
        raise error(_place(name, np.unravel_index(int(np.argmax(wrong)), wrong.shape)))


def _place(name: str, index: Sequence[int]) -> str:
    return f"{name}[{', '.join(str(int(i)) for i in index)}]" if len(index) else name
