"""The shared library that stands beside this file: loaded, held to the version it was built for, and its functions with the types that
include/makhroeng.h gives them. ctypes lets go of Python's lock while one of them works, and nothing is kept between calls (RULES 12)."""
from __future__ import annotations

import ctypes
from pathlib import Path
from typing import Any

try:
    from makhroeng._built import VERSION as VERSION
except ModuleNotFoundError as missing:
    raise ImportError("these are makhroeng's sources: python/build makes the package of them, to be installed by pip") from missing

FIGURES = 10  # that a state carries, the conductivity among them
TOO_SHORT = 15
ANSWERED = 256  # what is below is a refusal's number
WORKED = 260
LONGEST_REPORT = 1512
LONGEST_WORDS = 512


def dotted(version: int) -> str:
    return f"{version // 10000}.{version // 100 % 100}.{version % 100}"


def _loaded(path: Path) -> ctypes.CDLL:
    def stop(why: object) -> ImportError:
        return ImportError(f"makhroeng {dotted(VERSION)} can't be used with {path}: {why}", name="makhroeng", path=str(path))

    def bind(name: str, gives: Any, *takes: Any) -> Any:
        function = getattr(library, f"makhroeng_{name}")
        function.restype, function.argtypes = gives, takes
        return function

    answer, length, size = ctypes.c_uint32, ctypes.c_uint64, ctypes.c_size_t
    double, doubles, chars = ctypes.c_double, ctypes.POINTER(ctypes.c_double), ctypes.c_char_p
    # of arrays the address is given: ctypes has a type for each length, and need not make it
    array = (ctypes.c_void_p, size)
    try:
        library = ctypes.CDLL(str(path))
        found = int(bind("version", ctypes.c_uint32)())  # first: another version may have other functions
        if found != VERSION:
            raise stop(f"that library is of version {dotted(found)}")
        bind("state_from_pressure", answer, double, double, doubles, size)
        bind("state_from_density", answer, double, double, doubles, size)
        bind("states_from_pressure", answer, *array * 4)
        bind("saturation", answer, double, doubles, size)
        bind("report", length, chars, size, chars, size)
        bind("words", length, ctypes.c_uint32, chars, size)
    except (OSError, AttributeError) as error:
        raise stop(error) from error
    return library


# by the name that programs are linked with, and not by one that ends in .so: help() would take it for a module of Python's
LIBRARY = _loaded(Path(__file__).with_name(f"libmakhroeng.so.{VERSION // 10000}"))


def words(number: int) -> str:
    """The words of a refusal (RULES 14.1); none for another number."""
    if not 0 <= number < ANSWERED:  # ctypes would take the number's last 32 bits
        return ""
    out = ctypes.create_string_buffer(LONGEST_WORDS)
    length: int = LIBRARY.makhroeng_words(number, out, LONGEST_WORDS)  # before out.raw, which copies
    return out.raw[:length].decode("ascii")
