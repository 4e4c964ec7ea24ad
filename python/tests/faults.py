"""faults.py PYTHON..: plants each fault below in a copy of the package and runs the tests with it, in one environment after the other until one finds it.
Each must be found, and the copy without a fault must pass; tests that don't end find nothing. Ends with `N faults, 0 not found`."""
from __future__ import annotations

import os
import shutil
import subprocess
import sys
import tempfile
from pathlib import Path

# what is wrong; the file; what stands there once; what is put in its place
FAULTS = [
    ("figures in another order", "_answers.py", "    u: float\n    h: float\n", "    h: float\n    u: float\n"),
    ("count and conductivity exchanged", "_calls.py", "*eight, fallen, conductivity = figures[:]", "*eight, conductivity, fallen = figures[:]"),
    ("numpy: columns taken for rows", "_many.py", "np.ascontiguousarray(figures.T)", "figures.reshape(FIGURES, count)"),
    ("arrays: columns taken for rows", "_many.py", "figures[i::FIGURES]", "figures[i * count:(i + 1) * count]"),
    ("numpy: NaN not filled in", "_many.py", "np.full((count, FIGURES), NAN)", "np.zeros((count, FIGURES))"),
    ("arrays: NaN not filled in", "_many.py", 'array("d", [NAN])', 'array("d", [0.0])'),
    ("None as 0", "_numbers.py", "    if isinstance(x, float):\n", "    if x is None:\n        return 0.0\n    if isinstance(x, float):\n"),
    ("None as NaN", "_numbers.py", "    if isinstance(x, float):\n", '    if x is None:\n        return float("nan")\n    if isinstance(x, float):\n'),
    ("numpy: None in an array as NaN", "_numbers.py", "number(_place(name, i), data[i])",
     'float("nan") if data[i] is None else number(_place(name, i), data[i])'),
    ("a masked place read", "_numbers.py", "    if wrong.any():\n", "    if wrong.any() and error is too_large:\n"),
    ("numpy: masked ints read", "_numbers.py", "        if masked:\n", '        if masked and data.dtype.kind not in "iu":\n'),
    ("numpy: masked objects read", "_numbers.py", "        if masked:\n", '        if masked and data.dtype.kind != "O":\n'),
    ("numpy: masked before it is known to be of numbers", "_numbers.py", "    masked = isinstance(xs, np.ma.MaskedArray)\n",
     "    masked = isinstance(xs, np.ma.MaskedArray)\n    if masked:\n"
     "        _none(np, name, np.ma.getmaskarray(xs), lambda place: TypeError(f'{place} is masked: a blank is never read as a number'))\n"),
    ("numpy: a mask looked at before the copy only", "_numbers.py", "    none_masked()  # nor was one while its number was copied\n", ""),
    ("numpy: a mask looked at after the copy only", "_numbers.py", '    none_masked()\n    if data.dtype.kind == "O":\n', '    if data.dtype.kind == "O":\n'),
    ("numpy: ints looked at and then copied", "_numbers.py", '        held = np.array(data, order="C")\n',
     '        if data.dtype.kind in "iu" and data.dtype.itemsize == 8:\n            _none(np, name, abs(data) > WHOLE, too_large)\n'
     '        held = np.array(data, dtype=np.float64, order="C")\n'),
    ("True as 1", "_numbers.py", "if not isinstance(held, int) or isinstance(held, bool):", "if not isinstance(held, int):"),
    ("a text read", "_numbers.py", "    if isinstance(x, float):\n", "    if isinstance(x, (float, str)):\n"),
    ("bytes as a sequence of numbers", "_numbers.py", "(str, bytes, bytearray, memoryview)", "(str, memoryview)"),
    ("what has a __float__ taken", "_numbers.py", "        raise no_number(place, x, wanted)\n", "        return float(x)\n"),
    ("a float asked what it is", "_numbers.py", "return float.__float__(x)", "return float(x)"),
    ("an int asked what it is", "_numbers.py", "return float(whole)", "return float(held)"),
    ("an int asked whether it is small", "_numbers.py", "if not -WHOLE <= whole <= WHOLE:", "if not -WHOLE <= held <= WHOLE:"),
    ("numpy: a number asked what it is", "_numbers.py", "return generic.item(own) if", "return float(own) if"),
    ("bytes asked what they are", "_calls.py", "bytes(memoryview(sheet))", "bytes(sheet)"),
    ("numpy: what carries an array taken", "_many.py", "if isinstance(x, np.ndarray):",
     'if hasattr(x, "__array__") and not isinstance(x, (np.ndarray, np.generic)):\n            x = np.asarray(x)\n        if isinstance(x, np.ndarray):'),
    ("numpy: a span of time taken for a number", "_numbers.py", 'return dtype.kind in "iu" or', 'return dtype.kind in "ium" or'),
    ("numpy: wider floats rounded", "_numbers.py", "dtype.itemsize <= 8)", "dtype.itemsize <= 16)"),
    ("numpy: small floats and ints refused", "_numbers.py", 'return dtype.kind in "iu" or (dtype.kind == "f" and',
     'return (dtype.kind in "iu" and dtype.itemsize > 2) or (dtype.kind == "f" and 2 < dtype.itemsize and'),
    ("numpy: int8 refused", "_numbers.py", 'return dtype.kind in "iu" or', 'return (dtype.kind in "iu" and dtype.itemsize > 1) or'),
    ("numpy: memmap refused", "_numbers.py", "(np.ndarray, np.memmap)", "(np.ndarray,)"),
    ("numpy: objects in memory's order", "_numbers.py", "[number(_place(name, i), data[i]) for i in np.ndindex(data.shape)]",
     '[number(_place(name, i), x) for i, x in zip(np.ndindex(data.shape), data.ravel(order="K"))]'),
    ("numpy: a NaN that signals raised", "_numbers.py", 'with np.errstate(all="ignore"):', "if True:"),
    ("numpy: an array without a dimension not spread", "_many.py", "if of_temperatures and of_pressures and",
     "if of_temperatures is not None and of_pressures is not None and"),
    ("numpy: a broken one taken for none", "_many.py", '        if missing.name != "numpy":\n            raise\n', ""),
    ("numpy: one that can't be loaded taken for none", "_many.py",
     '    except ModuleNotFoundError as missing:\n        if missing.name != "numpy":\n            raise\n', "    except ImportError:\n"),
    ("arrays and sequences not spoken of", "_many.py", "        return number(name, x, MANY)\n", "        return number(name, x)\n"),
    ("ints rounded", "_numbers.py", "WHOLE = 2**53 ", "WHOLE = 2**60 "),
    ("numpy: ints of arrays rounded", "_numbers.py", "held.dtype.itemsize == 8:", "held.dtype.itemsize == 16:"),
    ("numpy: ints of other byte orders rounded", "_numbers.py", "held.dtype.itemsize == 8:", "held.dtype.itemsize == 8 and held.dtype.isnative:"),
    ("numpy: negative ints of arrays rounded", "_numbers.py", "(held > WHOLE) | (held < -WHOLE)", "(held > WHOLE)"),
    ("numpy: 2**53 of arrays refused", "_numbers.py", "(held > WHOLE) |", "(held >= WHOLE) |"),
    ("numpy: -2**53 of arrays refused", "_numbers.py", "| (held < -WHOLE)", "| (held <= -WHOLE)"),
    ("numpy: 2**53 of arrays without signs refused", "_numbers.py", "else held > WHOLE", "else held >= WHOLE"),
    ("2**53 refused", "_numbers.py", "if not -WHOLE <= whole <= WHOLE:", "if not -WHOLE < whole < WHOLE:"),
    ("lengths unchecked", "_many.py", "of_temperatures != of_pressures:", "False:"),
    ("numpy: shapes of one size taken for the same", "_many.py", "of_temperatures != of_pressures:",
     "__import__('math').prod(of_temperatures) != __import__('math').prod(of_pressures):"),
    ("arrays: one number not spread", "_many.py", 'else array("d", [x]) * count for', 'else array("d", [x, 0.0] * count) for'),
    ("numpy: a refusal's number as the phase", "_many.py", "(answers - refused, *columns, refused)", "(answers, *columns, refused)"),
    ("arrays: a refusal's number as the phase", "_many.py", "[answer if answer >= ANSWERED else 0 for answer in answers]", "answers"),
    ("numpy: vapour taken for a refusal", "_many.py", "np.where(answers < ANSWERED", "np.where(answers <= ANSWERED"),
    ("numpy: arrays with gaps read without them", "_numbers.py", 'np.array(data, order="C")', "data"),
    ("numpy: Fortran's order kept", "_numbers.py", 'np.array(data, order="C")', "np.array(data)"),
    ("numpy: no copy", "_numbers.py", 'np.array(data, order="C")', "np.ascontiguousarray(data).reshape(data.shape)"),
    ("numpy: other types not made float64", "_numbers.py", "held.astype(np.float64, copy=False)",
     "held if held.dtype.itemsize == 8 else held.astype(np.float64, copy=False)"),
    ("many: temperatures and pressures exchanged", "_many.py", "(temperatures, count, pressures, count,", "(pressures, count, temperatures, count,"),
    ("one: temperature and pressure exchanged", "_calls.py", 'number("T", T), number("p", p), figures', 'number("p", p), number("T", T), figures'),
    ("a density taken for a pressure", "_calls.py", "LIBRARY.makhroeng_state_from_density(", "LIBRARY.makhroeng_state_from_pressure("),
    ("a null pointer for an empty array", "_many.py", "    if count == 0:\n", "    if count < 0:\n"),
    ("vapour and liquid exchanged", "_calls.py", "Saturation(temperature, *figures)", "Saturation(temperature, figures[0], *figures[:0:-1])"),
    ("the report copied before the call", "_calls.py",
     "    length: int = LIBRARY.makhroeng_report(text, len(text), out, LONGEST_REPORT)  # before out.raw, which copies\n",
     "    raw = out.raw\n    length: int = LIBRARY.makhroeng_report(text, len(text), out, LONGEST_REPORT)\n    return raw[:length]\n"),
    ("no report as an empty one", "_calls.py", "    if length == 0:\n", "    if length < 0:\n"),
    ("bytes not copied", "_calls.py", "    text = bytes(memoryview(sheet))\n",
     "    view = memoryview(sheet)\n    text = bytes(view) if view.readonly or not view.contiguous else (ctypes.c_char * len(sheet)).from_buffer(sheet)\n"),
    ("items of 2 bytes as bytes", "_calls.py", "sheet.itemsize != 1:", "sheet.itemsize not in (1, 2):"),
    ("items of 4 bytes as bytes", "_calls.py", "sheet.itemsize != 1:", "sheet.itemsize not in (1, 4):"),
    ("words copied before the call", "_library.py",
     "    length: int = LIBRARY.makhroeng_words(number, out, LONGEST_WORDS)  # before out.raw, which copies\n    return out.raw[:length].decode",
     "    return out.raw[:LIBRARY.makhroeng_words(number, out, LONGEST_WORDS)].decode"),
    ("a blank's place one too far", "_numbers.py", "for i, x in enumerate(held)", "for i, x in enumerate(held, 1)"),
    ("the report ends at a 0", "_calls.py", "(text, len(text), out,", '(text, len(text.partition(b"\\0")[0]), out,'),
    ("a text scored", "_calls.py", "    if not isinstance(sheet, (bytes, bytearray, memoryview)):\n",
     "    if isinstance(sheet, str):\n        sheet = sheet.encode()\n    if not isinstance(sheet, (bytes, bytearray, memoryview)):\n"),
    ("too little lent for a report", "_library.py", "LONGEST_REPORT = 1512", "LONGEST_REPORT = 640"),
    ("too little lent for words", "_library.py", "LONGEST_WORDS = 512", "LONGEST_WORDS = 256"),
    ("words cut at the last full stop", "_answers.py", 'self.words.partition(". ")[2]', 'self.words.rpartition(". ")[2]'),
    ("a refusal that can't be unpickled", "_answers.py", "super().__init__(int(operator.index(number)))",
     "super().__init__(int(operator.index(number)), None)"),
    ("a refusal's number written to", "_answers.py", "    @property\n    def number(self) -> int:\n        number: int = self.args[0]\n        return number\n",
     "    number = property(lambda self: self.args[0], lambda self, number: setattr(self, 'args', (number,)))\n"),
    ("any library taken", "_library.py", "if found != VERSION:", "if found > VERSION + 100:"),
    ("an older library taken", "_library.py", "if found != VERSION:", "if found > VERSION:"),
    ("a newer library taken", "_library.py", "if found != VERSION:", "if found < VERSION:"),
    ("a library of another third number taken", "_library.py", "if found != VERSION:", "if found // 100 != VERSION // 100:"),
    ("the version asked last", "_library.py", "        found = int(", '        bind("words", length, ctypes.c_uint32, chars, size)\n        found = int('),
    ("a class that isn't found", "__init__.py", "__version__ =", 'State.__module__ = "makhroeng"\n__version__ ='),
    ("types that aren't found", "__init__.py", "__version__ =", 'States.__module__ = "makhroeng"\n__version__ ='),
    ("no units for many", "_answers.py", "in the units of State, ", ""),
    ("another unit for saturation", "_answers.py", "    p           Pa     vapour pressure", "    p           bar    vapour pressure"),
    ("figures kept between calls", "_calls.py", "    figures = _FIGURES()\n", '    figures = state.__dict__.setdefault("kept", _FIGURES())\n'),
    ("Python's lock held", "_library.py", "ctypes.CDLL(str(path))", "ctypes.PyDLL(str(path))"),
]


def run(python: str, package: Path) -> tuple[bool, str]:
    """Whether no test fails with this copy, and which failed first."""
    environ = {**os.environ, "PYTHONPATH": str(package.parent), "STATES": "1000", "FAILFAST": "1"}
    try:
        done = subprocess.run([python, "-B", "python/tests/run.py"], env=environ, capture_output=True, text=True, timeout=300)
    except subprocess.TimeoutExpired:
        return True, "it did not end in 300 s"  # as a busy machine may do it without a fault
    said = done.stdout.splitlines()
    if done.returncode == 0 and said and said[-1].endswith(" passed, 0 failed"):
        return True, said[-1]
    return False, next((line.split(": ")[1] for line in said if line.startswith("FAILED: ")), f"it ended with status {done.returncode}")


def main() -> None:
    pythons = sys.argv[:0:-1]  # the last first: that with numpy, which tries more
    import makhroeng

    whole = Path(makhroeng.__file__).parent
    missed = 0
    for _, file, old, _ in FAULTS:
        if (whole / file).read_text().count(old) != 1:
            sys.exit(f"faults.py: {file} has not once {old!r}")
    with tempfile.TemporaryDirectory() as folder:
        copy = Path(folder, "makhroeng")

        def plant(file: str = "", old: str = "", new: str = "") -> None:
            shutil.rmtree(copy, ignore_errors=True)
            shutil.copytree(whole, copy, ignore=shutil.ignore_patterns("__pycache__"))
            if file:
                text = (copy / file).read_text()
                (copy / file).write_text(text.replace(old, new))

        plant()
        for python in pythons:
            _, said = run(python, copy)
            if not said.endswith(" passed, 0 failed"):
                sys.exit(f"faults.py: without a fault {python} does not pass: {said}")
            print(f"no fault: {said}", flush=True)
        for what, file, old, new in FAULTS:
            plant(file, old, new)
            for python in pythons:
                passed, said = run(python, copy)
                if not passed:
                    break
            missed += passed
            print(f"NOT FOUND: {what}: {said}" if passed else f"{what}: found by {said}", flush=True)
    print(f"{len(FAULTS)} faults, {missed} not found")
    sys.exit(missed != 0)


if __name__ == "__main__":
    main()
