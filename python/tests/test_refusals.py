"""Each refusal of a door and of saturation, blanks, and what else is no number."""
import decimal
import fractions
import unittest
import warnings
from array import array
from typing import Any

import makhroeng
from common import INF, NAN, numpy, places, with_numpy

BY_PRESSURE = [
    (3, NAN, 5e6), (3, INF, 5e6), (3, -INF, 5e6), (3, 300.0, NAN), (3, 300.0, INF), (3, 300.0, -INF), (3, NAN, NAN),
    (4, 216.59199999999998, 5e6), (4, 523.0000000000001, 5e6), (4, 0.0, 5e6), (4, -300.0, 5e6), (4, 20.0, 5e6),
    (5, 300.0, 9999.999999999998), (5, 300.0, 30000000.000000004), (5, 300.0, 0.0), (5, 300.0, -5e6), (5, 300.0, 57.3),
    (6, 303.1282, 7e6), (6, 305.1282, 8e6), (6, 304.0, 7.5e6),
    (8, 250.0, 1785029.0653665012),
    (19, 217.0, 5e6), (19, 216.592, 3e7),
]
BY_DENSITY = [
    (3, NAN, 100.0), (3, 300.0, NAN), (3, 300.0, INF), (3, -INF, 100.0),
    (4, 216.59199999999998, 100.0), (4, 523.0000000000001, 100.0),
    (5, 300.0, 0.09999999999999999), (5, 300.0, 1300.0000000000002), (5, 523.0, 1300.0), (5, 300.0, 0.0),
    (6, 303.1282, 350.7), (6, 305.1282, 584.5),
    (8, 250.0, 500.0),
    (19, 217.0, 1186.152),
]
SATURATION = [(3, NAN), (3, INF), (3, -INF), (4, 216.59199999999998), (4, 304.1282), (4, 400.0), (4, 0.0), (4, -1.0)]


class WithoutNumber:
    def __float__(self) -> float:
        return 300.0


class Answering(float):
    """What answers for itself, as the next three; what they hold is what counts."""

    def __float__(self) -> float:
        return 999.0


class AnsweringInt(int):
    def __float__(self) -> float:
        return 999.0

    def __index__(self) -> int:
        return 999

    __int__ = __index__


class Small(int):
    def __le__(self, other: Any) -> bool:
        return True

    __ge__ = __lt__ = __gt__ = __le__


class Carrying:
    """As a quantity with a unit, or a column with blanks of its own, would pass for an array."""

    def __array__(self, *_: Any, **__: Any) -> Any:
        return numpy.array([300.0])


NO_NUMBERS = [
    None, True, False, "300", "", b"300", 300 + 0j, decimal.Decimal(300), fractions.Fraction(300), WithoutNumber(), [300.0], (300.0,), {}, object(), ...,
]


class Refusals(unittest.TestCase):
    def refused(self, number: int, call: Any, *args: Any, **words: Any) -> None:
        with self.assertRaises(makhroeng.Refused, msg=(number, args, words)) as caught:
            call(*args, **words)
        self.assertEqual(caught.exception.number, number, (args, words))
        self.assertEqual(caught.exception.words, makhroeng.Refused(number).words)
        self.assertTrue(caught.exception.says and caught.exception.todo)

    def test_pressure_door(self) -> None:
        for number, t, p in BY_PRESSURE:
            self.refused(number, makhroeng.state, T=t, p=p)

    def test_density_door(self) -> None:
        for number, t, rho in BY_DENSITY:
            self.refused(number, makhroeng.state, T=t, rho=rho)

    def test_saturation(self) -> None:
        for number, t in SATURATION:
            self.refused(number, makhroeng.saturation, t)

    def test_many(self) -> None:
        numbers, ts, ps = map(list, zip(*BY_PRESSURE))
        self.assertEqual(places(makhroeng.states(ts, ps)), [(number,) for number in numbers])

    def test_beside(self) -> None:
        """The floats on the other side are answered."""
        pairs = [(216.592, 5e5), (523.0, 5e6), (300.0, 1e4), (300.0, 3e7), (303.12819999999994, 7e6), (305.12820000000005, 8e6), (250.0, 1785029.065366501)]
        for t, p in pairs:
            makhroeng.state(T=t, p=p)
        for t in (216.592, 304.12819999999994):
            makhroeng.saturation(t)


class Blanks(unittest.TestCase):
    def named(self, place: str, call: Any, *args: Any, **words: Any) -> None:
        """A TypeError whose first word is the place."""
        with self.assertRaises(TypeError, msg=(args, words)) as caught:
            call(*args, **words)
        self.assertTrue(str(caught.exception).startswith(f"{place} is "), caught.exception)

    def test_one(self) -> None:
        for x in NO_NUMBERS:
            self.named("T", makhroeng.state, T=x, p=5e6)
            self.named("T", makhroeng.state, T=x, rho=100.0)
            self.named("p", makhroeng.state, T=300.0, p=x)
            self.named("rho", makhroeng.state, T=300.0, rho=x)
            self.named("T", makhroeng.saturation, x)

    def test_blank_is_said(self) -> None:
        for words in ({"T": None, "p": 5e6}, {"T": 300.0, "p": None}, {"T": 300.0, "rho": None}):
            with self.assertRaisesRegex(TypeError, "^(T|p|rho) is None: a blank is never read as a number$"):
                makhroeng.state(**words)

    def test_which_words(self) -> None:
        with self.assertRaisesRegex(TypeError, "either p or rho, and neither is given$"):
            makhroeng.state(T=300.0)
        for both in ({"p": 5e6, "rho": 100.0}, {"p": 5e6, "rho": None}, {"p": None, "rho": 100.0}, {"p": None, "rho": None}):
            with self.assertRaisesRegex(TypeError, "either p or rho, and both are given$"):
                makhroeng.state(T=300.0, **both)
        self.assertRaises(TypeError, makhroeng.state, p=5e6)
        self.assertRaises(TypeError, makhroeng.state, 300.0, 5e6)

    def test_in_sequences(self) -> None:
        for x in NO_NUMBERS:
            self.named("T[2]", makhroeng.states, [300.0, 301.0, x], 5e6)
            self.named("p[0]", makhroeng.states, 300.0, (x, 5e6))
            self.named("p[1]", makhroeng.states, [300.0, 301, 302.0], [5e6, x, 5e6])
        for x in (None, True, "300", b"300", bytearray(b"300"), memoryview(b"300"), {300.0: 1}, {300.0}, iter([300.0]), object()):
            self.named("T", makhroeng.states, x, [5e6])
            self.named("p", makhroeng.states, [300.0], x)
            if x is not None:
                with self.assertRaisesRegex(TypeError, "a number, a flat sequence of numbers or one of numpy's own arrays is wanted$"):
                    makhroeng.states(x, [5e6])
        self.named("T[0]", makhroeng.states, array("u", "3"), 5e6)

    def test_ints(self) -> None:
        self.assertEqual(makhroeng.state(T=300, p=5000000), makhroeng.state(T=300.0, p=5e6))
        self.assertEqual(makhroeng.state(T=300, rho=100), makhroeng.state(T=300.0, rho=100.0))
        self.assertEqual(makhroeng.saturation(300), makhroeng.saturation(300.0))
        self.assertEqual(type(makhroeng.saturation(300).T), float)
        same = places(makhroeng.states([300.0, 310.0], 5e6))
        for ts in ([300, 310], range(300, 311, 10), array("i", [300, 310]), array("f", [300, 310]), (300.0, 310)):
            self.assertEqual(places(makhroeng.states(ts, 5000000)), same)
        for sign in (1, -1):
            self.assertRaises(makhroeng.Refused, makhroeng.state, T=300.0, p=sign * 2**53)
            for whole in (sign * (2**53 + 1), sign * 10**400, sign * 10**5000):
                for call in (lambda x: makhroeng.state(T=300.0, p=x), lambda x: makhroeng.states([300.0], [x])):
                    with self.assertRaisesRegex(ValueError, r"^p(\[0\])? is an int beyond") as caught:
                        call(whole)
                    self.assertNotIsInstance(caught.exception, makhroeng.Refused)

    def test_subclasses(self) -> None:
        for t in (Answering(300), AnsweringInt(300), Small(300)):
            self.assertEqual(makhroeng.state(T=t, p=5e6), makhroeng.state(T=300.0, p=5e6))
            self.assertEqual(type(makhroeng.saturation(t).T), float)
            self.assertEqual(list(makhroeng.states([t, 310.0], 5e6).T), [300.0, 310.0])
            self.assertEqual(list(makhroeng.states(t, [5e6]).T), [300.0])
        self.assertRaisesRegex(ValueError, "^T is an int beyond", makhroeng.saturation, Small(2**53 + 1))

    @with_numpy
    def test_numpys_subclasses(self) -> None:
        for kind in (numpy.float16, numpy.float32, numpy.float64, numpy.int32, numpy.int64):
            own = type("Own", (kind,), {"__float__": lambda self: 999.0, "__int__": lambda self: 999, "__index__": lambda self: 999})
            self.assertEqual(makhroeng.state(T=own(300), p=5e6), makhroeng.state(T=300.0, p=5e6))

    @with_numpy
    def test_numpys_numbers(self) -> None:
        same = makhroeng.state(T=300.0, p=5e6)
        for kind in ("float16", "float32", "float64", "int16", "int32", "int64", "uint16", "uint64"):
            self.assertEqual(makhroeng.state(T=getattr(numpy, kind)(300), p=numpy.float64(5e6)), same)
            self.assertEqual(places(makhroeng.states(getattr(numpy, kind)(300), [5e6])), places(makhroeng.states([300.0], [5e6])))
        for x in (numpy.bool_(True), numpy.ma.masked, numpy.longdouble(300), numpy.complex128(300), numpy.str_("300"), numpy.datetime64(300, "s"),
                  numpy.timedelta64(300, "s"), numpy.array(300.0), numpy.array([300.0])):
            self.named("T", makhroeng.state, T=x, p=5e6)
            self.named("p[1]", makhroeng.states, [300.0, 300.0], [5e6, x])
        self.assertRaises(ValueError, makhroeng.state, T=300.0, p=numpy.int64(2**53 + 1))

    @with_numpy
    def test_masked(self) -> None:
        ts = numpy.ma.MaskedArray([300.0, 301.0, 302.0], mask=[False, True, False])
        with self.assertRaisesRegex(TypeError, r"^T\[1\] is masked: a blank is never read as a number$"):
            makhroeng.states(ts, 5e6)
        with self.assertRaisesRegex(TypeError, r"^p\[1, 0\] is masked"):
            makhroeng.states(numpy.full((2, 2), 300.0), numpy.ma.masked_equal(numpy.array([[5e6, 5e6], [1e6, 5e6]]), 1e6))
        self.named("T[0]", makhroeng.states, [numpy.ma.masked], 5e6)
        self.named("T[0]", makhroeng.states, [ts], 5e6)
        for dtype in ("int64", "int16", "uint8", ">i8", "float32", object):
            with self.assertRaisesRegex(TypeError, r"^T\[1\] is masked"):
                makhroeng.states(numpy.ma.MaskedArray([100, 101, 102], mask=[False, True, False], dtype=dtype), 5e6)
        with self.assertRaisesRegex(TypeError, r"^T\[1\] is masked"):
            makhroeng.states(numpy.ma.MaskedArray([300.0, None], mask=[False, True], dtype=object), 5e6)
        with self.assertRaisesRegex(TypeError, "^T is masked"):
            makhroeng.states(numpy.ma.MaskedArray(300.0, mask=True), [5e6])
        self.named("T[1]", makhroeng.states, numpy.ma.MaskedArray([300.0, None], dtype=object), 5e6)
        for fields in ([("a", "f8")], [("a", "f8"), ("b", "f8")]):
            self.named("p", makhroeng.states, 300.0, numpy.ma.MaskedArray(numpy.zeros(2, dtype=fields), mask=numpy.ones(2, dtype=bool)))
        none_masked = numpy.ma.MaskedArray([300.0, 301.0])
        self.assertEqual(places(makhroeng.states(none_masked, 5e6)), places(makhroeng.states([300.0, 301.0], 5e6)))

    @with_numpy
    def test_numpys_arrays(self) -> None:
        self.named("T[1]", makhroeng.states, numpy.array([300.0, None], dtype=object), 5e6)
        self.named("T[1, 0]", makhroeng.states, numpy.array([[300.0, 301], [True, 300.0]], dtype=object), 5e6)
        held = makhroeng.states(numpy.array([[300.0, 301]], dtype=object), 5e6)
        self.assertEqual(places(held), places(makhroeng.states([300.0, 301.0], 5e6)))
        self.assertEqual(held.rho.shape, (1, 2))
        for dtype in ("bool", "U3", "S3", "complex128", "longdouble", "datetime64[s]", "timedelta64[s]", "V8"):
            self.named("p", makhroeng.states, 300.0, numpy.zeros(2, dtype=dtype))
        self.named("p", makhroeng.states, [300.0], Carrying())
        self.named("p", makhroeng.states, [300.0], numpy.matrix([[5e6]]))
        for dtype in ("int64", ">i8", "uint64", ">u8", object):
            for sign in (1, -1) if dtype not in ("uint64", ">u8") else (1,):
                with self.assertRaisesRegex(ValueError, r"^p\[0, 1\] is an int beyond"):
                    makhroeng.states(300.0, numpy.array([[5000000, sign * (2**53 + 1)]], dtype=dtype))
                self.assertEqual(makhroeng.states(300.0, numpy.array([[5000000, sign * 2**53]], dtype=dtype)).refused.tolist(), [[0, 5]])
        self.assertEqual(makhroeng.states(numpy.array([100, -100], dtype="int8"), 5e6).refused.tolist(), [4, 4])
        for dtype in ("int64", "uint64", "int32", "uint32", ">i8", "float32", ">f8"):
            self.assertEqual(places(makhroeng.states(300.0, numpy.array([5000000, 6000000], dtype=dtype))), places(makhroeng.states(300.0, [5e6, 6e6])))

    @with_numpy
    def test_signalling(self) -> None:
        """A NaN that signals is a NaN, however numpy is told to take errors."""
        with numpy.errstate(all="raise"), warnings.catch_warnings():
            warnings.simplefilter("error")
            for whole, dtype in ((0x7F800001, "4"), (0x7FF0000000000001, "8"), (0x7C01, "2")):
                ts = numpy.array([whole], dtype=f"u{dtype}").view(f"f{dtype}")
                self.assertEqual(makhroeng.states(ts, 5e6).refused.tolist(), [3])
                self.assertRaisesRegex(makhroeng.Refused, "^refused by 3", makhroeng.state, T=ts[0], p=5e6)


if __name__ == "__main__":
    unittest.main()
