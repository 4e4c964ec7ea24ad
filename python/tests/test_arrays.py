"""States over arrays: each place what state() gives for it, whatever form the arrays have."""
import concurrent.futures
import os
import tempfile
import time
import types
import unittest
import unittest.mock
from array import array
from typing import Any

import makhroeng
from common import FIGURES, NAN, column, numpy, places, state_or_refusal, with_numpy

TS = [216.592, 217.0, 253.15, 293.15, 304.0, 313.15, 523.0, 200.0, NAN, 250.0, 300.0]
PS = [5e5, 5e6, 2.5e6, 5.7e6, 7.5e6, 1e7, 3e7, 1e6, 1e6, 1785029.0653665012, 9999.0]
ONE_BY_ONE = [state_or_refusal(T=t, p=p) for t, p in zip(TS, PS)]


class Forms(unittest.TestCase):
    def test_place_by_place(self) -> None:
        self.assertEqual([told[0] for told in ONE_BY_ONE], ["vapour", 19, "liquid", "vapour", 6, "supercritical", "supercritical", 4, 3, 8, 5])
        for held in (list, tuple, column, lambda xs: array("d", xs)):
            self.assertEqual(places(makhroeng.states(held(TS), held(PS))), ONE_BY_ONE)
        self.assertEqual(places(makhroeng.states(p=PS, T=TS)), ONE_BY_ONE)

    def test_columns(self) -> None:
        found = makhroeng.states(TS, PS)
        self.assertEqual(found._fields, ("phase", *FIGURES, "refused"))
        for name in ("phase", "refused", *FIGURES):
            whole, kept = name in ("phase", "refused"), getattr(found, name)
            if numpy is None:
                self.assertEqual((type(kept), kept.typecode), (array, "I" if whole else "d"))
            else:
                self.assertEqual((type(kept), kept.dtype, kept.shape), (numpy.ndarray, numpy.uint32 if whole else numpy.float64, (len(TS),)))
                self.assertTrue(kept.flags.c_contiguous and kept.flags.writeable)
        self.assertEqual(found.T[2], 253.15)
        self.assertEqual(found.phase[2], makhroeng.Phase.LIQUID)
        self.assertEqual(found.refused.tolist(), [told[0] if len(told) == 1 else 0 for told in ONE_BY_ONE])
        for name in FIGURES:
            self.assertEqual([x != x for x in getattr(found, name)], [len(told) == 1 for told in ONE_BY_ONE], name)

    def test_one_number_for_all(self) -> None:
        self.assertEqual(places(makhroeng.states(TS, 5e6)), [state_or_refusal(T=t, p=5e6) for t in TS])
        self.assertEqual(places(makhroeng.states(300, PS)), [state_or_refusal(T=300.0, p=p) for p in PS])
        self.assertEqual(places(makhroeng.states([300.0], 5e6)), [state_or_refusal(T=300.0, p=5e6)])
        with self.assertRaisesRegex(TypeError, r"state\(\) is for one"):
            makhroeng.states(300.0, 5e6)

    def test_lengths(self) -> None:
        for ts, ps in (([300.0, 301.0], [5e6]), ([300.0], [5e6, 6e6]), ([], [5e6]), ([300.0], []), (TS, PS[:-1])):
            with self.assertRaisesRegex(ValueError, "^the lengths don't fit"):
                makhroeng.states(ts, ps)
            with self.assertRaisesRegex(ValueError, "^the lengths don't fit"):
                makhroeng.states(column(ts), column(ps))

    def test_empty(self) -> None:
        for ts, ps in (([], []), ([], 5e6), (300.0, ()), (column([]), column([])), (array("d"), array("d")), (300.0, array("f"))):
            found = makhroeng.states(ts, ps)
            self.assertEqual([len(kept) for kept in found], [0] * 12)

    def test_no_pointer_is_null(self) -> None:
        """include/makhroeng.h: even where its length is 0."""
        library, lent = makhroeng._many.LIBRARY, []

        def watched(*args: int) -> int:
            lent.append(args)
            return library.makhroeng_states_from_pressure(*args)

        with unittest.mock.patch.object(makhroeng._many, "LIBRARY", types.SimpleNamespace(makhroeng_states_from_pressure=watched)):
            for ts, ps in (([], []), (column([]), 5e6), (300.0, array("d")), ([300.0], 5e6)):
                makhroeng.states(ts, ps)
        self.assertEqual([args[1::2] for args in lent], [(0, 0, 0, 0)] * 3 + [(1, 1, 1, 10)])
        for args in lent:
            self.assertTrue(all(args[::2]) and not any(address % 8 for address in args[::2] if args[1] == 0), args)

    def test_what_is_given_stays(self) -> None:
        ts, ps = column(TS), column(PS)
        found = makhroeng.states(ts, ps)
        self.assertEqual([bytes(ts), bytes(ps)], [bytes(column(TS)), bytes(column(PS))])
        ts[2], ps[2] = 0.0, 0.0
        self.assertEqual(places(found), ONE_BY_ONE)
        same = column([300.0, 310.0])
        self.assertEqual(makhroeng.states(same, same).refused.tolist(), [5, 5])

    def test_what_is_lent(self) -> None:
        """Arrays of the package's own: whoever gave them may write to theirs while the library reads."""
        library = makhroeng._many.LIBRARY
        for held in (list, column, lambda xs: array("d", xs)):
            ts, ps = held(TS), held(PS)

            def meanwhile(*lent: int) -> int:
                for i in range(len(TS)):
                    ts[i], ps[i] = 300.0, 5e6
                return library.makhroeng_states_from_pressure(*lent)

            with unittest.mock.patch.object(makhroeng._many, "LIBRARY", types.SimpleNamespace(makhroeng_states_from_pressure=meanwhile)):
                self.assertEqual(places(makhroeng.states(ts, ps)), ONE_BY_ONE)
            self.assertEqual([list(ts), list(ps)], [[300.0] * len(TS), [5e6] * len(TS)])

    @with_numpy
    def test_written_meanwhile(self) -> None:
        """Whenever another thread writes to an array that is being copied: what is worked was looked at. It writes at the nth look at numpy here."""
        good, large = [300, 301, 302], 2**53 + 1

        class Meddled:
            """numpy, with a write at the nth look."""

            def __init__(self, n: int, write: Any) -> None:
                self.left, self.write = n, write

            def __getattr__(self, name: str) -> Any:
                self.left -= 1
                if self.left == 0:
                    self.write()
                return getattr(numpy, name)

        def told(made: Any, write: Any) -> list[Any]:
            """What came of it where the write was at the first look, the second, and so on until it would come too late."""
            found = []
            for n in range(1, 1000):
                xs = made()
                meddled = Meddled(n, lambda: write(xs))
                try:
                    found.append(makhroeng._numbers.numpys(meddled, "T", xs).tolist())
                except (TypeError, ValueError) as error:
                    found.append(str(error))
                if meddled.left > 0:
                    return found
            raise AssertionError

        def masked(xs: Any) -> None:
            xs[1] = numpy.ma.masked
            xs.data[1] = 999

        def unmasked(xs: Any) -> None:
            xs[1] = 301

        def blank() -> Any:
            return numpy.ma.MaskedArray([300, 999, 302], mask=[False, True, False])

        beyond, hidden = "T[1] is an int beyond 2**53 on either side of 0: not every one is a float", "T[1] is masked: a blank is never read as a number"
        for dtype in ("int64", "uint64", ">i8", object):
            found = told(lambda: numpy.array(good, dtype=dtype), lambda xs: xs.__setitem__(1, large))
            self.assertEqual([one for one in found if one not in (good, beyond)], [], dtype)
            self.assertEqual([found[0], found[-1]], [beyond, good])
        for dtype in ("int64", "float64", object):
            found = told(lambda: numpy.ma.MaskedArray(good, mask=[False] * 3, dtype=dtype), masked)
            self.assertEqual([one for one in found if one not in (good, hidden)], [], dtype)
            self.assertEqual([found[0], found[-1]], [hidden, good])
        found = told(blank, unmasked)
        self.assertEqual([one for one in found if one not in (good, hidden)], [])
        self.assertEqual([found[0], found[-1]], [good, hidden])

    @with_numpy
    def test_shapes(self) -> None:
        ts, ps = numpy.array(TS[:6]), numpy.array(PS[:6])
        for shape in ((6,), (2, 3), (3, 2), (1, 6, 1), (6, 1)):
            found = makhroeng.states(ts.reshape(shape), ps.reshape(shape))
            self.assertEqual({kept.shape for kept in found}, {shape})
            self.assertEqual(places(found), ONE_BY_ONE[:6])
            self.assertEqual(found.rho.reshape(-1)[2], makhroeng.state(T=TS[2], p=PS[2]).rho)
        for one, other in (((2, 3), (3, 2)), ((6,), (2, 3)), ((6, 1), (6,)), ((1,), (6,)), ((6,), (1, 6))):
            with self.assertRaisesRegex(ValueError, "^the lengths don't fit"):
                makhroeng.states(numpy.full(one, 300.0), numpy.full(other, 5e6))
        for shape in ((0,), (0, 3), (3, 0)):
            self.assertEqual({kept.shape for kept in makhroeng.states(numpy.zeros(shape), 5e6)}, {shape})

    @with_numpy
    def test_no_dimension(self) -> None:
        """Such an array is a single number (RULES 16), and with another one an array of no dimension."""
        for t in (numpy.array(253.15), numpy.array(253.15, dtype=object), numpy.ma.MaskedArray(253.15)):
            for p in (2.5e6, numpy.array(2500000)):
                alone = makhroeng.states(t, p)
                self.assertEqual((alone.rho.shape, float(alone.rho)), ((), makhroeng.state(T=253.15, p=2.5e6).rho))
            self.assertEqual(places(makhroeng.states(t, PS)), places(makhroeng.states(253.15, PS)))
            self.assertEqual(makhroeng.states(t, numpy.full((2, 3), 2.5e6)).rho.shape, (2, 3))
            self.assertEqual(makhroeng.states(t, []).rho.shape, (0,))
        self.assertEqual(places(makhroeng.states(TS, numpy.array(5000000))), places(makhroeng.states(TS, 5e6)))

    @with_numpy
    def test_layouts(self) -> None:
        n = 60
        ts, ps = numpy.linspace(216.0, 524.0, n), numpy.linspace(9e3, 3.01e7, n)[::-1].copy()
        right = places(makhroeng.states(ts.tolist(), ps.tolist()))
        wide = numpy.zeros((n, 3))
        wide[:, 1] = ts
        back = ps[::-1].copy()
        self.assertEqual(places(makhroeng.states(wide[:, 1], back[::-1])), right)
        self.assertEqual(places(makhroeng.states(numpy.repeat(ts, 2)[::2], numpy.repeat(ps, 3)[1::3])), right)
        for layout in (numpy.asfortranarray, lambda xs: numpy.ascontiguousarray(xs.T).T, numpy.ascontiguousarray):
            self.assertEqual(places(makhroeng.states(layout(ts.reshape(6, 10)), ps.reshape(6, 10))), right)
            self.assertEqual(places(makhroeng.states(ts.reshape(6, 10), layout(ps.reshape(6, 10)))), right)
        self.assertEqual(places(makhroeng.states(ts.astype(">f8"), ps.astype(">f8"))), right)
        self.assertEqual(places(makhroeng.states(numpy.broadcast_to(numpy.float64(300.0), (n,)), ps)), places(makhroeng.states(300.0, ps)))
        unaligned = numpy.frombuffer(b"\0" + ts.tobytes(), dtype=numpy.uint8)[1:].view(numpy.float64)
        self.assertEqual(places(makhroeng.states(unaligned, ps)), right)
        fixed = ts.copy()
        fixed.flags.writeable = False
        self.assertEqual(places(makhroeng.states(fixed, ps)), right)
        for dtype in ("float32", "float16", "int16", ">i2", "uint16", "int32"):
            small = ts.astype(dtype)
            self.assertEqual(places(makhroeng.states(small, ps)), places(makhroeng.states([float(t) for t in small], ps)))
        with tempfile.NamedTemporaryFile() as file:
            file.write(ts.tobytes())
            file.flush()
            self.assertEqual(places(makhroeng.states(numpy.memmap(file.name, dtype=numpy.float64), ps)), right)

    @with_numpy
    def test_objects_in_fortrans_order(self) -> None:
        ts = numpy.array([[300, 301.0, 302], [303, 304, None]], dtype=object)
        with self.assertRaisesRegex(TypeError, r"^T\[1, 2\] is None"):
            makhroeng.states(numpy.asfortranarray(ts), 5e6)
        ts[1, 2] = 305
        self.assertEqual(makhroeng.states(numpy.asfortranarray(ts), 5e6).T.tolist(), [[300.0, 301.0, 302.0], [303.0, 304.0, 305.0]])


MANY, EACH = 24_000, 1_500
MANY_TS = column([216.0 + 308.0 * i / MANY for i in range(MANY)])
MANY_PS = column([9e3 + 3.01e7 * (i * 7919 % MANY) / MANY for i in range(MANY)])


def part(at: int) -> makhroeng.States:
    return makhroeng.states(MANY_TS[at:at + EACH], MANY_PS[at:at + EACH])


class Threads(unittest.TestCase):

    def test_pool(self) -> None:
        """A pool over slices gives the bits of one call over all; its time is told, and held to nothing."""
        workers = os.cpu_count() or 1
        began = time.perf_counter()
        alone = makhroeng.states(MANY_TS, MANY_PS)
        middle, worked = time.perf_counter(), time.process_time()
        with concurrent.futures.ThreadPoolExecutor(workers) as pool:
            parts = list(pool.map(part, range(0, MANY, EACH)))
        took, cores = time.perf_counter() - middle, (time.process_time() - worked) / (time.perf_counter() - middle)
        for i, name in enumerate(alone._fields):
            self.assertTrue(b"".join(bytes(part[i]) for part in parts) == bytes(alone[i]), name)
        print(f"threads: {MANY:,} states in {middle - began:.2f} s by one call, in {took:.2f} s by a pool of {workers}, which kept {cores:.1f} cores at work")

    def test_lock_is_let_go(self) -> None:
        """Another thread of Python runs while one call works."""
        ticks = 0
        with concurrent.futures.ThreadPoolExecutor(1) as pool:
            work = pool.submit(makhroeng.states, MANY_TS, MANY_PS)
            while not work.done():
                time.sleep(0.005)
                ticks += 1
            work.result()
        self.assertGreaterEqual(ticks, 10)

    def test_pool_of_single_calls(self) -> None:
        asked = [(TS[i % len(TS)], PS[i % len(PS)]) for i in range(2_200)]
        with concurrent.futures.ThreadPoolExecutor(8) as pool:
            found = list(pool.map(lambda pair: state_or_refusal(T=pair[0], p=pair[1]), asked))
        self.assertEqual([case for case in zip(asked, found, ONE_BY_ONE * 200) if case[1] != case[2]][:3], [])


if __name__ == "__main__":
    unittest.main()
