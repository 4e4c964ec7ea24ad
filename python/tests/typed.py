"""Not run: what mypy --strict must say of the package from outside. An `ignore` that hides no error is an error of its own."""
from typing import assert_type

import makhroeng
import numpy
from numpy.typing import NDArray

found = makhroeng.state(T=253.15, p=2.5e6)
assert_type(found, makhroeng.State)
assert_type(found.phase, makhroeng.Phase)
assert_type(found.rho, float)
assert_type(found.fallen, int)
assert_type(makhroeng.state(T=253, rho=1034), makhroeng.State)
assert_type(makhroeng.saturation(253.15).rho_liquid, float)
assert_type(makhroeng.report(b""), bytes)
assert_type(makhroeng.report(bytearray()), bytes)
many = makhroeng.states([253.15, 300], 2.5e6)
assert_type(many.rho, NDArray[numpy.float64])
assert_type(many.refused, NDArray[numpy.uint32])
makhroeng.states(numpy.linspace(250.0, 300.0, 6), numpy.array([1, 2, 3]))
makhroeng.states(numpy.array([[1.0]], dtype=numpy.float32), 2.5e6)
# numpy's own numbers, one by one and in sequences
makhroeng.state(T=numpy.float64(300), p=numpy.mean(numpy.array([5e6, 6e6])))
makhroeng.state(T=numpy.float32(300), rho=numpy.int64(100))
makhroeng.saturation(numpy.mean(numpy.array([290.0, 300.0])))
makhroeng.saturation(numpy.uint16(290))
makhroeng.states(numpy.int64(300), [numpy.float64(5e6), numpy.int64(6000000), 7e6])
floats = [numpy.float32(300), numpy.float32(310)]
wholes = (numpy.int64(300), numpy.int64(310))
makhroeng.states(floats, wholes)
makhroeng.states(list(numpy.linspace(250.0, 300.0, 6)), numpy.float64(2.5e6))
try:
    makhroeng.saturation(400.0)
except makhroeng.Refused as refused:
    assert_type(refused.number, int)
    assert_type(refused.says, str)

makhroeng.state(T=253.15)  # type: ignore[call-overload]
makhroeng.state(T=253.15, p=None)  # type: ignore[call-overload]
makhroeng.state(T=253.15, p=2.5e6, rho=1034.0)  # type: ignore[call-overload]
makhroeng.state(253.15, 2.5e6)  # type: ignore[call-overload]
makhroeng.state(T="253.15", p=2.5e6)  # type: ignore[call-overload]
makhroeng.states([253.15, None], 2.5e6)  # type: ignore[list-item]
makhroeng.state(T=b"253.15", p=2.5e6)  # type: ignore[call-overload]
makhroeng.saturation(b"253.15")  # type: ignore[arg-type]
makhroeng.states("253.15", 2.5e6)  # type: ignore[arg-type]
makhroeng.states(253.15, None)  # type: ignore[arg-type]
makhroeng.states(numpy.zeros(2, dtype=numpy.bool_), 2.5e6)  # type: ignore[arg-type]
# states(b"253.15", 2.5e6) can't be told apart by types, since bytes are a sequence of ints: it is a TypeError when it runs
makhroeng.report("N 1\n")  # type: ignore[arg-type]
refused.number = 3  # type: ignore[misc]
found.rho = 1.0  # type: ignore[misc]
