"""Reports of sheets: what is stored, what is no sheet, and what is not bytes."""
import subprocess
import types
import unittest
import unittest.mock
from pathlib import Path
from typing import Any

import makhroeng
from common import AGAIN, ROOT, with_again

STORED = ROOT / "examples/stored"
SHEET, RIGHT = (STORED / "covered.sheet").read_bytes(), (STORED / "covered.report").read_bytes()


class Answering(bytes):
    """What answers for itself; what it holds is what counts."""

    def __bytes__(self) -> bytes:
        return b"other"


class AnsweringArray(bytearray):
    def __bytes__(self) -> bytes:
        return b"other"


class Reports(unittest.TestCase):
    def test_stored(self) -> None:
        sheets = sorted(STORED.glob("*.sheet"))
        self.assertGreaterEqual(len(sheets), 4)
        for sheet in sheets:
            self.assertEqual(makhroeng.report(sheet.read_bytes()), sheet.with_suffix(".report").read_bytes(), sheet.name)

    @with_again
    def test_every_file(self) -> None:
        """Every file of the examples, a sheet or not, against the second implementation."""
        files = [file for folder in (STORED, ROOT / "examples/runs.d") for file in sorted(folder.rglob("*")) if file.is_file()]
        self.assertGreaterEqual(len(files), 100)
        for file in files:
            text = file.read_bytes()
            self.assertEqual(makhroeng.report(text), self.again(text), file)

    @with_again
    def test_longest(self) -> None:
        longest = b"N 1\n" + b"C 1 1 P 1 1\n" * 5461
        self.assertEqual(len(longest), 65_536)
        for text, report in ((longest, b"SENT BACK 11\n"), (longest + b"\n", b"SENT BACK 14\n"), (longest * 40, b"SENT BACK 14\n"), (b"", b"SENT BACK 14\n")):
            self.assertEqual(makhroeng.report(text), report)
            self.assertEqual(self.again(text), report)
        # nothing weighs more, and so no report is longer
        weighed = b"N 1\n" + b"".join(b"C %d - W 9999999999 1000000\n" % i for i in range(32))
        self.assertEqual(makhroeng.report(weighed), self.again(weighed))
        lines = [*(f"L {i + 1} M 9999999999000" for i in range(32)), "TOTAL 319999999968000 COVERED", ""]
        self.assertEqual(makhroeng.report(weighed).decode(), "\n".join(lines))

    def test_nul(self) -> None:
        self.assertEqual(makhroeng.report(SHEET.replace(b"\n", b"\n\0", 1)), b"SENT BACK 14\n")
        self.assertEqual(makhroeng.report(SHEET + b"\0"), b"SENT BACK 14\n")

    def test_kinds_of_bytes(self) -> None:
        right = makhroeng.report(SHEET)
        self.assertEqual(type(right), bytes)
        doubled = bytes(byte for byte in SHEET for _ in range(2))
        for same in (Answering(SHEET), AnsweringArray(SHEET), bytearray(SHEET), memoryview(SHEET),
                     memoryview(bytearray(SHEET)), memoryview(doubled)[::2], memoryview(SHEET[::-1])[::-1]):
            self.assertEqual(makhroeng.report(same), right)

    def test_not_bytes(self) -> None:
        others: list[Any] = [SHEET.decode(), "", None, list(SHEET), Path("sheet.txt"), 65536, True]
        others += [memoryview(SHEET[:len(SHEET) // 8 * 8]).cast(items) for items in "dfiIhHqQ"]
        for other in others:
            with self.assertRaisesRegex(TypeError, r"^report\(\) takes"):
                makhroeng.report(other)

    def test_what_is_lent(self) -> None:
        """Bytes of the package's own: whoever gave them may write to theirs while the library reads."""
        for given in (bytearray(SHEET), memoryview(bytearray(SHEET))):
            def meanwhile(*lent: Any) -> int:
                given[:] = b"x" * len(given)
                return library.makhroeng_report(*lent)

            library = makhroeng._calls.LIBRARY
            with unittest.mock.patch.object(makhroeng._calls, "LIBRARY", types.SimpleNamespace(makhroeng_report=meanwhile)):
                self.assertEqual(makhroeng.report(given), RIGHT)
            self.assertEqual(bytes(given), b"x" * len(SHEET))

    def test_no_report(self) -> None:
        """RULES 12: 0 is no length but a refusal by 15."""
        with unittest.mock.patch.object(makhroeng._calls, "LIBRARY", types.SimpleNamespace(makhroeng_report=lambda *_: 0)):
            with self.assertRaises(makhroeng.Refused) as caught:
                makhroeng.report(SHEET)
        self.assertEqual(caught.exception.number, 15)

    def again(self, text: bytes) -> bytes:
        return subprocess.run([AGAIN, "--report"], input=text, capture_output=True, check=True).stdout


if __name__ == "__main__":
    unittest.main()
