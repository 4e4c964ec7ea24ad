"""What the pages print, from the pages: README's states, sheet, saturations and words, and the examples in the documentation."""
import doctest
import os
import pkgutil
import re
import sys
import tempfile
import unittest
from pathlib import Path

import makhroeng
from common import README, ROOT


def block_after(words: str) -> str:
    """README's first block between ``` behind these words."""
    found = re.search(r"\n```\n(.*?)```\n", README[README.index(words):], re.S)
    assert found
    return found[1]


SHEET, REPORT = block_after("Save this as sheet.txt"), block_after("Then `./score sheet.txt` writes")


def states_of_the_example() -> list[str]:
    hot, cold, heating = makhroeng.state(T=313.15, p=10e6), makhroeng.state(T=220.0, p=10e6), makhroeng.state(T=253.15, p=2.5e6)
    return [
        f"313.15 K and 10 MPa: {hot.phase}, {hot.rho:.6f} kg/m3, {hot.w:.3f} m/s",
        f"220 K and 10 MPa: {cold.phase}, {cold.rho:.6f} kg/m3, {cold.fallen} of the equation's 42 terms fell away",
        f"253.15 K and 2.5 MPa: {heating.phase}, {heating.conductivity:.6f} W/(m K)",
    ]


class Pages(unittest.TestCase):
    def test_states_and_report_of_the_c_example(self) -> None:
        lines = states_of_the_example()
        for line in lines:
            self.assertIn(f"\n    {line}\n", README)
        stored = (ROOT / "examples/stored/state_and_report.txt").read_bytes()
        self.assertEqual(("\n".join(lines) + "\n").encode() + makhroeng.report(SHEET.encode()), stored)

    def test_sheet(self) -> None:
        self.assertEqual(makhroeng.report(SHEET.encode()).decode(), REPORT)
        left_out = SHEET.replace("C 3 3146500 D", "C 3 - D")
        self.assertEqual(makhroeng.report(left_out.encode()).decode().splitlines()[2:], ["L 3 R 1", "SENT BACK 13"])

    def test_saturations(self) -> None:
        rows = re.findall(r"(?m)^\| (\d+) \| ([\d.]+) \| ([\d.]+) \| ([\d.]+) \|$", README)
        self.assertEqual(len(rows), 7)
        for celsius, *three in rows:
            found = makhroeng.saturation(float(celsius) + 273.15)
            self.assertEqual([f"{found.p / 1e5:.2f}", f"{found.rho_vapour:.1f}", f"{found.rho_liquid:.1f}"], three)

    def test_words(self) -> None:
        rows = {int(number): both for number, *both in re.findall(r"(?m)^\| (\d+) \| ([^|]+) \| ([^|]+) \|$", README)}
        self.assertEqual(len(rows), 18)
        for number in range(256):
            if number in rows:
                refused = makhroeng.Refused(number)
                self.assertEqual([refused.says, refused.todo], rows[number])
                self.assertEqual(refused.words, f"{refused.says}. {refused.todo}")
                self.assertEqual(str(refused), f"refused by {number}. {refused.words}")
            else:
                self.assertRaisesRegex(ValueError, f"^no refusal has the number {number}$", makhroeng.Refused, number)

    def test_examples_in_the_documentation(self) -> None:
        modules = [makhroeng, *(sys.modules[f"makhroeng.{module.name}"] for module in pkgutil.iter_modules(makhroeng.__path__))]
        counted = [doctest.testmod(module) for module in modules]
        self.assertEqual(sum(each.failed for each in counted), 0)
        self.assertGreaterEqual(sum(each.attempted for each in counted), 16)

    def test_examples_in_the_readme(self) -> None:
        """Those with >>>, where sheet.txt is README's."""
        here = os.getcwd()
        with tempfile.TemporaryDirectory() as folder:
            Path(folder, "sheet.txt").write_bytes(SHEET.encode())
            os.chdir(folder)
            try:
                counted = doctest.testfile(str(ROOT / "README.md"), module_relative=False, encoding="utf-8")
            finally:
                os.chdir(here)
        self.assertEqual(counted.failed, 0)
        self.assertGreaterEqual(counted.attempted, 6)


if __name__ == "__main__":
    unittest.main()
