"""The package itself: that it is of the header, what it refuses to load with, pickling, and that it was installed whole."""
import base64
import copy
import functools
import hashlib
import importlib.metadata
import inspect
import os
import pickle
import pkgutil
import re
import shutil
import subprocess
import sys
import tempfile
import typing
import unittest
from pathlib import Path
from typing import Any

import makhroeng
from common import FIGURES, HEADER, numpy, places

FOLDER = Path(makhroeng.__file__).parent
NUMBER = int(re.search(r"#define MAKHROENG_VERSION (\d+)", HEADER)[1])
LIBRARY = f"libmakhroeng.so.{NUMBER // 10000}"


def dotted(number: int) -> str:
    return f"{number // 10000}.{number // 100 % 100}.{number % 100}"


def enumeration(first: str) -> list[str]:
    """The names of the header's enum that begins with this one."""
    found = re.search(rf"enum {{\s*(MAKHROENG_{first}\b.*?)}};", HEADER, re.S)
    assert found
    return re.findall(r"MAKHROENG_(\w+)(?: = (\d+))?[,\s]", re.sub(r"/\*.*?\*/", "", found[1], flags=re.S) + "\n")


class Package(unittest.TestCase):
    def test_version(self) -> None:
        self.assertEqual([makhroeng.__version__, makhroeng.version()], [dotted(NUMBER)] * 2)

    def test_numbers_of_the_header(self) -> None:
        self.assertEqual([(phase.name, str(phase.value)) for phase in makhroeng.Phase], enumeration("VAPOUR")[:3])
        self.assertEqual([str(phase) for phase in makhroeng.Phase], ["vapour", "liquid", "supercritical"])
        self.assertEqual([f"{phase:>13}" for phase in makhroeng.Phase], ["       vapour", "       liquid", "supercritical"])
        names = {"T": "TEMPERATURE", "p": "PRESSURE", "rho": "DENSITY", "u": "ENERGY", "h": "ENTHALPY", "cv": "CV", "cp": "CP", "w": "SOUND",
                 "fallen": "FALLEN", "conductivity": "CONDUCTIVITY"}
        self.assertEqual([names[figure] for figure in FIGURES], [name for name, _ in enumeration("TEMPERATURE")])
        self.assertEqual(makhroeng.States._fields, ("phase", *FIGURES, "refused"))

    def test_units(self) -> None:
        """Each field and its unit stand in what help() shows."""
        units = {"T": "K", "p": "Pa", "rho": "kg/m3", "u": "J/kg", "h": "J/kg", "cv": "J/(kg K)", "cp": "J/(kg K)", "w": "m/s", "conductivity": "W/(m K)"}
        for name, unit in units.items():
            self.assertRegex(inspect.getdoc(makhroeng.State), rf"(?m)^{name} +{re.escape(unit)} ")
        for name, unit in {"T": "K", "p": "Pa", "rho_vapour": "kg/m3", "rho_liquid": "kg/m3"}.items():
            self.assertRegex(inspect.getdoc(makhroeng.Saturation), rf"(?m)^{name} +{re.escape(unit)} ")
        self.assertIn("in the units of State", inspect.getdoc(makhroeng.States))
        self.assertIn("T is in K here", inspect.getdoc(makhroeng.Refused))

    def test_what_is_shown_of_it(self) -> None:
        """To help(), to whoever asks for the types or the source, and to pip."""
        for name in makhroeng.__all__:
            public = getattr(makhroeng, name)
            self.assertTrue(inspect.getdoc(public), name)
            self.assertIn(f" {name}(" if inspect.isclass(public) else f"def {name}(", inspect.getsource(public))
            typing.get_type_hints(public)
        self.assertEqual(list(typing.get_type_hints(makhroeng.States)), list(makhroeng.States._fields))
        self.assertEqual([module.name for module in pkgutil.iter_modules(makhroeng.__path__) if not module.name.startswith("_")], [])
        self.assertEqual(importlib.metadata.metadata("makhroeng").get_payload().strip(), inspect.getdoc(makhroeng))

    def test_pickled(self) -> None:
        refused = makhroeng.Refused(19)
        for protocol in range(pickle.HIGHEST_PROTOCOL + 1):
            for again in (pickle.loads(pickle.dumps(refused, protocol)), copy.copy(refused), copy.deepcopy(refused)):
                self.assertEqual((type(again), again.number, again.words, str(again)), (makhroeng.Refused, 19, refused.words, str(refused)))
            state = makhroeng.state(T=253.15, p=2.5e6)
            self.assertEqual(pickle.loads(pickle.dumps(state, protocol)), state)
            self.assertIs(pickle.loads(pickle.dumps(state, protocol)).phase, makhroeng.Phase.LIQUID)
            found = makhroeng.states([253.15, 200.0], 2.5e6)
            self.assertEqual(places(pickle.loads(pickle.dumps(found, protocol))), places(found))
        self.assertIsInstance(refused, ValueError)
        for name in ("number", "words", "says", "todo"):
            self.assertRaises(AttributeError, setattr, refused, name, 3)

    def test_refused_by_a_column(self) -> None:
        number = makhroeng.states([200.0], 2.5e6).refused[0]
        self.assertEqual(makhroeng.Refused(number).number, 4)
        for wrong in (0, 256, -1, 2**32 + 4):
            self.assertRaises(ValueError, makhroeng.Refused, wrong)
        self.assertRaises(TypeError, makhroeng.Refused, "4")

    def test_state_is_plain(self) -> None:
        state = makhroeng.state(T=253, p=numpy.float64(2.5e6) if numpy is not None else 2.5e6)
        self.assertEqual({type(x) for x in state}, {makhroeng.Phase, float, int})
        self.assertEqual(type(state.fallen), int)
        self.assertEqual(list(state._asdict()), ["phase", *FIGURES])

    def test_installed_whole(self) -> None:
        """What stands in the folder is what RECORD says, and the wheel is for this place."""
        installed = importlib.metadata.distribution("makhroeng")
        self.assertEqual(installed.version, makhroeng.__version__)
        kept = {str(file): file for file in installed.files or []}
        for name in ("__init__.py", "_built.py", LIBRARY, "py.typed"):
            self.assertIn(f"makhroeng/{name}", kept)
        for file in kept.values():
            if file.hash is not None:
                data = file.locate().read_bytes()
                self.assertEqual(base64.urlsafe_b64encode(hashlib.sha256(data).digest()).rstrip(b"=").decode(), file.hash.value, file)


IMPORT = """
import sys
sys.path.insert(0, sys.argv[1])
try:
    import makhroeng
except ImportError as error:
    print("ImportError:", error)
else:
    print("loaded")
"""
NOT_WITH = rf"^ImportError: makhroeng \S+ can't be used with \S+/{re.escape(LIBRARY)}: "


class Loading(unittest.TestCase):
    def import_with(self, change: Any) -> str:
        """What importing a copy of the package says where `change` was done to its folder."""
        with tempfile.TemporaryDirectory() as folder:
            copied = Path(folder, "makhroeng")
            shutil.copytree(FOLDER, copied, ignore=shutil.ignore_patterns("__pycache__"))
            change(copied)
            run = subprocess.run([sys.executable, "-B", "-c", IMPORT, folder], capture_output=True, text=True)
            self.assertEqual(run.stderr, "")
            return run.stdout.strip()

    def test_as_it_is(self) -> None:
        self.assertEqual(self.import_with(lambda folder: None), "loaded")

    def test_another_version(self) -> None:
        """The library has every function, and is older or newer than the package."""
        for built_for in (NUMBER - 100, NUMBER - 1, NUMBER + 1, NUMBER + 100):
            said = self.import_with(lambda folder: (folder / "_built.py").write_text(f"VERSION = {built_for}\n"))
            self.assertRegex(said, rf"{NOT_WITH}that library is of version {makhroeng.version()}$")

    def test_another_library_of_ours(self) -> None:
        """One of another version, with none of the functions but that which says so; and one of this version, with no more."""
        compiler = shutil.which(os.environ.get("CC", "cc"))
        if compiler is None:
            self.skipTest("no C compiler (Debian: apt-get install gcc)")

        def stand_in(version: int, folder: Path) -> None:
            code = f"unsigned makhroeng_version(void) {{ return {version}; }}"
            subprocess.run([compiler, "-shared", "-fPIC", "-x", "c", "-", "-o", str(folder / LIBRARY)], input=code, text=True, check=True)

        for version in (NUMBER - 100, NUMBER - 1, NUMBER + 1, NUMBER + 100):
            said = self.import_with(functools.partial(stand_in, version))
            self.assertRegex(said, rf"{NOT_WITH}that library is of version {re.escape(dotted(version))}$")
        said = self.import_with(functools.partial(stand_in, NUMBER))
        self.assertRegex(said, f"{NOT_WITH}.*undefined symbol: makhroeng_")

    def test_no_library(self) -> None:
        said = self.import_with(lambda folder: (folder / LIBRARY).unlink())
        self.assertRegex(said, f"{NOT_WITH}.*No such file")

    def test_no_library_but_bytes(self) -> None:
        said = self.import_with(lambda folder: (folder / LIBRARY).write_bytes(b"no library"))
        self.assertRegex(said, f"{NOT_WITH}.*{LIBRARY}")

    def test_another_library(self) -> None:
        """One that loads and has none of the functions, as a shared library that was linked from an archive without --whole-archive."""
        import _ctypes

        other = getattr(_ctypes, "__file__", None)
        if other is None:
            self.skipTest("this Python has no shared module to try")
        said = self.import_with(lambda folder: shutil.copy(other, folder / LIBRARY))
        self.assertRegex(said, f"{NOT_WITH}.*undefined symbol: makhroeng_")

    def test_sources(self) -> None:
        said = self.import_with(lambda folder: (folder / "_built.py").unlink())
        self.assertRegex(said, "^ImportError: these are makhroeng's sources: python/build")

    def test_broken_numpy(self) -> None:
        """One that is there but can't be loaded is not taken for none."""
        for broken, error in (("import no_part_of_it", "ModuleNotFoundError: No module"), ("raise ImportError('broken')", "ImportError: broken")):
            with tempfile.TemporaryDirectory() as folder:
                Path(folder, "numpy.py").write_text(broken)
                code = f"import sys; sys.path.insert(0, {folder!r}); import makhroeng; print(makhroeng.version()); makhroeng.states([300.0], 5e6)"
                run = subprocess.run([sys.executable, "-B", "-c", code], capture_output=True, text=True)
                self.assertEqual(run.stdout.strip(), makhroeng.version())
                self.assertIn(error, run.stderr)


if __name__ == "__main__":
    unittest.main()
