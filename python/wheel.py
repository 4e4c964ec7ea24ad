"""wheel.py PREFIX FOLDER: a wheel in FOLDER of the package beside this file and the library that ./install put below PREFIX; prints its path.

Only the standard library is used. The same package and library give the same bytes: names are sorted, times are 1980's, and nothing is compressed, since
another zlib may write other bytes.
"""
from __future__ import annotations

import ast
import base64
import hashlib
import platform
import re
import subprocess
import sys
import zipfile
from pathlib import Path

PACKAGE = Path(__file__).with_name("makhroeng")
OLDEST_PYTHON = "3.9"
# Arm's glibc begins here, and with pip's manylinux_2_17 there is one name for both processors
OLDEST_GLIBC = (2, 17)
OF_GLIBC = {"libc.so.6", "libm.so.6"}


def version(header: Path) -> int:
    found = re.search(r"(?m)^#define MAKHROENG_VERSION (\d+)$", header.read_text())
    if not found:
        sys.exit(f"wheel.py: no MAKHROENG_VERSION in {header}")
    return int(found[1])


def platform_tag(library: Path) -> str:
    """manylinux_2_17 and the machine where the library needs nothing but glibc, of that version at most (PEP 600); linux and the machine else."""
    def told(*flags: str) -> str:
        return subprocess.run(["readelf", "-W", *flags, str(library)], check=True, capture_output=True, text=True).stdout

    needed = set(re.findall(r"\(NEEDED\).*\[(.*)\]", told("-d")))
    versions = [tuple(map(int, found.split("."))) for found in re.findall(r"Name: GLIBC_([\d.]+)", told("-V"))]
    others = re.findall(r"Name: (?!GLIBC_\d)(\S+)", told("-V"))
    machine = platform.machine()
    if needed - OF_GLIBC or others or not versions:
        return f"linux_{machine}"
    first, second = max([OLDEST_GLIBC, *(found[:2] for found in versions)])
    return f"manylinux_{first}_{second}_{machine}"


def contents(prefix: Path) -> tuple[str, dict[str, bytes]]:
    """The wheel's name and its files."""
    number = version(prefix / "include/makhroeng.h")
    dotted = f"{number // 10000}.{number // 100 % 100}.{number % 100}"
    library = prefix / "lib" / f"libmakhroeng.so.{dotted}"
    tag = f"py3-none-{platform_tag(library)}"
    info = f"makhroeng-{dotted}.dist-info"
    files = {f"makhroeng/{file.name}": file.read_bytes() for file in [*PACKAGE.glob("*.py"), PACKAGE / "py.typed"]}
    files["makhroeng/_built.py"] = f'"""Written by python/build: the library that this package was built for."""\nVERSION = {number}\n'.encode()
    files[f"makhroeng/libmakhroeng.so.{number // 10000}"] = library.read_bytes()
    files[f"{info}/METADATA"] = (
        f"Metadata-Version: 2.1\nName: makhroeng\nVersion: {dotted}\n"
        "Summary: States of carbon dioxide, and the scorer of cylinder banks, by a proved library\n"
        f"Requires-Python: >={OLDEST_PYTHON}\nDescription-Content-Type: text/plain\n\n{description()}\n"
    ).encode()
    files[f"{info}/WHEEL"] = f"Wheel-Version: 1.0\nGenerator: makhroeng python/build\nRoot-Is-Purelib: false\nTag: {tag}\n".encode()
    files[f"{info}/top_level.txt"] = b"makhroeng\n"
    record = "".join(f"{name},sha256={digest(data)},{len(data)}\n" for name, data in sorted(files.items()))
    files[f"{info}/RECORD"] = f"{record}{info}/RECORD,,\n".encode()
    return f"makhroeng-{dotted}-{tag}.whl", files


def description() -> str:
    """What the package says of itself."""
    return ast.get_docstring(ast.parse((PACKAGE / "__init__.py").read_text())) or ""


def digest(data: bytes) -> str:
    return base64.urlsafe_b64encode(hashlib.sha256(data).digest()).rstrip(b"=").decode()


def write(path: Path, files: dict[str, bytes]) -> None:
    with zipfile.ZipFile(path, "w", zipfile.ZIP_STORED) as wheel:
        for name, data in sorted(files.items()):
            entry = zipfile.ZipInfo(name, (1980, 1, 1, 0, 0, 0))
            entry.create_system = 3  # Unix, whose modes these are
            entry.external_attr = (0o100755 if ".so." in name else 0o100644) << 16
            wheel.writestr(entry, data)


def main() -> None:
    if len(sys.argv) != 3:
        sys.exit("usage: wheel.py PREFIX FOLDER")
    prefix, folder = map(Path, sys.argv[1:])
    name, files = contents(prefix)
    write(folder / name, files)
    print(folder / name)


if __name__ == "__main__":
    main()
