"""Builds a wheel of this folder, as pip asks for it. It needs nothing but Python.

If the variable POKHNIER_NIGHT has the absolute path of a program `night`, the wheel carries it, and
is one for Linux on x86-64:

    POKHNIER_NIGHT=$PWD/crates/night/out/night pip wheel --no-deps ./clients/python
"""

from __future__ import annotations

import base64
import hashlib
import os
import tomllib
import zipfile
from collections.abc import Iterator
from typing import Any

HERE = os.path.dirname(os.path.realpath(__file__))
PACKAGE = "pokhnier"
MOMENT = (1980, 1, 1, 0, 0, 0)


def project() -> dict[str, Any]:
    with open(f"{HERE}/pyproject.toml", "rb") as file:
        found: dict[str, Any] = tomllib.load(file)["project"]
    return found


def files() -> Iterator[tuple[str, bytes, int]]:
    """The files of the package: their paths, what they hold, and their modes."""
    for name in sorted(os.listdir(f"{HERE}/{PACKAGE}")):
        if name.endswith((".py", ".typed")):
            yield f"{PACKAGE}/{name}", read(f"{HERE}/{PACKAGE}/{name}"), 0o644
    if program := os.environ.get("POKHNIER_NIGHT"):
        yield f"{PACKAGE}/night", read(program), 0o755


def read(path: str) -> bytes:
    with open(path, "rb") as file:
        return file.read()


def described(tag: str) -> Iterator[tuple[str, bytes, int]]:
    """The files that describe the wheel."""
    it = project()
    folder = f"{PACKAGE}-{it['version']}.dist-info"
    about = (f"Metadata-Version: 2.1\nName: {it['name']}\nVersion: {it['version']}\n"
             f"Summary: {it['description']}\nRequires-Python: {it['requires-python']}\n"
             "Description-Content-Type: text/markdown\n\n")
    yield f"{folder}/METADATA", about.encode() + read(f"{HERE}/{it['readme']}"), 0o644
    is_pure = str(tag.endswith("any")).lower()
    yield (f"{folder}/WHEEL",
           f"Wheel-Version: 1.0\nGenerator: wheels\nRoot-Is-Purelib: {is_pure}\nTag: {tag}\n"
           .encode(), 0o644)


def build_wheel(wheel_directory: str, config_settings: object = None,
                metadata_directory: object = None) -> str:
    """Writes the wheel, and returns its name."""
    platform = "linux_x86_64" if os.environ.get("POKHNIER_NIGHT") else "any"
    tag = f"py3-none-{platform}"
    name = f"{PACKAGE}-{project()['version']}-{tag}.whl"
    rows = []
    with zipfile.ZipFile(f"{wheel_directory}/{name}", "w", zipfile.ZIP_DEFLATED) as wheel:
        for path, data, mode in (*files(), *described(tag)):
            put(wheel, path, data, mode)
            digest = base64.urlsafe_b64encode(hashlib.sha256(data).digest()).rstrip(b"=").decode()
            rows.append(f"{path},sha256={digest},{len(data)}\n")
        record = f"{PACKAGE}-{project()['version']}.dist-info/RECORD"
        put(wheel, record, "".join([*rows, f"{record},,\n"]).encode(), 0o644)
    return name


def put(wheel: zipfile.ZipFile, path: str, data: bytes, mode: int) -> None:
    entry = zipfile.ZipInfo(path, MOMENT)
    entry.external_attr = (0o100000 | mode) << 16
    entry.compress_type = zipfile.ZIP_DEFLATED
    wheel.writestr(entry, data)
