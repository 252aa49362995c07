"""Builds the package for pip, by Python's standard library alone: a backend as PEP 517 and PEP 660 define it.

pip needs nothing but this folder: no network, no setuptools and no wheel. Nothing is left in the folder. The same sources give the
same bytes; in a checkout of git, what is built names the commit."""
from __future__ import annotations

import base64
import gzip
import hashlib
import importlib.util
import io
import os
import re
import subprocess
import tarfile
import zipfile
from typing import Any, Optional

NAME = "gavyreto"
VERSION, PAGE = f"{NAME}/version.py", "README.md"
SUMMARY = "Rows of SQL Server's responses as Python values, by the program tds_replay"
REQUIRES_PYTHON = ">=3.9"
TAG = "py3-none-any"
COMMANDS = "[console_scripts]\ngavyreto = gavyreto.__main__:main\n"
HERE = os.path.dirname(os.path.abspath(__file__))
EARLIEST = (1980, 1, 1, 0, 0, 0)  # the first time that a zip file can hold

Files = dict[str, bytes]


def read(name: str) -> bytes:
    """The bytes of a file of this folder."""
    with open(os.path.join(HERE, name), "rb") as file:
        return file.read()


def version() -> str:
    """The version that the package has in its sources."""
    found = re.search(rb'(?m)^__version__ = "([\d.]+)"$', read(VERSION))
    if not found:
        raise ValueError(f"no version in {VERSION}")
    return found[1].decode()


def origin() -> tuple[str, int]:
    """The commit that this folder is of, with `+modified` if its repository differs from it, and its time in seconds; nothing where
    that isn't known. An archive of the sources has both in a file, in place of what a checkout has there."""
    top = os.path.dirname(HERE)
    noted = os.path.join(top, "tools", "lib", "origin.txt")
    if not os.path.exists(noted):
        return "", 0
    if not os.path.exists(os.path.join(top, ".git")):
        found, when = read(noted).decode().split()
        return (found, int(when)) if when.isdigit() else ("", 0)
    try:
        said, changed = (
            subprocess.run(["git", "-C", top, *words], capture_output=True, text=True, check=True).stdout.split()
            for words in (["log", "-1", "--format=%H %ct"], ["status", "--porcelain"]))
    except (OSError, subprocess.CalledProcessError):
        return "", 0
    return said[0] + ("+modified" if changed else ""), int(said[1])


def installed(name: str) -> bytes:
    """The bytes of a file as it is installed: that of the version tells the commit too."""
    data = read(name)
    return data.replace(b'COMMIT = ""', b'COMMIT = "%s"' % origin()[0].encode()) if name == VERSION else data


def metadata() -> str:
    """What the package says of itself, and its page."""
    fields = {
        "Metadata-Version": "2.1", "Name": NAME, "Version": version(), "Summary": SUMMARY, "Requires-Python": REQUIRES_PYTHON,
        "Description-Content-Type": "text/markdown",
    }
    return "".join(f"{field}: {value}\n" for field, value in fields.items()) + "\n" + read(PAGE).decode()


def modules() -> list[str]:
    """The files that are installed, by their paths in this folder."""
    found = []
    for at, _, names in os.walk(os.path.join(HERE, NAME)):
        found += [os.path.relpath(os.path.join(at, name), HERE) for name in names if name.endswith((".py", "py.typed"))]
    return sorted(found)


def dist_info() -> Files:
    """The files that describe an installed package, but its record."""
    folder = f"{NAME}-{version()}.dist-info"
    wheel = f"Wheel-Version: 1.0\nGenerator: {NAME}\nRoot-Is-Purelib: true\nTag: {TAG}\n"
    return {f"{folder}/METADATA": metadata().encode(), f"{folder}/WHEEL": wheel.encode(), f"{folder}/entry_points.txt": COMMANDS.encode()}


def record(files: Files) -> bytes:
    """The record of an installed package: each file with its sum and size, and the record itself without."""
    lines = []
    for name, data in files.items():
        digest = base64.urlsafe_b64encode(hashlib.sha256(data).digest()).rstrip(b"=").decode()
        lines.append(f"{name},sha256={digest},{len(data)}\n")
    return "".join([*lines, f"{NAME}-{version()}.dist-info/RECORD,,\n"]).encode()


def write_wheel(folder: str, files: Files) -> str:
    """Writes a wheel with these files, and returns its name."""
    name = f"{NAME}-{version()}-{TAG}.whl"
    whole = {**files, **dist_info()}
    whole[f"{NAME}-{version()}.dist-info/RECORD"] = record(whole)
    with zipfile.ZipFile(os.path.join(folder, name), "w", zipfile.ZIP_DEFLATED) as wheel:
        for path, data in whole.items():
            entry = zipfile.ZipInfo(path, EARLIEST)
            entry.external_attr = 0o100644 << 16
            entry.compress_type = zipfile.ZIP_DEFLATED
            wheel.writestr(entry, data)
    remove_compiled()
    return name


def remove_compiled() -> None:
    """Removes what Python compiled of this module when it was imported."""
    compiled = importlib.util.cache_from_source(__file__)
    if os.path.exists(compiled):
        os.remove(compiled)
        if not os.listdir(os.path.dirname(compiled)):
            os.rmdir(os.path.dirname(compiled))


def build_wheel(wheel_directory: str, config_settings: Optional[dict[str, Any]] = None, metadata_directory: Optional[str] = None) -> str:
    """Builds the wheel that pip installs (PEP 517)."""
    return write_wheel(wheel_directory, {path: installed(path) for path in modules()})


def build_editable(wheel_directory: str, config_settings: Optional[dict[str, Any]] = None, metadata_directory: Optional[str] = None) -> str:
    """Builds the wheel of `pip install --editable`, which leads Python to this folder (PEP 660)."""
    return write_wheel(wheel_directory, {f"{NAME}.pth": f"{HERE}\n".encode()})


def build_sdist(sdist_directory: str, config_settings: Optional[dict[str, Any]] = None) -> str:
    """Builds an archive of the sources (PEP 517)."""
    top = f"{NAME}-{version()}"
    files = {path: installed(path) for path in ["pyproject.toml", os.path.basename(__file__), PAGE, *modules()]}
    files["PKG-INFO"] = metadata().encode()
    packed = io.BytesIO()
    with tarfile.open(fileobj=packed, mode="w", format=tarfile.PAX_FORMAT) as archive:
        for path, data in files.items():
            entry = tarfile.TarInfo(f"{top}/{path}")
            entry.size, entry.mode = len(data), 0o644
            archive.addfile(entry, io.BytesIO(data))
    with open(os.path.join(sdist_directory, f"{top}.tar.gz"), "wb") as file:
        file.write(gzip.compress(packed.getvalue(), 9, mtime=0))
    remove_compiled()
    return f"{top}.tar.gz"
