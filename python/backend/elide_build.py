"""Builds this package for pip (PEP 517 and 660), by the standard library alone, so that
`pip install ./python` needs no network and no other tool.

The same files give the same bytes, whenever and wherever they are built.
"""

import base64
import gzip
import hashlib
import io
import os
import re
import tarfile
import zipfile
from typing import Any, Dict, List, Optional, Tuple

TOP = os.path.dirname(os.path.dirname(os.path.abspath(__file__)))

# What each archive has: its name by its content.
Files = Dict[str, bytes]

# The first date that a zip archive can tell.
DATE = (1980, 1, 1, 0, 0, 0)

WHEEL = "Wheel-Version: 1.0\nGenerator: elide_build\nRoot-Is-Purelib: true\nTag: py3-none-any\n"


def build_wheel(
    wheel_directory: str,
    config_settings: Optional[Dict[str, Any]] = None,
    metadata_directory: Optional[str] = None,
) -> str:
    """A wheel with the package."""
    return _wheel(wheel_directory, _package())


def build_editable(
    wheel_directory: str,
    config_settings: Optional[Dict[str, Any]] = None,
    metadata_directory: Optional[str] = None,
) -> str:
    """A wheel that leads to the package where it stands."""
    return _wheel(wheel_directory, {"elide.pth": f"{TOP}\n".encode()})


def build_sdist(sdist_directory: str, config_settings: Optional[Dict[str, Any]] = None) -> str:
    """An archive of the sources, of which a wheel can be built."""
    top = "-".join(_name_and_version())
    files = {
        **_package(),
        **{name: _read(name) for name in ("pyproject.toml", "README.md", "backend/elide_build.py")},
        "PKG-INFO": _metadata(),
    }
    packed = io.BytesIO()
    with tarfile.open(mode="w", fileobj=packed, format=tarfile.PAX_FORMAT) as archive:
        for name, content in sorted(files.items()):
            entry = tarfile.TarInfo(f"{top}/{name}")
            entry.size, entry.mode = len(content), 0o644
            archive.addfile(entry, io.BytesIO(content))
    with open(os.path.join(sdist_directory, f"{top}.tar.gz"), "wb") as file:
        file.write(gzip.compress(packed.getvalue(), mtime=0))
    return f"{top}.tar.gz"


def _wheel(folder: str, files: Files) -> str:
    top = "-".join(_name_and_version())
    info = f"{top}.dist-info"
    files = {**files, f"{info}/METADATA": _metadata(), f"{info}/WHEEL": WHEEL.encode()}
    rows = [f"{name},sha256={_sum(row)},{len(row)}" for name, row in sorted(files.items())]
    record = "".join(f"{row}\n" for row in [*rows, f"{info}/RECORD,,"])
    files[f"{info}/RECORD"] = record.encode()
    name = f"{top}-py3-none-any.whl"
    with zipfile.ZipFile(os.path.join(folder, name), "w", zipfile.ZIP_DEFLATED) as archive:
        for path, content in files.items():
            entry = zipfile.ZipInfo(path, DATE)
            entry.compress_type, entry.external_attr = zipfile.ZIP_DEFLATED, 0o100644 << 16
            archive.writestr(entry, content)
    return name


def _package() -> Files:
    """The files of the package."""
    names = sorted(os.listdir(os.path.join(TOP, "elide")))
    return {f"elide/{it}": _read(f"elide/{it}") for it in names if it.endswith((".py", ".typed"))}


def _read(name: str) -> bytes:
    with open(os.path.join(TOP, name), "rb") as file:
        return file.read()


def _project() -> Dict[str, str]:
    """The texts of the table `project` of pyproject.toml, which Python 3.9 has no reader for."""
    table = _read("pyproject.toml").decode().split("[project]\n")[1].split("\n[")[0]
    found: List[Tuple[str, str]] = re.findall(r'^([a-z-]+) = "([^"\\]*)"$', table, re.MULTILINE)
    return dict(found)


def _name_and_version() -> Tuple[str, str]:
    """The package's name, and its version, which it tells itself."""
    found = re.search(
        r'^__version__ = "([^"]+)"$', _read("elide/__init__.py").decode(), re.MULTILINE
    )
    assert found is not None
    return _project()["name"], found[1]


def _metadata() -> bytes:
    project = _project()
    name, version = _name_and_version()
    fields = (
        ("Metadata-Version", "2.1"),
        ("Name", name),
        ("Version", version),
        ("Summary", project["description"]),
        ("Requires-Python", project["requires-python"]),
        ("Description-Content-Type", "text/markdown"),
    )
    head = "".join(f"{field}: {value}\n" for field, value in fields)
    return head.encode() + b"\n" + _read(project["readme"])


def _sum(row: bytes) -> str:
    return base64.urlsafe_b64encode(hashlib.sha256(row).digest()).rstrip(b"=").decode()
