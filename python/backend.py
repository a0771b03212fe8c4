"""Builds the wheel for pip (PEP 517): the package lokbrez, and beside it the shared library that tools/library made."""
from __future__ import annotations

import base64
import hashlib
import os
import pathlib
import sysconfig
import time
import zipfile

HERE = pathlib.Path(__file__).resolve().parent
TOP = HERE.parent
METADATA = """Metadata-Version: 2.1
Name: lokbrez
Version: {version}
Summary: The verified ends of a SERCOS ring (IEC 61491:1995)
License: Apache-2.0
Requires-Python: >=3.9
"""
WHEEL = """Wheel-Version: 1.0
Generator: lokbrez
Root-Is-Purelib: false
{tags}"""
# The first moment that a file of a wheel can have: 1980-01-01.
FIRST = 315532800


def moment() -> tuple[int, int, int, int, int, int]:
    """The time of each file: that of SOURCE_DATE_EPOCH, else the first one. The same files are the same wheel."""
    at = time.gmtime(max(int(os.environ.get("SOURCE_DATE_EPOCH", FIRST)), FIRST))
    return at.tm_year, at.tm_mon, at.tm_mday, at.tm_hour, at.tm_min, at.tm_sec


def files(version: str, tag: str, library: pathlib.Path) -> dict[str, bytes]:
    """The files of the wheel but its record, by their names."""
    found = {f"lokbrez/{path.name}": path.read_bytes() for path in sorted((HERE / "lokbrez").iterdir()) if path.suffix in (".py", ".typed")}
    found["lokbrez/trace_lines.py"] = (TOP / "tools" / "shared" / "trace_lines.py").read_bytes()
    found["lokbrez/libsercos.so"] = library.read_bytes()
    folder = f"lokbrez-{version}.dist-info"
    found[f"{folder}/METADATA"] = METADATA.format(version=version).encode()
    language, abi, platforms = tag.split("-")
    tags = "".join(f"Tag: {language}-{abi}-{platform}\n" for platform in platforms.split("."))
    found[f"{folder}/WHEEL"] = WHEEL.format(tags=tags).encode()
    found[f"{folder}/LICENSE"] = (TOP / "LICENSE").read_bytes()
    return found


def record_of(found: dict[str, bytes], name: str) -> bytes:
    """The record of a wheel: each file with its sum and its length, and itself without."""
    def row(file: str, text: bytes) -> str:
        digest = base64.urlsafe_b64encode(hashlib.sha256(text).digest()).rstrip(b"=").decode()
        return f"{file},sha256={digest},{len(text)}\n"
    return ("".join(row(file, text) for file, text in found.items()) + f"{name},,\n").encode()


def write_wheel(folder: pathlib.Path, tag: str, library: pathlib.Path, licences: dict[str, bytes]) -> str:
    """Writes the wheel over a library to a folder, with the licences of others by their names, and returns the name of its file."""
    version = (TOP / "VERSION").read_text(encoding="utf-8").strip()
    found, info = files(version, tag, library), f"lokbrez-{version}.dist-info"
    found |= {f"{info}/licenses/{name}": text for name, text in licences.items()}
    found[f"{info}/RECORD"] = record_of(found, f"{info}/RECORD")
    name = f"lokbrez-{version}-{tag}.whl"
    with zipfile.ZipFile(folder / name, "w") as wheel:
        for file, text in found.items():
            row = zipfile.ZipInfo(file, moment())
            row.external_attr, row.compress_type = 0o644 << 16, zipfile.ZIP_DEFLATED
            wheel.writestr(row, text)
    return name


def build_wheel(wheel_directory: str, config_settings: object = None, metadata_directory: object = None) -> str:
    """Writes the wheel of this machine to a folder, over the library in build/."""
    library = TOP / "build" / "libsercos.so"
    if not library.exists():
        raise SystemExit(f"{library} isn't there: run {TOP / 'tools' / 'library'} first")
    tag = "py3-none-" + sysconfig.get_platform().replace("-", "_").replace(".", "_")
    return write_wheel(pathlib.Path(wheel_directory), tag, library, {})


def build_sdist(sdist_directory: str, config_settings: object = None) -> str:
    """Refuses: the library is made in the repository."""
    raise SystemExit("install lokbrez from its repository: tools/library, and then pip install ./python")
