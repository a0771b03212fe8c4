"""The LLVM module of a static library is kept while rt builds it: rattle gives it to clang, in a file that it then removes.

    llvm_module.py ARCHIVE WORD..

runs `rt WORD..` in the crate's folder, and keeps the module beside the archive that comes of it.
"""
from __future__ import annotations

import contextlib
import hashlib
import os
import pathlib
import runpy
import shutil
import subprocess
import sys
import tempfile
from collections.abc import Iterator
from typing import Any

# In place of the toolchain's clang: it copies the module, and then runs clang.
CLANG = """#!/bin/sh
for word in "$@"; do
    case "$word" in *.bc) cp "$word" '{module}' || exit 1 ;; esac
done
exec '{clang}' "$@"
"""


def parts_of(archive: pathlib.Path) -> list[pathlib.Path]:
    """The module of an archive, and the note that it is: the sums of both."""
    return [archive.with_suffix(suffix) for suffix in (".bc", ".kept")]


def sums_of(archive: pathlib.Path) -> str:
    return "".join(f"{hashlib.sha256(file.read_bytes()).hexdigest()}\n" for file in (archive, archive.with_suffix(".bc")))


def module_of(archive: pathlib.Path) -> pathlib.Path | None:
    """The module that an archive was made of, if it was kept."""
    module, note = parts_of(archive)
    is_kept = all(file.exists() for file in (archive, module, note)) and note.read_text(encoding="ascii") == sums_of(archive)
    return module if is_kept else None


def toolchain_in(folder: pathlib.Path, kit: pathlib.Path, module: pathlib.Path) -> str:
    """A toolchain whose clang keeps the module."""
    (folder / "bin").mkdir()
    (folder / "lib").symlink_to(kit / "lib")
    for tool in (kit / "bin").iterdir():
        (folder / "bin" / tool.name).symlink_to(tool)
    clang = folder / "bin/clang"
    clang.unlink()
    clang.write_text(CLANG.format(module=module, clang=kit / "bin/clang"), encoding="utf-8")
    clang.chmod(0o755)
    return str(folder)


@contextlib.contextmanager
def keeping(archive: pathlib.Path) -> Iterator[None]:
    """While this lasts, a build of the archive in this process, by rt's own Python, keeps the module."""
    for file in parts_of(archive):
        file.unlink(missing_ok=True)
    module, note = parts_of(archive)
    popen = subprocess.Popen
    with tempfile.TemporaryDirectory() as folder:
        class Keeping(popen):  # type: ignore[valid-type, misc]
            def __init__(self, words: Any, *more: Any, **options: Any) -> None:
                if isinstance(words, list) and "--toolchain" in words and pathlib.Path(words[words.index("-o") + 1]).name == archive.name:
                    place = words.index("--toolchain") + 1
                    other = toolchain_in(pathlib.Path(tempfile.mkdtemp(dir=folder)), pathlib.Path(words[place]), module)
                    words = [*words[:place], other, *words[place + 1:]]
                super().__init__(words, *more, **options)
        subprocess.Popen = Keeping  # type: ignore[assignment, misc]
        try:
            yield
        finally:
            subprocess.Popen = popen  # type: ignore[misc]
            if archive.exists() and module.exists():
                note.write_text(sums_of(archive), encoding="ascii")


def main() -> None:
    archive, *words = sys.argv[1:]
    rt = shutil.which("rt")
    if not rt:
        sys.exit("llvm_module: there is no rt")
    sys.argv = [rt, *words]
    sys.path[0] = os.path.dirname(os.path.realpath(rt))
    with keeping(pathlib.Path(archive).absolute()):
        runpy.run_path(rt, run_name="__main__")


if __name__ == "__main__":
    main()
