"""The folder of a release: what the repository has for who uses it, with the programs and the library, and without the sources."""
from __future__ import annotations

import os
import pathlib
import shutil
import subprocess
from collections.abc import Iterable

from .linking import SONAME, TOP, Missing, pkg_config, version

# What is handed out, as git has it, and what of that is of no use without the sources.
PARTS = ["README.md", "CHANGELOG.md", "CITATION.cff", "CONTRIBUTING.md", "LICENSE", "VERSION", "sercos", "sercos_rings",
         "tools", "examples", "schema", "docs", "man", "completions", "include"]
FOR_SOURCES = {"tools/build", "tools/library", "tools/page", "tools/release", *(f"tools/shared/{name}.py" for name in (
    "build_times", "building", "compiled", "crates", "debian", "linking", "llvm_module", "proving", "release_folder", "statements",
    "web_text", "webassembly"))}
FOLDERS_FOR_SOURCES = ("tools/shared/web/",)


def git(*words: str) -> str:
    """What git says of the repository."""
    ran = subprocess.run(["git", "-C", str(TOP), *words], capture_output=True, text=True)
    if ran.returncode:
        raise Missing(f"git {words[0]}: {ran.stderr.strip()}")
    return ran.stdout


def copy(source: pathlib.Path, to: pathlib.Path, mode: int | None = None) -> None:
    """Copies a file, of which no more than its mode is kept: whether it is a program."""
    to.parent.mkdir(parents=True, exist_ok=True)
    shutil.copyfile(source, to)
    is_program = source.stat().st_mode & 0o100
    to.chmod(mode or (0o755 if is_program else 0o644))


def files_of(top: pathlib.Path) -> list[pathlib.Path]:
    """The files and links below a folder, in an order of their own."""
    return sorted(path for path in top.rglob("*") if path.is_symlink() or path.is_file())


class Linked:
    """The programs and the library for a processor, linked into a folder: static programs, and those for a distribution."""

    def __init__(self, folder: pathlib.Path) -> None:
        self.static, self.dynamic = folder / "static", folder / "dynamic"
        self.shared, self.archive = folder / SONAME, folder / "libsercos.a"
        for made in (self.static, self.dynamic):
            made.mkdir(parents=True)


def stage_library(linked: Linked, to: pathlib.Path, lib: str) -> None:
    """The library in lib/ of a prefix, with its two names, and what pkg-config needs, and the header in include/."""
    whole = f"libsercos.so.{version()}"
    copy(linked.shared, to / lib / whole, 0o644)
    for name in (SONAME, "libsercos.so"):
        (to / lib / name).symlink_to(whole)
    copy(linked.archive, to / lib / "libsercos.a", 0o644)
    (to / lib / "pkgconfig").mkdir()
    (to / lib / "pkgconfig/sercos.pc").write_text(pkg_config("/.." * (lib.count("/") + 2), f"/{lib}"), encoding="utf-8")
    copy(TOP / "include/sercos.h", to / "include/sercos.h")


def stage(to: pathlib.Path, programs: pathlib.Path, parts: Iterable[str]) -> None:
    """The parts of the repository that are handed out, and the programs in libexec/."""
    for name in git("ls-files", "-z", "--", *parts).split("\0")[:-1]:
        if name not in FOR_SOURCES and not name.startswith(FOLDERS_FOR_SOURCES):
            copy(TOP / name, to / name)
    for program in sorted(programs.iterdir()):
        copy(program, to / "libexec" / program.name, 0o755)


def set_times(top: pathlib.Path, epoch: int) -> None:
    """Gives every file the time of the release, and folders and programs the modes that they have for everybody."""
    for path in [top, *top.rglob("*")]:
        if not path.is_symlink():
            path.chmod(0o755 if path.is_dir() or path.stat().st_mode & 0o100 else 0o644)
        os.utime(path, (epoch, epoch), follow_symlinks=False)
