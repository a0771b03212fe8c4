"""How what rattle has compiled is linked: the library by a C compiler of the user's, and what a release has by those of Debian."""
from __future__ import annotations

import pathlib
import re
import shlex
import shutil
import subprocess
from collections.abc import Sequence

TOP = pathlib.Path(__file__).resolve().parents[2]
# The name by which a program finds the shared library when it starts. Its number rises when a program would have to be compiled again.
SONAME = "libsercos.so.0"
COMMON = ["-O2", "-Wall", "-Wextra", "-Werror"]


class Missing(Exception):
    """What the machine lacks, or what failed."""


def run(words: Sequence[str | pathlib.Path]) -> str:
    """The output of a command that has to succeed."""
    try:
        ran = subprocess.run([str(word) for word in words], stdout=subprocess.PIPE, stderr=subprocess.STDOUT, text=True, errors="replace")
    except FileNotFoundError as fault:
        raise Missing(f"there is no {words[0]}") from fault
    if ran.returncode:
        raise Missing(f"{ran.stdout}{shlex.join(map(str, words))} failed with status {ran.returncode}")
    return ran.stdout


def version() -> str:
    return (TOP / "VERSION").read_text(encoding="utf-8").strip()


def link_library(cc: Sequence[str], ar: str, archive: pathlib.Path, to: pathlib.Path) -> None:
    """Makes the shared library, under its soname, and the static one in a folder, from the archive of sercos_c and library/heap.c."""
    heap = to / "heap.o"
    run([*cc, "-std=c11", *COMMON, "-fPIC", "-c", TOP / "library/heap.c", "-o", heap])
    run([*cc, "-shared", "-o", to / SONAME, heap, "-Wl,--whole-archive", archive, "-Wl,--no-whole-archive",
         f"-Wl,--version-script={TOP / 'library/exports.map'}", f"-Wl,-soname,{SONAME}", "-Wl,-z,defs,-z,relro,-z,now"])
    shutil.copyfile(archive, to / "libsercos.a")
    run([ar, "qsD", to / "libsercos.a", heap])
    heap.unlink()


class Cross:
    """The compilers of Debian for a processor, and its C library musl."""

    def __init__(self, arch: str) -> None:
        self.arch, self.triplet = arch, f"{arch}-linux-gnu"
        self.musl, self.musl_headers = pathlib.Path(f"/usr/lib/{arch}-linux-musl"), pathlib.Path(f"/usr/include/{arch}-linux-musl")
        debian = {"x86_64": "amd64", "aarch64": "arm64"}[arch]
        needs = {self.tool("gcc"): "gcc libc6-dev" if arch == "x86_64" else f"gcc-{self.triplet} libc6-dev-{debian}-cross",
                 str(self.musl / "libc.a"): f"musl-dev:{debian}"}
        missing = [package for place, package in needs.items() if not shutil.which(place) and not pathlib.Path(place).exists()]
        if missing:
            raise Missing(f"a release for {arch} needs Debian's packages {' '.join(missing)}")
        self.debian, self.version = debian, run([self.tool("gcc"), "-dumpfullversion"]).strip()

    def tool(self, name: str) -> str:
        return f"{self.triplet}-{name}"

    def compile_parts(self, to: pathlib.Path, flags: Sequence[str]) -> list[pathlib.Path]:
        """Compiles the C that a proved program calls."""
        made = []
        for name in ("words", "heap"):
            made.append(to / f"{name}.o")
            run([self.tool("gcc"), "-std=c11", *COMMON, "-fstack-clash-protection", *flags, "-c", TOP / f"library/{name}.c",
                 "-o", made[-1]])
        return made

    def link_static(self, compiled: pathlib.Path, to: pathlib.Path, work: pathlib.Path) -> None:
        """Links a program that needs nothing of the system: with musl, and nothing is loaded when it starts."""
        headers = [str(self.musl_headers), run([self.tool("gcc"), "-print-file-name=include"]).strip()]
        parts = self.compile_parts(work, ["-DWRAP_MAIN", "-fno-stack-protector", "-nostdinc", *(f"-isystem{it}" for it in headers)])
        libc, first, last = self.musl / "libc.a", [self.musl / "crt1.o", self.musl / "crti.o"], self.musl / "crtn.o"
        run([self.tool("gcc"), "-static", "-nostdlib", "-nostartfiles", "-Wl,--wrap=main", "-o", to, *first, compiled, *parts,
             libc, "-lgcc", libc, last])
        run([self.tool("strip"), to])

    def link_dynamic(self, compiled: pathlib.Path, to: pathlib.Path, work: pathlib.Path) -> None:
        """Links a program with the system's glibc, as a distribution wants it."""
        parts = self.compile_parts(work, ["-fPIE"])
        run([self.tool("gcc"), "-pie", "-o", to, compiled, *parts, "-Wl,-z,relro,-z,now"])
        run([self.tool("strip"), to])

    def needed_glibc(self, file: pathlib.Path) -> tuple[int, ...]:
        """The least version of glibc that has what a file takes of it."""
        found = re.findall(r"GLIBC_(\d+(?:\.\d+)*)", run([self.tool("objdump"), "-T", file]))
        return max((tuple(map(int, version.split("."))) for version in found), default=(0,))


def pkg_config(prefix: str, lib: str) -> str:
    """The text of sercos.pc. The prefix is written from the folder of that file, and the folder of the libraries from the prefix."""
    return f"""prefix=${{pcfiledir}}{prefix}

Name: sercos
Description: The verified ends of a SERCOS ring (IEC 61491:1995)
Version: {version()}
Cflags: -I${{prefix}}/include
Libs: -L${{prefix}}{lib} -lsercos
"""
