"""Debian packages of a release: lokbrez, libsercos0 and libsercos-dev."""
from __future__ import annotations

import gzip
import hashlib
import os
import pathlib
import shutil
import time
from collections.abc import Mapping
from typing import NamedTuple

from .linking import SONAME, Cross, run, version
from .release_folder import Linked, copy, files_of, set_times, stage, stage_library

MAINTAINER = "Lokbrez maintainers <maintainers@users.noreply.lokbrez.example>"
# Where a release's folder is there, and its programs.
SHARE, LIBEXEC = "usr/share/lokbrez", "usr/libexec/lokbrez"
# The documents, and what they name by links.
READ = ["README.md", "CHANGELOG.md", "CONTRIBUTING.md", "docs", "examples", "include", "schema", "tools"]
# The text that Debian has of the licence.
LICENCE = "usr/share/common-licenses/Apache-2.0"
COMPLETIONS = {"sercos.bash": "usr/share/bash-completion/completions/sercos", "_sercos": "usr/share/zsh/vendor-completions/_sercos",
               "sercos.fish": "usr/share/fish/vendor_completions.d/sercos.fish"}
CONTROL = """Package: {name}
Version: {version}
Architecture: {processor}
Maintainer: {maintainer}
Installed-Size: {size}
Depends: {depends}
Section: {section}
Priority: optional
Description: {summary}
 Lokbrez plans the time slots of a SERCOS drive ring (IEC 61491:1995),
 simulates the ring under a script of faults, and checks and replays captures
 of one. Every function is proved by a checker, from the bits on the ring up
 to the transfers of the service channel.
"""
COPYRIGHT = """Format: https://www.debian.org/doc/packaging-manuals/copyright-format/1.0/
Upstream-Name: lokbrez

Files: *
Copyright: 2026 The Lokbrez authors
License: Apache-2.0
 On Debian systems the text is in /usr/share/common-licenses/Apache-2.0.

Code of others that is compiled in:
"""


class Package(NamedTuple):
    """A package: the folder that it is packed from, and what its control file says."""

    name: str
    top: pathlib.Path
    depends: str
    section: str
    summary: str


def packed(text: bytes) -> bytes:
    return gzip.compress(text, 9, mtime=0)


def glibc(linked: pathlib.Path, cross: Cross) -> str:
    return f"libc6 (>= {'.'.join(map(str, cross.needed_glibc(linked)))})"


def packages(linked: Linked, cross: Cross, work: pathlib.Path) -> list[Package]:
    """The packages, whose folders have no file yet."""
    named = "library of the verified ends of a SERCOS ring"
    return [Package("lokbrez", work / "lokbrez", f"{glibc(linked.dynamic / 'sercos', cross)}, python3", "utils",
                    "plan, simulate and check SERCOS drive rings"),
            Package("libsercos0", work / "libsercos0", glibc(linked.shared, cross), "libs", named),
            Package("libsercos-dev", work / "libsercos-dev", f"libsercos0 (= {version()})", "libdevel", f"{named} (development)")]


def stage_programs(top: pathlib.Path, linked: Linked) -> None:
    """The release's folder in /usr/share, and what the system looks for elsewhere: programs, manual pages, completions."""
    stage(top / SHARE, linked.dynamic, [*READ, "VERSION", "sercos", "sercos_rings"])
    (top / LIBEXEC).parent.mkdir(parents=True)
    os.replace(top / SHARE / "libexec", top / LIBEXEC)
    (top / SHARE / "libexec").symlink_to(os.path.relpath(LIBEXEC, SHARE))
    stage(top / "parts", linked.dynamic, ["man", "completions"])
    (top / "usr/bin").mkdir()
    for program in sorted(linked.dynamic.iterdir()):
        (top / "usr/bin" / program.name).symlink_to(f"../share/lokbrez/{program.name}")
        page = top / "usr/share/man/man1" / f"{program.name}.1.gz"
        page.parent.mkdir(parents=True, exist_ok=True)
        page.write_bytes(packed((top / f"parts/man/man1/{program.name}.1").read_bytes()))
    for name, place in COMPLETIONS.items():
        copy(top / "parts/completions" / name, top / place)
    (top / "usr/share/bash-completion/completions/sercos_rings").symlink_to("sercos")
    shutil.rmtree(top / "parts")
    documents = top / "usr/share/doc/lokbrez"
    documents.mkdir(parents=True)
    for name in READ:
        (documents / name).symlink_to(f"../../lokbrez/{name}")
    for folder in (top / SHARE, documents):
        (folder / "LICENSE").symlink_to(os.path.relpath(top / LICENCE, folder))


def stage_libraries(runtime: pathlib.Path, development: pathlib.Path, linked: Linked, cross: Cross) -> None:
    lib = f"lib/{cross.triplet}"
    stage_library(linked, development / "usr", lib)
    (runtime / "usr" / lib).mkdir(parents=True)
    for name in (f"libsercos.so.{version()}", SONAME):
        os.replace(development / "usr" / lib / name, runtime / "usr" / lib / name)


def write_package(package: Package, cross: Cross, licences: Mapping[str, bytes], epoch: int, out: pathlib.Path) -> None:
    top, control = package.top, package.top / "DEBIAN"
    doc = top / "usr/share/doc" / package.name
    doc.mkdir(parents=True, exist_ok=True)
    texts = {name: text.decode(errors="replace") for name, text in licences.items()}
    # Debian has the text of this one.
    others = "".join(f"\n{name}:\n{text}" for name, text in texts.items() if "Apache License" not in text)
    (doc / "copyright").write_text(COPYRIGHT + others, encoding="utf-8")
    when = time.strftime("%a, %d %b %Y %H:%M:%S +0000", time.gmtime(epoch))
    change = f"{package.name} ({version()}) unstable; urgency=medium\n\n  * Release {version()}.\n\n -- {MAINTAINER}  {when}\n"
    (doc / "changelog.gz").write_bytes(packed(change.encode()))
    set_times(top, epoch)
    files = [path for path in files_of(top) if not path.is_symlink()]
    control.mkdir()
    (control / "control").write_text(CONTROL.format(
        name=package.name, version=version(), processor=cross.debian, maintainer=MAINTAINER, depends=package.depends,
        section=package.section, summary=package.summary, size=sum(path.stat().st_size for path in files) // 1024 + 1), encoding="utf-8")
    (control / "md5sums").write_text("".join(
        f"{hashlib.md5(path.read_bytes()).hexdigest()}  {path.relative_to(top)}\n" for path in files), encoding="utf-8")
    if package.name == "libsercos0":
        (control / "shlibs").write_text(f"libsercos 0 libsercos0 (>= {version()})\n", encoding="utf-8")
        (control / "triggers").write_text("activate-noawait ldconfig\n", encoding="utf-8")
    set_times(top, epoch)
    run(["dpkg-deb", "--root-owner-group", "-Zxz", "--build", top, out / f"{package.name}_{version()}_{cross.debian}.deb"])


def write_packages(linked: Linked, cross: Cross, licences: Mapping[str, bytes], epoch: int, work: pathlib.Path, out: pathlib.Path) -> None:
    """Writes the three packages for a processor. Programs are linked with glibc there."""
    lokbrez, runtime, development = several = packages(linked, cross, work)
    stage_programs(lokbrez.top, linked)
    stage_libraries(runtime.top, development.top, linked, cross)
    for package in several:
        write_package(package, cross, licences, epoch, out)
