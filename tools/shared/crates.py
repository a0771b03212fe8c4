"""What crates.txt says: the libraries of each crate, in which order they are built, and a sum of what they are made from."""
from __future__ import annotations

import hashlib
import os
import pathlib
from collections.abc import Iterable, Iterator

PARTS = ("src", "specs", "proofs")
STATIC = " staticlib:"
# What is built runs on every processor of x86-64. Without it rattle builds for those from about 2009 on (x86-64-v2).
CPU = ["--cpu", "x86-64"]


class Crates:
    """The crates of a repository."""

    def __init__(self, top: pathlib.Path) -> None:
        self.top = top
        self.rows: dict[str, str] = {}
        for line in (top / "crates.txt").read_text(encoding="utf-8").splitlines():
            row = line.partition("#")[0].strip()
            if row:
                # A row is the name, words for rt, a colon and the libraries.
                self.rows[row.partition(":")[0].split()[0]] = row

    def libraries(self, name: str) -> list[str]:
        """The libraries of a crate that are crates of the repository. The others are the toolchain's."""
        uses = self.rows.get(name, "").partition(":")[2].replace(",", " ").split()
        return [use for use in uses if use in self.rows]

    def order(self, name: str, found: dict[str, None] | None = None) -> list[str]:
        """A crate after all that it stands on, each after its own libraries."""
        found = {} if found is None else found
        for library in self.libraries(name):
            if library not in found:
                self.order(library, found)
        found[name] = None
        return list(found)

    def text(self, names: Iterable[str], static: str | None) -> str:
        """The rows of these crates. One may be a static library there, which a check links as it does a program."""
        rows = {name: self.rows[name] for name in names}
        if static:
            rows[static] = rows[static].replace(":", STATIC, 1)
        return "".join(f"{row}\n" for row in rows.values())

    def places(self, name: str) -> Iterator[tuple[str, list[str]]]:
        """The folders and the files of a crate's sources, in an order of their own."""
        for part in PARTS:
            for folder, below, files in os.walk(self.top / "crates" / name / part):
                below.sort()
                yield folder, [os.path.join(folder, file) for file in sorted(files)]

    def sum(self, names: Iterable[str]) -> str:
        """A sum of the rows and of the sources of these crates: of names and contents, not of times and places."""
        found = hashlib.sha256()
        for name in sorted(names):
            found.update(f"{self.rows.get(name, '').replace(STATIC, ':')}\n".encode())
            for _, files in self.places(name):
                for file in files:
                    with open(file, "rb") as source:
                        text = source.read()
                    found.update(f"{os.path.relpath(file, self.top)} {len(text)}\n".encode(errors="surrogateescape"))
                    found.update(text)
        return found.hexdigest()

    def last_change(self, names: Iterable[str]) -> int:
        """The latest time at which a source of these crates, a folder of them, or crates.txt was written."""
        paths: list[str | pathlib.Path] = [self.top / "crates.txt"]
        for name in names:
            for folder, files in self.places(name):
                paths += [folder, *files]
        return max(os.stat(path).st_mtime_ns for path in paths)

    def weight(self, name: str) -> int:
        """How long a crate takes, in lines of code. As measured, a line of code takes as long as 30 of proofs, the start of a check as
        250, and what a program links as 1,000."""
        lines = {"code": 0, "proofs": 0}
        for _, files in self.places(name):
            for file in files:
                with open(file, "rb") as source:
                    lines["code" if file.endswith(".rt") else "proofs"] += source.read().count(b"\n")
        links = (self.top / "crates" / name / "src/main.rt").exists()
        return 250 + lines["code"] + lines["proofs"] // 30 + 1000 * links
