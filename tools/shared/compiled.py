"""What the gate leaves for a release: of each product and processor what rattle has compiled, and a note of what it was made from."""
from __future__ import annotations

import json
import re
from collections.abc import Iterable, Mapping
from typing import Any

from .building import TOP, sum_of
from .crates import CPU, Crates
from .llvm_module import module_of
from .web_text import sources

LIBRARY = "sercos_c"
PROGRAMS = ("sercos", "sercos_rings")
# The flags of rattle for each processor that there is a release for.
FLAGS = {"x86_64": CPU, "aarch64": ["--target", "aarch64-unknown-linux-gnu"]}
# What rt ci wrote at the end, when it passed.
GATE = TOP / "out" / "gate.log"
PAGE = TOP / "build" / "lokbrez.html"


class Stale(Exception):
    """What is missing, or older than what it is made from."""


class Compiled:
    """A crate as compiled for a processor: the object file of a program, or the archive of the library."""

    def __init__(self, name: str, arch: str) -> None:
        self.name, self.arch = name, arch
        self.out = TOP / "crates" / name / "out"
        self.file = self.out / (f"lib{name}-{arch}.a" if name == LIBRARY else f"{name}-{arch}.o")
        self.log, self.note = self.file.with_suffix(".log"), self.file.with_suffix(".json")

    def write_note(self, crates: Crates, verdict: str, axioms: Mapping[str, list[str]]) -> None:
        """Notes what the file is, what it was made from, and what rattle said of it."""
        names = crates.order(self.name)
        text = {"crate": self.name, "processor": self.arch, "flags": FLAGS[self.arch], "file": self.file.name, "sha256": sum_of(self.file),
                "sources": {"crates": len(names), "sha256": crates.sum(names)}, "verdict": verdict, "axioms": dict(axioms)}
        self.note.write_text(json.dumps(text, indent=1) + "\n", encoding="utf-8")

    def noted(self, crates: Crates) -> dict[str, Any]:
        """The note, if file and sources are those of which it speaks."""
        if self.file.exists() and self.note.exists():
            found: dict[str, Any] = json.loads(self.note.read_text(encoding="utf-8"))
            if found["sha256"] == sum_of(self.file) and found["sources"]["sha256"] == crates.sum(crates.order(self.name)):
                return found
        raise Stale(f"{self.file.relative_to(TOP)} is missing or older than a source: .ci/run makes it, or .ci/archive after rt ci")


def gate_said(crates: Crates) -> dict[str, Any]:
    """What rt ci said when it passed over the present sources: its last line, what that counts, and its lines on each crate."""
    if not GATE.exists() or GATE.stat().st_mtime_ns < crates.last_change(crates.rows):
        raise Stale("no gate has passed over these sources: .ci/run is the gate")
    lines = GATE.read_text(encoding="utf-8", errors="replace").splitlines()
    count = re.fullmatch(r"(\d+) passed, 0 failed", lines[-1] if lines else "")
    if not count:
        raise Stale(f"the gate ended with {lines[-1:]}")
    ends = [line for line in lines if line.startswith("rt: ok; ")]
    edits = re.search(r"must-fail edits: (\d+) refused", ends[-1] if ends else "")
    refused = int(edits[1]) if edits else 0
    if int(count[1]) != len(crates.rows) + refused:
        raise Stale(f"the gate counts {count[1]}, which isn't {len(crates.rows)} crates and {refused} edits")
    return {"command": "rt ci", "last_line": lines[-1], "line_before": ends[-1] if ends else "",
            "counts": f"{len(crates.rows)} crates, each proved with its tests, and {refused} edits of must-fail/, each a wrong body or statement "
                      "that was refused. What ran, below, adds nothing when it passes, and a failure each when it doesn't.",
            "crates": crate_lines(crates, lines),
            "ran": [line for line in lines if re.match(r"rt: \w+(: its tests passed$| ran\b)", line)]}


def crate_lines(crates: Crates, lines: Iterable[str]) -> list[dict[str, str]]:
    """The lines of rt ci on each crate and on its tests: what it said, and its verdict, which a crate that was kept has none of."""
    found: list[dict[str, str]] = []
    verdict = ""
    for line in lines:
        said = re.fullmatch(r"rt: (\w+)(: its tests are)? (?:proved|is kept: .*)", line)
        if line.startswith("== "):
            verdict = ""
        elif line.startswith("logic=proved "):
            # What is compiled after the check says the same again.
            verdict = verdict or line
        elif said and said[1] in crates.rows:
            found.append({"crate": said[1], "of": "its tests" if said[2] else "the crate", "said": line})
            if verdict:
                found[-1]["verdict"], verdict = verdict, ""
    unnamed = set(crates.rows) - {row["crate"] for row in found if row["of"] == "the crate"}
    if unnamed:
        raise Stale(f"the gate's log has no line on {', '.join(sorted(unnamed))}")
    return sorted(found, key=lambda row: (row["crate"], row["of"] != "the crate"))


def axioms_of(said: str) -> dict[str, list[str]]:
    """The functions in C on whose contracts a verdict rests, by the crates that declare them, as rattle lists them whole."""
    lists = re.findall(r"(?m)^axioms (\w+): .*\n((?: .*\n)*)", said)
    return {crate: re.findall(r"(?m)^ +(\S+) +reached$", listed) for crate, listed in lists}


def page_part() -> dict[str, Any] | None:
    """What the page that tools/page has made is made of, or None where there is no page."""
    if not PAGE.exists():
        return None
    made = Compiled(LIBRARY, "x86_64")
    module = module_of(made.file)
    notes = [PAGE.with_name(name) for name in ("made-module", "made-page")]
    if module and all(note.exists() for note in notes):
        of_module, of_page = (note.read_text(encoding="utf-8").splitlines() for note in notes)
        own = [sum_of(file) for file in (TOP / "tools/page", *sources())]
        if sum_of(module) in of_module and of_page[:-2] == [of_module[-1], *own] and of_page[-1] == sum_of(PAGE):
            return {"sha256": sum_of(PAGE), "crate": LIBRARY, "compiled": made.file.name, "linked_with": ["library/linear_heap.c"],
                    "by_way_of": "the LLVM module of that archive, retargeted to WebAssembly by tools/page"}
    raise Stale(f"build/{PAGE.name} isn't made of the library and the texts as they are: tools/page makes it")
