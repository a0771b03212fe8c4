"""The text of a page: its template, style and scripts, which are in the folder `page`, and the data of a run."""
from __future__ import annotations

import pathlib
import re
import sys
from html import escape

from .page_data import PageData
from .svg_shapes import plural
from .trace_lines import Lines

PARTS = pathlib.Path(__file__).resolve().parent / "page"
SCRIPTS = ("shapes", "data", "fields", "timeline", "cycle", "panels", "main")
# A trace with more bytes takes long to read, and its page to open.
MOST_BYTES = 10_000_000


class Measured:
    """A stream of lines that warns once its size is above what a page is for."""

    def __init__(self, tool: str, stream: Lines) -> None:
        self.tool, self.stream = tool, stream
        self.size = 0

    def readline(self) -> str:
        line = self.stream.readline()
        before, self.size = self.size, self.size + len(line)
        if before <= MOST_BYTES < self.size:
            print(f"{self.tool}: warning: a trace of more than {MOST_BYTES // 1_000_000} MB makes a large page; "
                  "tools/trace-part keeps a part of it", file=sys.stderr)
        return line


def summary(data: PageData) -> str:
    """The ring and the totals of its run, in words."""
    ring = data.trace.head.ring
    counts = {kind: sum(event.kind == kind for event in data.events)
              for kind in ("fall", "stop", "complete", "refused", "broken")}
    missing = sum(len(cycles) for cycles in data.missing.values())
    return (f"{ring.rate} bits per µs, cycle time {ring.cycle_time} µs. Cycles {data.first} to {data.last}: "
            f"{plural(counts['fall'], 'fall')}, {plural(counts['stop'], 'stop')}, {plural(missing, 'missing AT')}; requests: "
            f"{counts['complete']} complete, {counts['refused']} refused, {counts['broken']} broken.")


def page_text(data: PageData) -> str:
    """The whole page. Only the title and the summary are texts in it; all else is in the packed data."""
    values = {
        "title": escape(f"Run of a ring of {plural(len(data.addresses), 'drive')}"),
        "summary": escape(summary(data)),
        "style": "".join((PARTS / f"{name}.css").read_text(encoding="utf-8") for name in ("colours", "page")),
        "script": "\n".join((PARTS / f"{name}.js").read_text(encoding="utf-8") for name in SCRIPTS),
        "data": data.packed(),
    }
    template = (PARTS / "page.html").read_text(encoding="utf-8")
    return re.sub(r"{{(\w+)}}", lambda field: values[field[1]], template)
