"""A ring under its document's script: the trace of `run`, cycle by cycle."""
from __future__ import annotations

import io
from collections.abc import Iterator
from types import TracebackType
from typing import NamedTuple, Optional

from .commands import why_refused
from .errors import Refused, Status, must
from .library import C, Held, Text, bytes_of
from .trace_lines import TRACE_KINDS, Head, Line, Trace, read_line


class Ring(Held):
    """A ring of a document. The trace is `head()`, then `lines()` after each `cycle()` that returned True, and then `end()`."""

    kind = "ring"

    def __init__(self, ring: Text) -> None:
        super().__init__()
        document = bytes_of(ring)
        status = C["ring_open"](document, len(document), self._handle)
        if status == Status.REFUSED:
            raise Refused(f"the ring document is refused: {why_refused(document)}")
        must(status, "ring.open")

    def head(self) -> str:
        """Returns the first lines of the trace: version, ring, drives, order."""
        return self._text("head")

    def cycle(self) -> bool:
        """Makes the next cycle. False: all cycles of the document have been made."""
        status = self._call("cycle")
        if status != Status.NO:
            must(status, "ring.cycle")
        return status == Status.DONE

    def lines(self) -> str:
        """Returns the lines of the cycle made last; none before the first."""
        return self._text("lines")

    def end(self) -> str:
        """Returns the last line of a trace: the totals of the cycles made so far."""
        return self._text("end")


class Cycle(NamedTuple):
    """A cycle of a run, and its lines: named tuples as `trace_lines` reads them, in the order of the trace."""

    number: int
    lines: tuple[Line, ...]


class Run:
    """The cycles of a ring, as they are made. `head` is the head of the trace, `totals` its last line for the cycles made so far."""

    def __init__(self, ring: Text) -> None:
        self._ring, self._made = Ring(ring), 0
        text = self._ring.head()
        self.head: Head = Trace(io.StringIO(text)).head
        self._place = text.count("\n")

    def __iter__(self) -> Iterator[Cycle]:
        return self

    def __next__(self) -> Cycle:
        if not self._ring.cycle():
            raise StopIteration
        texts = self._ring.lines().splitlines()
        lines = tuple(read_line(TRACE_KINDS, text, self._place + number) for number, text in enumerate(texts, 1))
        self._place += len(texts)
        self._made += 1
        return Cycle(self._made - 1, lines)

    @property
    def totals(self) -> Line:
        """The totals of the cycles made so far: a named tuple with `cycles`, `phase`, `complete`, `refused`, `broken`, `falls`, `unseen`."""
        return read_line(TRACE_KINDS, self._ring.end().removesuffix("\n"), self._place + 1)

    def close(self) -> None:
        """Gives the ring's memory back. It is also done with the last reference."""
        self._ring.close()

    def __enter__(self) -> Run:
        return self

    def __exit__(self, kind: Optional[type[BaseException]], error: Optional[BaseException], trace: Optional[TracebackType]) -> None:
        self.close()


def run(ring: Text) -> Run:
    """Returns the cycles of a ring document under its script, one by one. `Refused`: the document is refused.

    >>> for cycle in run(document):
    ...     for line in cycle.lines:
    ...         print(name_of(line), line)
    """
    return Run(ring)
