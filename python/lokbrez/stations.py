"""The two ends of a ring: contents of frames in, contents of frames out, in the order of a cycle."""
from __future__ import annotations

from ctypes import c_uint16
from typing import NamedTuple, Optional, Union

from .commands import why_refused
from .errors import NoSuchDrive, Refused, Status, must
from .library import C, Held, Out, Text, bytes_of
from .telegrams import in_range


class Timed(NamedTuple):
    """A content, and its start in microseconds after the MST's end."""

    start: int
    content: bytes


class NoElement(NamedTuple):
    """A data block has no such element: the error code that a service transfer gets."""

    code: int


class Station(Held):
    """What a drive and a master share."""

    def _opened(self, status: int, document: bytes) -> None:
        if status == Status.REFUSED:
            raise Refused(f"the ring document is refused: {why_refused(document)}")
        must(status, f"{self.kind}.open")

    def _timed(self, name: str) -> Optional[Timed]:
        start = c_uint16()
        content = self._content(name, start)
        return None if content is None else Timed(start.value, content)


class Drive(Station):
    """A drive of a ring document, in phase 0 at first. In each cycle: `hear_mst`, `at`, `hear_mdt`; `restart` between two cycles.

    >>> with Drive(document, 0) as drive:
    ...     drive.hear_mst(0, mst_write(0))
    ...     drive.hear_mdt(None)
    """

    kind = "drive"

    def __init__(self, ring: Text, place: int = 0) -> None:
        """Opens the drive at a place of the document, the first at 0. `NoSuchDrive`: it has none there."""
        super().__init__()
        document = bytes_of(ring)
        in_range("drive", {"place": place}, {"place": (1 << 63) - 1})
        status = C["drive_open"](document, len(document), place, self._handle)
        if status == Status.NO:
            raise NoSuchDrive(f"the ring has no drive at place {place}")
        self._opened(status, document)

    def hear_mst(self, cycle: int, content: Optional[bytes]) -> None:
        """Takes the content of the frame that arrived at the MST's place of a cycle, or None. No cycle is below an earlier one."""
        in_range("drive.hear_mst", {"cycle": cycle}, {"cycle": 0xffffffff})
        self._hear("hear_mst", content, cycle)

    def at(self) -> Optional[Timed]:
        """Returns this cycle's AT. None: the drive sends none."""
        return self._timed("at")

    def hear_mdt(self, content: Optional[bytes]) -> None:
        """Takes the content of the frame that arrived at the MDT's place, or None."""
        self._hear("hear_mdt", content)

    def restart(self) -> None:
        """Restarts the drive, between two cycles."""
        self._must("restart")

    @property
    def phase(self) -> int:
        """The phase of the drive, 0 to 4."""
        return self._phase("phase")

    def element(self, idn: int, element: int = 7) -> Union[bytes, NoElement]:
        """Returns the bytes of an element of a data block, 2 to 7, a number with its low byte first; or the code of the refusal."""
        in_range("drive.element", {"idn": idn, "element": element}, {"idn": 0xffff, "element": 255})
        out, code = Out(), c_uint16()
        status = self._call("element", idn, element, out.room, out.size, out.len, code)
        if status == Status.NO:
            return NoElement(code.value)
        must(status, "drive.element", "elements are 2 to 7" if status == Status.REFUSED else "")
        return out.written()


class Master(Station):
    """The master of a ring document with its requests, in phase 0 at first. In each cycle: `mst`, `hear_mst`, `hear_at` for each AT,
    `mdt`, `end_cycle`; `restart` between two cycles."""

    kind = "master"

    def __init__(self, ring: Text) -> None:
        super().__init__()
        document = bytes_of(ring)
        self._opened(C["master_open"](document, len(document), self._handle), document)

    def mst(self) -> bytes:
        """Returns the content of this cycle's MST."""
        return self._content("mst") or b""

    def hear_mst(self, content: Optional[bytes]) -> None:
        """Takes its own MST as it came back round the ring, or None."""
        self._hear("hear_mst", content)

    def hear_at(self, content: bytes) -> None:
        """Takes the content of a frame at a place of ATs."""
        self._must("hear_at", content, len(content))

    def mdt(self) -> Optional[Timed]:
        """Returns this cycle's MDT. None: none is sent."""
        return self._timed("mdt")

    def end_cycle(self) -> None:
        """Ends the cycle: the master falls, stays, or rises."""
        self._must("end_cycle")

    def events(self) -> str:
        """Returns the lines of the trace that the events of the cycle that ended last have; none: an empty text."""
        return self._text("events")

    @property
    def command(self) -> int:
        """The phase that is commanded, 0 to 4."""
        return self._phase("command")

    def restart(self) -> None:
        """Restarts the master, between two cycles, before `mst`."""
        self._must("restart")
