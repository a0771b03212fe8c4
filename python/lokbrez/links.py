"""The links of a document's ring under its script: what each station receives of a telegram, and which stations restart."""
from __future__ import annotations

import enum
from ctypes import c_bool, c_uint8, c_uint32
from typing import NamedTuple, Optional

from .commands import why_refused
from .errors import Refused, Status, must
from .frames import Bits, frame, unframe
from .library import C, MOST_FRAME, Held, Out, Text, bytes_of
from .telegrams import in_range

# The kinds of telegrams, as a document names them.
KINDS = ("mst", "at", "mdt")


class Arrival(enum.IntEnum):
    """How the bits of a telegram arrive."""

    AS_SENT = 0
    OTHER_FRAME = 1  # damaged, and a frame all the same: the check sequence doesn't tell
    DAMAGED = 2  # damaged, and no frame: it is discarded
    NOTHING = 3  # none arrive


class Arrived(NamedTuple):
    """How bits arrived, and those that did."""

    arrival: Arrival
    bits: Bits


class Links(Held):
    """The links of the ring of a document. Station 0 is the master, station k + 1 the drive at place k. A trace has what was sent; with the
    links it is known what each station received.

    >>> with Links(document) as links:
    ...     links.passed(301, "mst", 0, 2, frame(mst_write(4))).arrival
    ...     links.heard(301, "mst", 0, 2, mst_write(4))
    """

    kind = "links"

    def __init__(self, ring: Text) -> None:
        super().__init__()
        document = bytes_of(ring)
        status = C["links_open"](document, len(document), self._handle)
        if status == Status.REFUSED:
            raise Refused(f"the ring document is refused: {why_refused(document)}")
        must(status, "links.open")

    def passed(self, cycle: int, kind: str, sender: int, receiver: int, bits: Bits) -> Arrived:
        """Returns what arrives at a station of the bits that another one, or the master itself, sends as an "mst", "at" or "mdt"."""
        if kind not in KINDS:
            raise ValueError(f"links.passed: kind is {kind!r}, and one of {', '.join(KINDS)}")
        in_range("links.passed", {"cycle": cycle, "sender": sender, "receiver": receiver}, {"cycle": 0xffffffff, "sender": 255, "receiver": 255})
        out, arrived, how = Out(MOST_FRAME), c_uint32(), c_uint8()
        status = self._call("pass", cycle, KINDS.index(kind), sender, receiver, bits.packed, len(bits.packed), bits.length, out.room, out.size,
                            arrived, how)
        must(status, "links.passed", f"there are fewer than {bits.length} bits" if status == Status.REFUSED else "")
        return Arrived(Arrival(how.value), Bits(out.room.raw[:(arrived.value + 7) // 8], arrived.value))

    def heard(self, cycle: int, kind: str, sender: int, receiver: int, content: bytes) -> Optional[bytes]:
        """Returns the content that a station receives of this one: None if no frame arrives."""
        arrival, bits = self.passed(cycle, kind, sender, receiver, frame(content))
        if arrival in (Arrival.AS_SENT, Arrival.OTHER_FRAME):
            return unframe(*bits)
        return None

    def restarts(self, cycle: int, station: int) -> bool:
        """Returns whether a station restarts in a cycle, before its MST."""
        in_range("links.restarts", {"cycle": cycle, "station": station}, {"cycle": 0xffffffff, "station": 255})
        told = c_bool()
        self._must("restart", cycle, station, told)
        return told.value
