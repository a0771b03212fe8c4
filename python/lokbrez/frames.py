"""Frames (ISO/IEC 3309). Bits are packed into bytes: bit n is bit n % 8 of byte n // 8."""
from __future__ import annotations

from ctypes import c_uint32
from typing import NamedTuple, NoReturn, Optional

from .errors import BadFrame, Status, must
from .library import C, MOST_FRAME, BadFrameStruct, Held, Out

REASONS = {
    1: ("no open", "they don't begin with a flag"),
    2: ("no close", "there is no closing flag in {found} bits"),
    3: ("abort", "six ones at bit {found} where no flag may be"),
    4: ("ragged", "{found} bits between the flags, not whole bytes"),
    5: ("short", "{found} bytes between the flags, fewer than three"),
    6: ("long", "{found} bytes between the flags, more than 2,050"),
    7: ("check", "the check sequence is 0x{found:04x}, wanted 0x{wanted:04x}"),
    8: ("after", "bits follow the closing flag, from bit {found} on"),
}


class Bits(NamedTuple):
    """Packed bits, and their number."""

    packed: bytes
    length: int


def fcs(content: bytes) -> int:
    """Returns the frame check sequence of a content of any length."""
    return C["fcs"](content, len(content))


def frame(content: bytes) -> Bits:
    """Returns the frame of a content of 1 to 2,048 bytes, from the first bit of its opening flag to the last of its closing flag."""
    out, count = Out(MOST_FRAME), c_uint32()
    must(C["frame"](content, len(content), out.room, out.size, count), "frame", "a content has 1 to 2,048 bytes")
    return Bits(out.room.raw[:(count.value + 7) // 8], count.value)


def refuse(why: BadFrameStruct) -> NoReturn:
    name, text = REASONS[why.kind]
    raise BadFrame(f"the bits are not a frame: {text.format(found=why.found, wanted=why.wanted)}", name, why.found, why.wanted)


def unframe(packed: bytes, length: Optional[int] = None) -> bytes:
    """Returns the content of the frame that the first `length` bits are, or all bits. `BadFrame`: they are not a frame."""
    out, why = Out(), BadFrameStruct()
    length = 8 * len(packed) if length is None else length
    status = C["unframe"](packed, len(packed), length, out.room, out.size, out.len, why)
    if status == Status.NO:
        refuse(why)
    must(status, "unframe", f"there are fewer than {length} bits" if status == Status.REFUSED else "")
    return out.written()


class Deframer(Held):
    """Bits of a frame that arrive in pieces, cut anywhere.

    >>> with Deframer() as deframer:
    ...     deframer.feed(one)
    ...     deframer.feed(other, 13)
    ...     content = deframer.finish()
    """

    kind = "deframer"

    def __init__(self) -> None:
        super().__init__()
        self._must("open")

    def feed(self, packed: bytes, length: Optional[int] = None) -> None:
        """Takes the first `length` bits, or all. After an exception none were taken."""
        self._must("feed", packed, len(packed), 8 * len(packed) if length is None else length)

    def finish(self) -> bytes:
        """Returns the content of the frame that all bits so far are, and begins anew. `BadFrame`: they are not a frame."""
        out, why = Out(), BadFrameStruct()
        status = self._call("finish", out.room, out.size, out.len, why)
        if status == Status.NO:
            refuse(why)
        must(status, "deframer.finish")
        return out.written()
