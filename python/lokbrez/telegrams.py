"""Telegrams (IEC 61491:1995): contents to fields and back. docs/PROTOCOL.md, 'Telegrams', has the words."""
from __future__ import annotations

from ctypes import c_size_t, c_uint16
from typing import Any, NamedTuple

from .errors import BadTelegram, Status, must
from .library import C, AtStruct, LayoutStruct, MstStruct, Out, RecordStruct

FAULTS = {
    1: ("length", "it has {found} bytes, wanted {wanted}"),
    2: ("address", "its address is {found}, wanted {wanted}"),
    3: ("field", "byte {found} has no meaning"),
}


class Record(NamedTuple):
    """The record of an MDT: the fields of its control word, and its information word."""

    mhs: bool = False
    write: bool = False
    last: bool = False
    element: int = 0
    cyclic: int = 0
    info: int = 0


class At(NamedTuple):
    """An AT: its address, the fields of its status word, its information word, and its feedback values."""

    address: int
    ahs: bool = False
    busy: bool = False
    error: bool = False
    change: bool = False
    cyclic: int = 0
    info: int = 0
    values: bytes = b""


def refuse(what: str, status: int, why: LayoutStruct) -> None:
    """Raises why a content isn't the telegram, if it isn't."""
    if status == Status.NO:
        name, text = FAULTS[why.kind]
        raise BadTelegram(f"the content is not {what}: {text.format(found=why.found, wanted=why.wanted)}", name, why.found, why.wanted)
    must(status, what)


def record_of(struct: RecordStruct) -> Record:
    return Record(struct.mhs, struct.write, struct.last, struct.element, struct.cyclic, struct.info)


def in_range(what: str, fields: dict[str, int], limits: dict[str, int]) -> None:
    """ctypes cuts a number to the bits that it has room for, so it is tested before."""
    for name, limit in limits.items():
        if not 0 <= fields[name] <= limit:
            raise ValueError(f"{what}: {name} is 0 to {limit}, not {fields[name]}")


def struct_of(record: Record) -> RecordStruct:
    in_range("record", record._asdict(), {"element": 7, "cyclic": 0xffff, "info": 0xffff})
    return RecordStruct(*record)


def written(what: str, name: str, *words: Any) -> bytes:
    out = Out()
    must(C[name](*words, out.room, out.size, out.len), what, "a field is out of its range")
    return out.written()


def mst_read(content: bytes) -> int:
    """Returns the phase that an MST commands. `BadTelegram`: the content isn't an MST."""
    mst, why = MstStruct(), LayoutStruct()
    refuse("an MST", C["mst_read"](content, len(content), mst, why), why)
    return int(mst.phase)


def at_read(address: int, at_len: int, content: bytes) -> At:
    """Returns the AT of an address with `at_len` bytes after the address, at least 4. `BadTelegram`: the content isn't one."""
    at, why = AtStruct(), LayoutStruct()
    in_range("at_read", {"address": address, "at_len": at_len}, {"address": 255, "at_len": 0xffff})
    refuse(f"an AT of drive {address}", C["at_read"](address, at_len, content, len(content), at, why), why)
    return At(at.address, at.ahs, at.busy, at.error, at.change, at.cyclic, at.info, content[5:])


def single_read(address: int, content: bytes) -> Record:
    """Returns the record of the MDT of phases 1 and 2 to an address. `BadTelegram`: the content isn't one."""
    record, why = RecordStruct(), LayoutStruct()
    in_range("single_read", {"address": address}, {"address": 255})
    refuse(f"an MDT to drive {address}", C["single_read"](address, content, len(content), record, why), why)
    return record_of(record)


def joint_read(mdt_len: int, position: int, record_len: int, content: bytes) -> Record:
    """Returns the record at a position of the MDT of phases 3 and 4, which has `mdt_len` bytes after its address. The first position is
    1. `BadTelegram`: the content isn't such an MDT."""
    record, why = RecordStruct(), LayoutStruct()
    words = {"mdt_len": mdt_len, "position": position, "record_len": record_len}
    in_range("joint_read", words, dict.fromkeys(words, 0xffff))
    status = C["joint_read"](mdt_len, position, record_len, content, len(content), record, why)
    refuse("a joint MDT with this record", status, why)
    return record_of(record)


def mst_write(phase: int) -> bytes:
    """Returns the content of the MST of a phase, 0 to 4."""
    in_range("mst_write", {"phase": phase}, {"phase": 4})
    return written("mst_write", "mst_write", MstStruct(phase))


def at_write(at: At) -> bytes:
    """Returns the content of an AT, with at most 64 bytes of values."""
    in_range("at_write", {"address": at.address, "cyclic": at.cyclic, "info": at.info}, {"address": 255, "cyclic": 0xffff, "info": 0xffff})
    return written("at_write", "at_write", AtStruct(*at[:7]), at.values, len(at.values))


def single_write(address: int, record: Record) -> bytes:
    """Returns the content of the MDT of phases 1 and 2 to an address."""
    in_range("single_write", {"address": address}, {"address": 255})
    return written("single_write", "single_write", address, struct_of(record))


def record_write(record: Record, values: bytes = b"") -> bytes:
    """Returns the bytes of one record of the MDT of phases 3 and 4. The content of the MDT is the byte 255, and then its records."""
    return written("record_write", "record_write", struct_of(record), values, len(values))


def idn_parse(text: str) -> int:
    """Returns the number that a text spells, such as "S-0-0127"."""
    idn, place, spelled = c_uint16(), c_size_t(), text.encode("utf-8", "surrogateescape")
    if C["idn_parse"](spelled, len(spelled), idn, place) == Status.NO:
        raise ValueError(f"{text!r} is no identifier number: byte {place.value} doesn't fit")
    return idn.value


def idn_text(idn: int) -> str:
    """Returns the text of an identifier number."""
    in_range("idn_text", {"idn": idn}, {"idn": 0xffff})
    out = Out(8)
    must(C["idn_text"](idn, out.room, out.size), "idn_text")
    return out.room.raw[:8].decode()
