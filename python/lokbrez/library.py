"""The shared library by ctypes: its structs, its functions, and what calls of it share.

It is the one that LOKBREZ_LIBRARY names, or that lies beside this package, or in build/ of the repository.
"""
from __future__ import annotations

import ctypes
import os
import pathlib
import threading
from collections.abc import Callable
from ctypes import POINTER, c_bool, c_char_p, c_size_t, c_uint8, c_uint16, c_uint32, c_void_p
from types import TracebackType
from typing import Any, Optional, TypeVar, Union

from .errors import Closed, Status, must

MOST_CONTENT = 2048
MOST_FRAME = 2462
# Texts are encoded as UTF-8; bytes are taken as they are.
Text = Union[str, bytes]


def bytes_of(text: Text) -> bytes:
    return text.encode("utf-8", "surrogateescape") if isinstance(text, str) else bytes(text)


class Handle(ctypes.Structure):
    _fields_ = [("is_open", c_bool), ("at", c_void_p)]


class BadFrameStruct(ctypes.Structure):
    _fields_ = [("kind", c_uint8), ("found", c_uint32), ("wanted", c_uint32)]


class LayoutStruct(ctypes.Structure):
    _fields_ = [("kind", c_uint8), ("found", c_size_t), ("wanted", c_size_t)]


class MstStruct(ctypes.Structure):
    _fields_ = [("phase", c_uint8)]


class RecordStruct(ctypes.Structure):
    _fields_ = [("mhs", c_bool), ("write", c_bool), ("last", c_bool), ("element", c_uint8), ("cyclic", c_uint16), ("info", c_uint16)]


class AtStruct(ctypes.Structure):
    _fields_ = [("address", c_uint8), ("ahs", c_bool), ("busy", c_bool), ("error", c_bool), ("change", c_bool), ("cyclic", c_uint16),
                ("info", c_uint16)]


# The parameters of the header by their letters: a text with its length, room with its length, and so on.
PARAMETERS: dict[str, list[Any]] = {
    "t": [c_char_p, c_size_t],
    "o": [c_char_p, c_size_t],
    "n": [c_size_t],
    "s": [POINTER(c_size_t)],
    "b": [c_uint8],
    "w": [c_uint16],
    "d": [c_uint32],
    "f": [c_bool],
    "B": [POINTER(c_uint8)],
    "W": [POINTER(c_uint16)],
    "D": [POINTER(c_uint32)],
    "h": [POINTER(Handle)],
    "T": [POINTER(c_bool)],
    "F": [POINTER(BadFrameStruct)],
    "L": [POINTER(LayoutStruct)],
    "M": [POINTER(MstStruct)],
    "R": [POINTER(RecordStruct)],
    "A": [POINTER(AtStruct)],
}
# Each function by its name and its parameters. The result is a status, unless RESULTS says otherwise.
FUNCTIONS = {
    "call": "ttos", "fcs": "t", "frame": "toD", "unframe": "tnosF",
    "mst_read": "tML", "at_read": "bwtAL", "single_read": "btRL", "joint_read": "wwwtRL",
    "mst_write": "Mos", "at_write": "Atos", "single_write": "bRos", "record_write": "Rtos",
    "idn_parse": "tWs", "idn_text": "wo",
    "deframer_open": "h", "deframer_feed": "htn", "deframer_finish": "hosF", "deframer_close": "h",
    "drive_open": "tnh", "drive_hear_mst": "hdft", "drive_at": "hosW", "drive_hear_mdt": "hft", "drive_restart": "h", "drive_phase": "hB",
    "drive_element": "hwbosW", "drive_close": "h",
    "master_open": "th", "master_mst": "hos", "master_hear_mst": "hft", "master_hear_at": "ht", "master_mdt": "hosW", "master_end_cycle": "h",
    "master_events": "hos", "master_command": "hB", "master_restart": "h", "master_close": "h",
    "ring_open": "th", "ring_head": "hos", "ring_cycle": "h", "ring_lines": "hos", "ring_end": "hos", "ring_close": "h",
    "links_open": "th", "links_pass": "hdbbbtnoDB", "links_restart": "hdbT", "links_close": "h",
}
RESULTS: dict[str, Any] = {"fcs": c_uint16, "deframer_close": None, "drive_close": None, "master_close": None, "ring_close": None,
                            "links_close": None}


def load() -> dict[str, Callable[..., int]]:
    """The functions of the library by their names."""
    here = pathlib.Path(__file__).resolve().parent
    named = os.environ.get("LOKBREZ_LIBRARY")
    places = [pathlib.Path(named)] if named else [here / "libsercos.so", here.parent.parent / "build" / "libsercos.so"]
    found = next((place for place in places if place.exists()), None)
    if found is None:
        raise ImportError(f"there is no {' and no '.join(map(str, places))}: make it with tools/library, or name it in LOKBREZ_LIBRARY")
    library = ctypes.CDLL(str(found))
    functions: dict[str, Callable[..., int]] = {}
    for name, letters in FUNCTIONS.items():
        function = getattr(library, f"sercos_{name}")
        function.argtypes = [kind for letter in letters for kind in PARAMETERS[letter]]
        function.restype = RESULTS.get(name, c_uint8)
        functions[name] = function
    return functions


C = load()


class Out:
    """Room for a text or a content, and the number of bytes that were written to it."""

    def __init__(self, size: int = MOST_CONTENT) -> None:
        self.room = ctypes.create_string_buffer(max(size, 1))
        self.size, self.len = c_size_t(size), c_size_t()

    def written(self) -> bytes:
        return self.room.raw[:self.len.value]


def whole(call: Callable[[Out], int], what: str) -> str:
    """The text that a call writes, with as much room as it needs. Such a call loses nothing if it has too little."""
    size = 1 << 14
    while (status := call(out := Out(size))) == Status.WRITE_FAULT and size < 1 << 30:
        size *= 4
    must(status, what)
    return out.written().decode()


Self = TypeVar("Self", bound="Held")


class Held:
    """A handle of the library: one call at a time, also from several threads. It is closed at the end of a `with`, by `close`, or with
    its last reference."""

    kind = ""

    def __init__(self) -> None:
        self._handle, self._lock = Handle(), threading.Lock()

    def _call(self, name: str, *words: Any) -> int:
        with self._lock:
            return C[f"{self.kind}_{name}"](self._handle, *words)

    def _must(self, name: str, *words: Any) -> None:
        must(self._call(name, *words), f"{self.kind}.{name}")

    def _phase(self, name: str) -> int:
        phase = c_uint8()
        self._must(name, phase)
        return phase.value

    def _text(self, name: str) -> str:
        return whole(lambda out: self._call(name, out.room, out.size, out.len), f"{self.kind}.{name}")

    def _content(self, name: str, *words: Any) -> Optional[bytes]:
        """The content that a call writes, or None if nothing is sent."""
        out = Out()
        status = self._call(name, out.room, out.size, out.len, *words)
        if status == Status.NO:
            return None
        must(status, f"{self.kind}.{name}")
        return out.written()

    def _hear(self, name: str, content: Optional[bytes], *words: Any) -> None:
        """Hands over a content, or that none arrived."""
        self._must(name, *words, content is not None, content or b"", len(content or b""))

    @property
    def closed(self) -> bool:
        return not self._handle.is_open

    def close(self) -> None:
        """Gives the memory back. Any later call raises `Closed`; another `close` does nothing."""
        with self._lock:
            C[f"{self.kind}_close"](self._handle)

    def __enter__(self: Self) -> Self:
        if self.closed:
            raise Closed(f"{self.kind}: it is closed")
        return self

    def __exit__(self, kind: Optional[type[BaseException]], error: Optional[BaseException], trace: Optional[TracebackType]) -> None:
        self.close()

    def __del__(self) -> None:
        if "_lock" in self.__dict__ and self._handle.is_open:
            self.close()
