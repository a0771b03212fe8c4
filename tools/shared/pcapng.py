"""Writes and reads capture files in the pcapng format: one packet a telegram, and lines of a trace as comments.

A packet has a header of 16 bytes and then the telegram's content. docs/FORMATS.md, section 'Packets', has both.
"""
from __future__ import annotations

import struct
from collections.abc import Iterable, Iterator
from typing import BinaryIO, NamedTuple

from .trace_lines import BadInput

USER0 = 147
SECTION, INTERFACE, SIMPLE_PACKET, PACKET = 0x0A0D0D0A, 1, 3, 6
BYTE_ORDER = 0x1A2B3C4D
# The options that are used. All have other meanings in other blocks, but a comment is 1 in each.
END, COMMENT, INTERFACE_NAME, PACKET_FLAGS, APPLICATION, RESOLUTION = 0, 1, 2, 2, 4, 9
NANOSECONDS = 9
LONGEST_BLOCK = 1 << 24

HEADER = struct.Struct(">BBBxIiI")
VERSION = 1
# The kinds of telegrams by the word of their lines, and the directions of their packets: out of the master, and into it.
KINDS = {"m": 1, "d": 2, "a": 3}
WORDS = {kind: word for word, kind in KINDS.items()}
INBOUND, OUTBOUND = 1, 2


class Telegram(NamedTuple):
    """What a packet has: the word of the telegram's line, the rate of the ring, and the fields of the line."""

    word: str
    rate: int
    cycle: int
    start: int
    bits: int
    content: bytes


class Packet(NamedTuple):
    """A packet of a file: its link type, its bytes and its comments."""

    link_type: int
    data: bytes
    comments: list[str]


def packed(telegram: Telegram) -> bytes:
    """The bytes of a packet. A number that its field can't hold is a fault of the struct."""
    word, rate, cycle, start, bits, content = telegram
    return HEADER.pack(VERSION, KINDS[word], rate, cycle, start, bits) + content


def unpacked(data: bytes) -> Telegram:
    """The telegram of a packet's bytes."""
    if len(data) < HEADER.size:
        raise BadInput(f"a packet of {len(data)} bytes is shorter than the header of a telegram")
    version, kind, rate, cycle, start, bits = HEADER.unpack_from(data)
    if version != VERSION or kind not in WORDS:
        raise BadInput(f"a packet of version {version} and kind {kind} isn't one of a telegram")
    return Telegram(WORDS[kind], rate, cycle, start, bits, data[HEADER.size:])


def option(code: int, value: bytes) -> bytes:
    return struct.pack("<HH", code, len(value)) + value + bytes(-len(value) % 4)


def comments_of(texts: Iterable[str]) -> bytes:
    return b"".join(option(COMMENT, text.encode()) for text in texts)


class Writer:
    """Writes a file with one section and one interface, whose times are nanoseconds."""

    def __init__(self, output: BinaryIO, application: str, comment: str) -> None:
        self.output = output
        options = comments_of([comment]) + option(APPLICATION, application.encode())
        self.write_block(SECTION, struct.pack("<IHHq", BYTE_ORDER, 1, 0, -1), options)
        options = option(INTERFACE_NAME, b"ring") + option(RESOLUTION, bytes([NANOSECONDS]))
        self.write_block(INTERFACE, struct.pack("<HHI", USER0, 0, 0), options)

    def write_block(self, kind: int, body: bytes, options: bytes) -> None:
        length = 12 + len(body) + len(options) + 4
        self.output.write(struct.pack("<II", kind, length) + body + options + struct.pack("<HHI", END, 0, length))

    def write_packet(self, time: int, telegram: Telegram, comments: Iterable[str]) -> None:
        """Writes a telegram, whose first bit is sent at a time in nanoseconds, and the lines after it."""
        data = packed(telegram)
        body = struct.pack("<IIIII", 0, time >> 32, time & 0xFFFFFFFF, len(data), len(data)) + data + bytes(-len(data) % 4)
        direction = INBOUND if telegram.word == "a" else OUTBOUND
        self.write_block(PACKET, body, option(PACKET_FLAGS, struct.pack("<I", direction)) + comments_of(comments))


class Reader:
    """Reads the packets of a file, in either byte order. Blocks of other kinds are passed over."""

    def __init__(self, stream: BinaryIO) -> None:
        self.stream = stream
        self.place = 0
        self.order = "<"
        self.link_types: list[int] = []
        # The comments of the sections that were read so far.
        self.comments: list[str] = []

    def fault(self, message: str) -> BadInput:
        return BadInput(f"the block at byte {self.place}: {message}")

    def read(self, length: int) -> bytes:
        data = self.stream.read(length)
        if len(data) != length:
            raise self.fault("the file ends in it")
        return data

    def packets(self) -> Iterator[Packet]:
        """The packets, one after another."""
        while head := self.stream.read(8):
            kind, body = self.read_block(head)
            try:
                if kind == SECTION:
                    self.link_types = []
                    self.comments += self.comments_in(body, 16)
                elif kind == INTERFACE:
                    self.link_types.append(self.unpack("H", body, 0)[0])
                elif kind == PACKET:
                    yield self.packet_of(body)
                elif kind == SIMPLE_PACKET:
                    yield Packet(self.link_types[0], body[4:4 + self.unpack("I", body, 0)[0]], [])
            except (struct.error, IndexError):
                raise self.fault("it has another form than a block of its kind") from None
            self.place += len(body) + 12
        if not self.place:
            raise BadInput("the input is empty")

    def read_block(self, head: bytes) -> tuple[int, bytes]:
        """The kind and the body of a block whose first bytes were read."""
        is_section = head[:4] == struct.pack("<I", SECTION)
        start = b""
        if is_section:
            start = self.read(4)
            self.order = "<" if start == struct.pack("<I", BYTE_ORDER) else ">"
            if self.unpack("I", start, 0) != (BYTE_ORDER,):
                raise self.fault("its byte order is unknown")
        elif not self.place or len(head) < 8:
            raise self.fault("this isn't a capture file in the pcapng format")
        kind, length = self.unpack("II", head, 0)
        if length % 4 or not 12 + len(start) <= length <= LONGEST_BLOCK:
            raise self.fault(f"it can't have {length} bytes")
        body = start + self.read(length - 12 - len(start))
        self.read(4)
        return kind, body

    def unpack(self, form: str, data: bytes, place: int) -> tuple[int, ...]:
        return struct.unpack_from(self.order + form, data, place)

    def packet_of(self, body: bytes) -> Packet:
        interface, _, _, length = self.unpack("IIII", body, 0)
        if 20 + length > len(body):
            raise self.fault("its packet is longer than it")
        return Packet(self.link_types[interface], body[20:20 + length], self.comments_in(body, 20 + length + -length % 4))

    def comments_in(self, body: bytes, place: int) -> list[str]:
        """The comments among the options from a place on."""
        found = []
        while place + 4 <= len(body):
            code, length = self.unpack("HH", body, place)
            if code == END:
                break
            if code == COMMENT:
                found.append(body[place + 4:place + 4 + length].decode(errors="backslashreplace"))
            place += 4 + length + -length % 4
        return found
