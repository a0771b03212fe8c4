"""The statuses of the library, and the exceptions that stand for those that aren't an answer."""
from __future__ import annotations

import enum


class Status(enum.IntEnum):
    """What a call ends with."""

    DONE = 0
    NO = 1
    BAD_WORDS = 2
    REFUSED = 3
    WRITE_FAULT = 5
    MEMORY = 6
    TOO_LONG = 7
    CLOSED = 8


class Error(Exception):
    """Any failure of this package."""


class BadWords(Error, ValueError):
    """The words are not a command."""


class Refused(Error, ValueError):
    """The input is refused: a ring document or a capture that isn't valid, or a value out of its range."""


class OutOfMemory(Error, MemoryError):
    """No memory was found."""


class TooLong(Error, ValueError):
    """The input is longer than 1,048,576 bytes, or than 2^31 bits."""


class Closed(Error, ValueError):
    """The object is closed."""


class NoSuchDrive(Error, IndexError):
    """The ring has no drive at this place."""


class BadFrame(Error, ValueError):
    """Bits are not a frame. `name` is the rule that they break, as in docs/PROTOCOL.md."""

    def __init__(self, message: str, name: str, found: int, wanted: int) -> None:
        super().__init__(message)
        self.name, self.found, self.wanted = name, found, wanted


class BadTelegram(Error, ValueError):
    """A content is not the telegram. `name` is `length`, `address` or `field`."""

    def __init__(self, message: str, name: str, found: int, wanted: int) -> None:
        super().__init__(message)
        self.name, self.found, self.wanted = name, found, wanted


FAILURES: dict[Status, tuple[type[Error], str]] = {
    Status.NO: (Error, "the answer is no"),
    Status.BAD_WORDS: (BadWords, "the words are not a command"),
    Status.REFUSED: (Refused, "refused"),
    Status.WRITE_FAULT: (Error, "the output has too little room"),
    Status.MEMORY: (OutOfMemory, "no memory was found"),
    Status.TOO_LONG: (TooLong, "the input is too long"),
    Status.CLOSED: (Closed, "it is closed"),
}


def must(status: int, what: str, reason: str = "") -> None:
    """Raises the exception of a status, unless it is DONE."""
    if status != Status.DONE:
        kind, text = FAILURES[Status(status)]
        raise kind(f"{what}: {reason or text}")
