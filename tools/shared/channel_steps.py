"""What the telegrams of a drive's service channel say, in words, cycle by cycle.

A step is in the master's record of the MDT, an answer in the drive's AT. docs/PROTOCOL.md, section 'The service channel', has
the rules.
"""
from __future__ import annotations

from typing import Protocol

from .service_channel import Cycle, Record, Status
from .trace_lines import Line, name_of

DATA_STATUS, NAME, ATTRIBUTE, UNIT, MINIMUM, MAXIMUM, DATA = range(1, 8)
ELEMENTS = ["no element", "data status", "name", "attribute", "unit", "minimum", "maximum", "operation data"]
COMMAND_STATES = {0: "not set", 3: "ended well", 7: "runs", 15: "ended with an error"}
ERRORS = {
    0x0001: "no identifier number is open",
    0x1001: "there is no such identifier number",
    0x2001: "there is no name",
    0x4001: "there is no unit",
    0x5001: "there is no minimum",
    0x6001: "there is no maximum",
    0x2004: "the name can't be changed",
    0x3004: "the attribute can't be changed",
    0x4004: "the unit can't be changed",
    0x5004: "the minimum can't be changed",
    0x6004: "the maximum can't be changed",
    0x7002: "the operation data is too short",
    0x7003: "the operation data is too long",
    0x7004: "the operation data can't be changed",
    0x7005: "the operation data is write protected at this time",
    0x7006: "the operation data is below its minimum",
    0x7007: "the operation data is above its maximum",
    0x7008: "the operation data is invalid",
}
FALLS = {
    "FallMst": "the master's MST didn't come back whole in two cycles in a row",
    "FallAt": "no AT of drive {address} was taken in two cycles in a row",
    "FallStep": "a step to drive {address}, or its identification, had no answer up to 64 cycles after it was first sent",
    "FallRestart": "the master restarted",
}
STOPS = {
    "StopNoFit": "no plan fits",
    "StopRefused": "drive {address} refused a job of the start, {idn} with {code}",
    "StopConfig": "drive {address} has {idn} with the attribute {attribute}, which no telegram can carry",
    "StopCheck127": "the check for phase 3 failed in drive {address}:{numbers}",
    "StopCheck128": "the check for phase 4 failed in drive {address}:{numbers}",
}
NO_AT, NO_RECORD = "(no AT)", "(no MDT to it)"
IDENTIFIED, IDENTIFICATION = "answer to the identification", "identification"
NOT_ACCEPTED = "the step isn't accepted"
ANSWER_LOST = ", again: its answer didn't arrive"


def idn_text(word: int) -> str:
    """The text of an identifier number."""
    return f"{'SP'[word >> 15]}-{word >> 12 & 7}-{word & 0xFFF:04}"


class Transfer:
    """What the steps since the last opening say: which block is open, and which word of which element comes next."""

    def __init__(self) -> None:
        self.reset()

    def reset(self) -> None:
        self.open = ""
        self.attribute: dict[int, int] = {}
        self.end_run()

    def end_run(self) -> None:
        # Whether the steps of the run write, and their element; -1 before the first.
        self.run = (0, -1)
        self.place = 0
        self.words: dict[int, int] = {}

    def begin_step(self, step: Record) -> str:
        """Notes a new step, and returns its words."""
        if step.write and step.element == DATA_STATUS:
            self.reset()
            self.open = idn_text(step.word)
            return f"open {self.open}"
        if step.element == 0:
            self.reset()
            return "close"
        if self.run == (step.write, step.element):
            self.place += 1
        else:
            self.end_run()
            self.run = step.write, step.element
        last = ", last" if step.last else ""
        if not step.write:
            return f"read {self.word_name(step)}{last}"
        if self.is_command(step):
            return "set the procedure command" if step.word else "cancel the procedure command"
        return f"write {self.word_text(step, step.word)}{last}"

    def is_command(self, step: Record) -> bool:
        """A write of operation data without its attribute, in one word 3 or 0, is that of a procedure command."""
        return step.element == DATA and step.last == 1 and not (self.place or self.attribute) and step.word in (0, 3)

    def answer(self, step: Record, status: Status) -> str:
        """The words of the answer to a step. The step is the newest, and the drive isn't busy with it."""
        if status.error:
            self.end_run()
            return f"error 0x{status.word:04x}: {ERRORS.get(status.word, 'unknown')}"
        if step.write or step.element == 0:
            text = "opened" if step.write and step.element == DATA_STATUS else "accepted"
        else:
            text = self.word_text(step, status.word)
            if step.element == ATTRIBUTE:
                self.attribute[self.place] = status.word
        if step.last:
            self.end_run()
        return text

    def length_code(self) -> int:
        """The length of the operation data as the attribute says it; 0 where it isn't known."""
        return self.attribute[1] & 7 if 1 in self.attribute else 0

    def is_list(self, element: int) -> bool:
        return element in (NAME, UNIT) or element == DATA and self.length_code() in (4, 5, 6)

    def word_name(self, step: Record) -> str:
        name = ELEMENTS[step.element]
        if step.element == DATA_STATUS:
            return name
        if self.is_list(step.element):
            first = 2 * (self.place - 2)
            part = ["length", "greatest length"][self.place] if self.place < 2 else f"bytes {first} and {first + 1}"
            return f"{name}, {part}"
        if step.element == ATTRIBUTE or self.length_code() == 2:
            return f"{name}, " + (["low word", "high word"][self.place] if self.place < 2 else f"word {self.place}")
        return name if self.place == 0 and step.last else f"{name}, word {self.place}"

    def word_text(self, step: Record, word: int) -> str:
        """The name of the step's word, and the word."""
        self.words[self.place] = word
        name = self.word_name(step)
        if step.element == DATA_STATUS:
            return f"{name} {word}" + (f": {COMMAND_STATES[word]}" if word in COMMAND_STATES else "")
        if self.is_list(step.element):
            return f"{name} {self.item_text(step.element, word)}"
        return f"{name} 0x{word:04x}" + (f" (number {self.number()})" if self.is_second_word() else "")

    def item_text(self, element: int, word: int) -> str:
        """What two bytes of a list say; its two lengths come first."""
        if self.place < 2:
            return f"{word} bytes"
        if element in (NAME, UNIT) or self.attribute[1] >> 4 & 7 == 4:
            return repr(word.to_bytes(2, "little").decode("ascii", "backslashreplace").rstrip("\0"))
        return idn_text(word) if self.attribute[1] >> 4 & 7 == 5 and self.length_code() == 5 else f"0x{word:04x}"

    def is_second_word(self) -> bool:
        """Whether the word is the second of a number whose first is known."""
        return self.length_code() == 2 and self.place == 1 and 0 in self.words and self.run[1] != ATTRIBUTE

    def number(self) -> int:
        value = self.words[0] | self.words[1] << 16
        return value - (1 << 32) if self.attribute[1] >> 4 & 7 == 2 and value >> 31 else value


class Channel:
    """The channel of one drive as the telegrams show it."""

    def __init__(self, address: int) -> None:
        self.address = address
        self.reset()

    def reset(self) -> None:
        self.transfer = Transfer()
        self.step: Record | None = None
        self.step_text = ""
        self.answer_text: str | None = None
        self.status: Status | None = None

    def hear_answer(self, status: Status) -> tuple[str, bool]:
        """The words of an AT, and whether they are new."""
        new = status != self.status
        self.status = status
        change = ", a command has ended" * status.change
        if not self.step:
            return "no step yet" + change, False
        if status.ahs != self.step.mhs:
            return NOT_ACCEPTED + change, True
        if status.busy:
            return "busy" + change, True
        if self.answer_text is None:
            self.answer_text = self.transfer.answer(self.step, status)
            return self.answer_text + change, True
        return self.answer_text + change if new else "as before", new

    def hear_record(self, record: Record) -> tuple[str, bool]:
        """The words of a record, and whether it has a step."""
        if record.mhs != (self.step.mhs if self.step else 0):
            self.step, self.answer_text = record, None
            self.step_text = self.transfer.begin_step(record)
            return self.step_text, True
        if record == self.step:
            return self.step_text + (", again" if self.answer_text is None else ANSWER_LOST), True
        if record == Record(record.mhs, 0, 0, 0, 0):
            return "idle", False
        return "another step with the same MHS, which the drive drops", True


class Listener(Protocol):
    """What takes the words of a channel, in the order of the cycles."""

    def row(self, cycle: Cycle, ahs: str, answer: str, mhs: str, step: str) -> None:
        """A cycle with a step or with a new answer. AHS and MHS are - where there is no telegram."""

    def idle(self, first: int, last: int, phase: int) -> None:
        """Cycles one after another, in one phase, without a step and without a new answer."""

    def event(self, cycle: Cycle, text: str) -> None:
        """A change of the drive's phase, a fall or a stop."""


class Telling:
    """Tells the cycles in which a channel has something to tell."""

    def __init__(self, address: int, listener: Listener) -> None:
        self.channel = Channel(address)
        self.listener = listener
        # The first cycle, the last one and the phase of idle cycles.
        self.idle: tuple[int, int, int] | None = None

    def row(self, cycle: Cycle, status: Status | None, answer: str, record: Record | None, step: str) -> None:
        self.end_idle()
        self.listener.row(cycle, str(status.ahs) if status else "-", answer, str(record.mhs) if record else "-", step)

    def event(self, cycle: Cycle, text: str) -> None:
        self.end_idle()
        self.listener.event(cycle, text)

    def end_idle(self) -> None:
        if self.idle:
            self.listener.idle(*self.idle)
            self.idle = None

    def add_idle(self, cycle: Cycle) -> None:
        if self.idle and self.idle[1] == cycle.number - 1 and self.idle[2] == cycle.phase:
            self.idle = self.idle[0], cycle.number, cycle.phase
        else:
            self.end_idle()
            self.idle = cycle.number, cycle.number, cycle.phase

    def tell(self, cycle: Cycle, status: Status | None, record: Record | None) -> None:
        """Tells a cycle in which the drive's AT has the status, and the MDT has the record for it."""
        self.tell_moves(cycle, cycle.moves)
        if cycle.phase == 0:
            self.channel.reset()
        elif cycle.phase == 1:
            self.tell_identification(cycle, status, record)
        else:
            self.tell_channel(cycle, status, record)
        self.tell_moves(cycle, cycle.falls)
        self.tell_reports(cycle)

    def tell_channel(self, cycle: Cycle, status: Status | None, record: Record | None) -> None:
        answer, answered = self.channel.hear_answer(status) if status else (NO_AT, cycle.phase > 2)
        step, has_step = self.channel.hear_record(record) if record else (NO_RECORD, cycle.phase > 2)
        if answered or has_step:
            self.row(cycle, status, answer, record, step)
        elif cycle.phase > 2:
            self.add_idle(cycle)

    def tell_identification(self, cycle: Cycle, status: Status | None, record: Record | None) -> None:
        if status or record:
            self.row(cycle, status, IDENTIFIED if status else NO_AT, record, IDENTIFICATION if record else NO_RECORD)

    def tell_moves(self, cycle: Cycle, lines: list[Line]) -> None:
        for line in lines:
            if line.address == self.channel.address:
                self.event(cycle, f"the drive is in phase {line.phase}")

    def tell_reports(self, cycle: Cycle) -> None:
        for line in cycle.reports:
            name = name_of(line)
            if name in FALLS:
                self.event(cycle, f"the ring falls: {fall_words(line)}")
            elif name in STOPS:
                self.event(cycle, f"the ring stops: {stop_words(line)}")


def fall_words(line: Line) -> str:
    """The cause that a line of a fall reports."""
    return FALLS[name_of(line)].format(**line._asdict())


def stop_words(line: Line) -> str:
    """The cause that a line of a stop reports."""
    return STOPS[name_of(line)].format(**line._asdict())
