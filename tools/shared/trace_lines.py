"""Reads what the program writes: the lines of a trace and the answer of `plan`.

Each kind of line is a template, in which a name in braces is a field. A line is read as a named tuple of its kind, with
numbers as integers. A trace is read line by line, so its length doesn't matter. docs/FORMATS.md, sections 'The
trace' and 'plan', has all kinds.
"""
from __future__ import annotations

import collections
import contextlib
import re
from collections.abc import Callable, Iterator
from typing import Any, NamedTuple, Protocol

# A line: a named tuple of its kind.
Line = Any
# The pattern of a kind, what makes its tuple, and what makes a value of each field's text.
Kind = tuple[re.Pattern[str], Callable[..., Line], list[Callable[[str], Any]]]
Kinds = dict[str, list[Kind]]


class Lines(Protocol):
    """What a trace is read from, such as an open file."""

    def readline(self) -> str:
        """The next line with its line feed, or nothing at the end."""


class BadInput(Exception):
    """The input isn't what the tool reads; the message says why."""


NUMBER = r"(0|[1-9][0-9]*)"
# The fields that aren't plain numbers.
FIELDS = {
    "start": r"(-?(?:0|[1-9][0-9]*))",
    "content": r"(-|[0-9a-f]+)",
    "code": r"(0x[0-9a-f]{4})",
    "attribute": r"(0x[0-9a-f]{8})",
    "idn": r"([SP]-[0-7]-[0-9]{4})",
    "numbers": r"((?: [SP]-[0-7]-[0-9]{4})+| -)",
    "addresses": r"((?: (?:0|[1-9][0-9]*))+)",
}
TEXTS = {"code", "attribute", "idn", "numbers", "addresses"}

TRACE = {
    "Mst": "m {cycle} {start} {bits} {content}",
    "At": "a {cycle} {start} {bits} {content}",
    "Mdt": "d {cycle} {start} {bits} {content}",
    "Phase": "p {cycle} {address} {phase}",
    "Version": "sercos 1",
    "Ring": "ring {rate} {cycle_time} {control} {gap} {drives}",
    "Drive": "drive {address} {slave} {t1min} {tatmt} {t4min} {tatat} {tmtsy} {tmtsg} {at_length} {record_length}",
    "Order": "order{addresses}",
    "Complete": "r {cycle} {request} complete {content}",
    "Refused": "r {cycle} {request} refused {code}",
    "Broken": "r {cycle} {request} broken",
    "PlanMade": "plan {cycle} t2 {t2} t3 {t3} t4 {t4} mdt {mdt}",
    "SlotMade": "slot {cycle} {address} t1 {t1} position {position}",
    "StopNoFit": "stop {cycle} nofit",
    "LinkMade": "rule {cycle} {rule} drive {address} at {at}",
    "LastMade": "rule {cycle} {rule} drive {address} sum {sum} bound {bound}",
    "StopRefused": "stop {cycle} refused {address} {idn} {code}",
    "StopConfig": "stop {cycle} config {address} {idn} {attribute}",
    "StopCheck127": "stop {cycle} check127 {address}{numbers}",
    "StopCheck128": "stop {cycle} check128 {address}{numbers}",
    "FallMst": "fall {cycle} mst",
    "FallAt": "fall {cycle} at {address}",
    "FallStep": "fall {cycle} step {address}",
    "FallRestart": "fall {cycle} restart",
    "End": "end {cycles} phase {phase} complete {complete} refused {refused} broken {broken} falls {falls}"
           " unseen {unseen}",
}
ANSWER = {
    "Plan": "plan t2 {t2} t3 {t3} t4 {t4} mdt {mdt}",
    "Slot": "slot {address} t1 {t1} position {position}",
    "NoPlan": "no plan",
    "Link": "rule {rule} drive {address} at {at}",
    "Last": "rule {rule} drive {address} sum {sum} bound {bound}",
}


def whole_bytes(digits: str) -> str:
    """The hexadecimal digits of a content, two for each byte."""
    if len(digits) % 2 and digits != "-":
        raise ValueError
    return digits


MAKERS: dict[str, Callable[[str], Any]] = {**{name: str for name in TEXTS}, "content": whole_bytes}


def kind_of(name: str, template: str) -> Kind:
    """The pattern of a template, the named tuple of its fields, and what makes a value of each field's text."""
    fields = re.findall(r"{(\w+)}", template)
    pattern = re.sub(r"{(\w+)}", lambda field: FIELDS.get(field[1], NUMBER), template)
    makers: list[Callable[[str], Any]] = [MAKERS.get(field, int) for field in fields]
    return re.compile(pattern), collections.namedtuple(name, fields), makers


def kinds_by_word(templates: dict[str, str]) -> Kinds:
    words: Kinds = collections.defaultdict(list)
    for name, template in templates.items():
        words[re.split(r"\W", template)[0]].append(kind_of(name, template))
    return words


TRACE_KINDS = kinds_by_word(TRACE)
ANSWER_KINDS = kinds_by_word(ANSWER)


def read_line(kinds: Kinds, text: str, number: int) -> Line:
    """The line as a tuple of its kind. The number is the line's place in its text, counted from 1."""
    with contextlib.suppress(ValueError):
        for pattern, kind, makers in kinds.get(text.partition(" ")[0], ()):
            if found := pattern.fullmatch(text):
                return kind(*[maker(value) for maker, value in zip(makers, found.groups())])
    raise BadInput(f"line {number}: no line of this kind: {text[:80]!r}")


def name_of(line: Line) -> str:
    """The name of a line's kind."""
    return type(line).__name__


class Head(NamedTuple):
    """The head of a trace: its lines `ring` and `drive`, and the addresses in the order of the ATs."""

    ring: Line
    drives: list[Line]
    order: list[int]


class Trace:
    """A trace whose head is read at once, and whose lines of cycles are read as they are asked for."""

    def __init__(self, stream: Lines) -> None:
        self.stream = stream
        self.number = 0
        self.head = self.read_head()

    def fault(self, message: str) -> BadInput:
        return BadInput(f"line {self.number}: {message}")

    def next_line(self) -> Line:
        """The next line; nothing at the end of the text."""
        text = self.stream.readline()
        if not text:
            return None
        self.number += 1
        if text.startswith("refused "):
            raise self.fault(f"the program refused its input: {text[:200].strip()}")
        return read_line(TRACE_KINDS, text.removesuffix("\n"), self.number)

    def next_of(self, wanted: str) -> Line:
        line = self.next_line()
        if line is None:
            raise BadInput(f"the trace ends after line {self.number}, before its line {wanted.lower()!r}")
        if name_of(line) != wanted:
            raise self.fault(f"a line {wanted.lower()!r} must be here, not {name_of(line).lower()!r}")
        return line

    def read_head(self) -> Head:
        self.next_of("Version")
        ring = self.next_of("Ring")
        if ring.rate not in (2, 4, 8, 16) or ring.cycle_time == 0 or not 1 <= ring.drives <= 64:
            raise self.fault("this rate, cycle time or number of drives can't be")
        drives: dict[int, Line] = {}
        for _ in range(ring.drives):
            drive = self.next_of("Drive")
            drives[drive.address] = drive
        order = [int(address) for address in self.next_of("Order").addresses.split()]
        if len(drives) != ring.drives or sorted(order) != sorted(drives):
            raise self.fault("the order must have the address of each drive once")
        return Head(ring, list(drives.values()), order)

    def lines(self) -> Iterator[Line]:
        """The lines of the cycles, and that of the totals if there is one, which is the last."""
        ended = False
        while (line := self.next_line()) is not None:
            if ended or name_of(line) in ("Version", "Ring", "Drive", "Order"):
                raise self.fault("this line can't be at this place")
            ended = name_of(line) == "End"
            yield line

    def cycle_time(self, phase: int) -> int:
        """How long a cycle lasts in which this phase is commanded, in microseconds."""
        return 1000 if phase < 3 else int(self.head.ring.cycle_time)

    def phase_of(self, mst: Line) -> int:
        """The phase that an MST commands."""
        if not re.fullmatch("ff0[0-4]", mst.content):
            raise self.fault(f"an MST has the content ff00 to ff04, not {mst.content[:20]}")
        return int(mst.content[2:], 16)


def address_of(telegram: Line) -> int:
    """The first byte of a telegram's content."""
    return 0 if telegram.content == "-" else int(telegram.content[:2], 16)


def read_answer(text: str) -> list[Line]:
    """The lines of an answer of `plan`."""
    return [read_line(ANSWER_KINDS, line, number) for number, line in enumerate(text.splitlines(), 1)]
