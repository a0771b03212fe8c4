"""The commands of the program, in this process."""
from __future__ import annotations

import re
from collections.abc import Sequence
from typing import NamedTuple, Union

from .errors import Refused, Status, must
from .library import C, Out, Text, bytes_of
from .trace_lines import Line, name_of, read_answer

FIRST_ROOM = 1 << 16


class Answer(NamedTuple):
    """The status of a command, and its output."""

    status: Status
    output: bytes


class Slot(NamedTuple):
    """The slot of a drive: when its AT starts, in microseconds after the MST's end, and the position of its record in the MDT."""

    address: int
    t1: int
    position: int


class Plan(NamedTuple):
    """The least plan of a ring: times in microseconds after the MST's end, the bytes of the MDT after its address, and the slots in the
    order of the ring."""

    t2: int
    t3: int
    t4: int
    mdt: int
    slots: tuple[Slot, ...]


class Link(NamedTuple):
    """A link of a chain: the number of an inequality, the address of its drive, and the bit time that it requires."""

    rule: int
    drive: int
    at: int


class Chain(NamedTuple):
    """The proof that no plan fits: its links, and the inequality at its end, which requires `sum` where there is room for `bound`, in bit
    times."""

    links: tuple[Link, ...]
    rule: int
    drive: int
    sum: int
    bound: int


class Clean(NamedTuple):
    """A capture that breaks no rule, and the number of its lines."""

    lines: int


class Violation(NamedTuple):
    """The first line of a capture that breaks a rule, and that rule."""

    line: int
    rule: int
    name: str


def call(words: Sequence[str], input: Text = b"") -> Answer:
    """Runs a command over an input, as the program does: `call(["replay", "1"], text)`. Returns its status and its output.

    No status raises an exception. The trace of a long run can be had cycle by cycle, by `run`.
    """
    # They are lines on their way, and no command has a word that is empty or has a line feed.
    if any("\n" in word or not word for word in words):
        return Answer(Status.BAD_WORDS, b"")
    line, source = bytes_of("\n".join(words)), bytes_of(input)
    room = FIRST_ROOM
    while True:
        out = Out(room)
        status = C["call"](line, len(line), source, len(source), out.room, out.size, out.len)
        # An output that has too little room fills it, also a refusal, which has its own status.
        if status != Status.WRITE_FAULT and out.len.value < room:
            return Answer(Status(status), out.written())
        room *= 4


def refusal(answer: Answer) -> str:
    """What a command says of an input that it refuses."""
    return answer.output.decode("utf-8", "backslashreplace").strip()


def answer_of(words: Sequence[str], input: Text) -> Answer:
    """The answer of a command, if its status is DONE or NO."""
    answer = call(words, input)
    if answer.status not in (Status.DONE, Status.NO):
        must(answer.status, " ".join(words), refusal(answer))
    return answer


def plan_of(lines: list[Line]) -> Plan:
    first, *slots = lines
    return Plan(first.t2, first.t3, first.t4, first.mdt, tuple(Slot(*slot) for slot in slots))


def chain_of(lines: list[Line]) -> Chain:
    links = [line for line in lines if name_of(line) == "Link"]
    last = lines[-1]
    return Chain(tuple(Link(*link) for link in links), *last)


def plan(ring: Text) -> Union[Plan, Chain]:
    """Returns the least plan of a ring document, or the chain that proves that none fits. `Refused`: the document is refused."""
    answer = answer_of(["plan"], ring)
    lines = read_answer(answer.output.decode())
    return plan_of(lines) if answer.status == Status.DONE else chain_of(lines[1:])


def check(text: Text) -> Union[Clean, Violation]:
    """Returns the verdict on a trace or a capture. `Refused`: a line isn't one of a trace, or can't be at its place."""
    answer = answer_of(["check"], text).output.decode()
    if found := re.fullmatch(r"clean (\d+)\n", answer):
        return Clean(int(found[1]))
    if found := re.fullmatch(r"violation line (\d+) rule (\d+) (.*)\n", answer):
        return Violation(int(found[1]), int(found[2]), found[3])
    raise Refused(f"check: {answer.strip()}")


def why_refused(document: Text) -> str:
    """Why a ring document is refused, in one line."""
    return refusal(call(["plan"], document))
