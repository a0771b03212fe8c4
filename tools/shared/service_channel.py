"""The cycles of a trace, and the service channel as the telegrams of a cycle show it.

docs/PROTOCOL.md has the rules, docs/FORMATS.md the trace.
"""
from __future__ import annotations

from collections.abc import Iterator
from typing import NamedTuple

from .trace_lines import Line, Trace, address_of, name_of


class Record(NamedTuple):
    """What the master's record has for a drive. The word is that of 16 bits."""

    mhs: int
    write: int
    last: int
    element: int
    word: int


class Status(NamedTuple):
    """What a drive's AT answers. The word is that of 16 bits."""

    ahs: int
    busy: int
    error: int
    change: int
    word: int


class Cycle(NamedTuple):
    """One cycle of a trace.

    `begin` is the end of its MST and `length` the time to the end of the next, both in microseconds. A `moves` line tells a
    drive's phase at the MST, a `falls` line its phase 0 after the MDT. The reports are the other lines.
    """

    number: int
    begin: int
    length: int
    phase: int
    mst: Line
    moves: list[Line]
    ats: list[Line]
    mdt: Line
    falls: list[Line]
    reports: list[Line]


def record_of(content: bytes) -> Record:
    """The record of four bytes: control word and information word."""
    control = content[0]
    return Record(control & 1, control >> 1 & 1, control >> 2 & 1, control >> 3 & 7, int.from_bytes(content[2:4], "little"))


def status_of(content: bytes) -> Status:
    """What the first five bytes of an AT say."""
    status = content[1]
    return Status(status & 1, status >> 1 & 1, status >> 2 & 1, status >> 5 & 1, int.from_bytes(content[3:5], "little"))


def cycles(trace: Trace) -> Iterator[Cycle]:
    """The cycles of a trace, one after another. A line that can't be in its cycle is refused."""
    cycle: Cycle | None = None
    addresses = {drive.address for drive in trace.head.drives}
    for line in trace.lines():
        name = name_of(line)
        if name == "Mst":
            if cycle:
                yield cycle
            cycle = next_cycle(trace, cycle, line)
        elif name != "End":
            if not cycle or line.cycle != cycle.number:
                raise trace.fault(f"cycle {line.cycle} where no MST of it is the newest")
            cycle = with_line(trace, addresses, cycle, name, line)
    if cycle:
        yield cycle


def next_cycle(trace: Trace, cycle: Cycle | None, mst: Line) -> Cycle:
    if cycle and mst.cycle != cycle.number + 1:
        raise trace.fault(f"the MST of cycle {mst.cycle} after that of cycle {cycle.number}")
    phase = trace.phase_of(mst)
    begin = cycle.begin + cycle.length if cycle else 0
    return Cycle(mst.cycle, begin, trace.cycle_time(phase), phase, mst, [], [], None, [], [])


def with_line(trace: Trace, addresses: set[int], cycle: Cycle, name: str, line: Line) -> Cycle:
    if name == "At":
        if address_of(line) not in addresses or len(line.content) < 10:
            raise trace.fault("an AT has at least five bytes, of which the first is a drive's address")
        cycle.ats.append(line)
    elif name == "Mdt":
        check_mdt(trace, cycle, line)
        return cycle._replace(mdt=line)
    elif name == "Phase":
        (cycle.falls if cycle.ats or cycle.mdt else cycle.moves).append(line)
    else:
        cycle.reports.append(line)
    return cycle


def check_mdt(trace: Trace, cycle: Cycle, mdt: Line) -> None:
    wanted = 1 + sum(drive.record_length for drive in trace.head.drives) if cycle.phase > 2 else 5
    if cycle.mdt or cycle.phase == 0 or len(mdt.content) != 2 * wanted:
        raise trace.fault(f"a cycle has one MDT, in phases 1 to 4; here it has {wanted} bytes")


def statuses(cycle: Cycle) -> dict[int, tuple[Line, Status]]:
    """The AT's line and status of each drive that sent an AT in this cycle, by address."""
    return {address_of(at): (at, status_of(bytes.fromhex(at.content[:10]))) for at in cycle.ats}


def records(trace: Trace, cycle: Cycle) -> dict[int, Record]:
    """The record of each drive that the MDT of this cycle has one for, by address."""
    if not cycle.mdt:
        return {}
    content = bytes.fromhex(cycle.mdt.content)
    if cycle.phase < 3:
        return {content[0]: record_of(content[1:5])}
    found, place = {}, 1
    for drive in trace.head.drives:
        found[drive.address] = record_of(content[place:place + 4])
        place += drive.record_length
    return found
