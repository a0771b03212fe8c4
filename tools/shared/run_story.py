"""What a picture of a run needs of its trace, gathered line by line in memory that doesn't grow with each telegram."""
from __future__ import annotations

import collections
from typing import NamedTuple

from .trace_lines import Line, Trace, address_of, name_of

# How many cycles the counts of a drive's missing telegrams tell apart; longer runs are counted in spans of cycles.
MOST_SPANS = 4096
# How many times telegrams may go missing before the picture only counts them.
MOST_LACKS = 400


class Stretch(NamedTuple):
    """A part of a run in one phase, from its first cycle to its last."""

    first: int
    last: int
    phase: int


class Lack(NamedTuple):
    """Cycles one after another in which the same telegrams are missing."""

    first: int
    last: int
    drives: tuple[int, ...]
    mdt: bool


class Event(NamedTuple):
    """Something that a line reports: its cycle, the time of the cycle's start in microseconds, and the line."""

    cycle: int
    time: int
    line: Line


class Phases:
    """The phases of one station: when each began."""

    def __init__(self) -> None:
        self.changes: list[tuple[int, int]] = []

    def change(self, cycle: int, phase: int) -> None:
        if self.changes and self.changes[-1][0] == cycle:
            self.changes.pop()
        if not self.changes or self.changes[-1][1] != phase:
            self.changes.append((cycle, phase))

    def stretches(self, last: int) -> list[Stretch]:
        ends = [cycle - 1 for cycle, _ in self.changes[1:]] + [last]
        return [Stretch(first, end, phase) for (first, phase), end in zip(self.changes, ends)]


class Counts:
    """How often something was in each span of cycles. A span has one cycle, and grows where a run has too many."""

    def __init__(self, first: int) -> None:
        self.first = first
        self.length = 1
        self.counts: collections.Counter[int] = collections.Counter()

    def add(self, cycle: int) -> None:
        while (cycle - self.first) // self.length >= MOST_SPANS:
            self.length *= 2
            halves: collections.Counter[int] = collections.Counter()
            for place, count in self.counts.items():
                halves[place // 2] += count
            self.counts = halves
        self.counts[(cycle - self.first) // self.length] += 1

    def runs(self) -> list[tuple[int, int, int]]:
        """The first cycle, the last one and the count of each row of neighbouring spans."""
        found: list[tuple[int, int, int]] = []
        for place in sorted(self.counts):
            first = self.first + place * self.length
            last = first + self.length - 1
            if found and found[-1][1] == first - 1:
                found[-1] = (found[-1][0], last, found[-1][2] + self.counts[place])
            else:
                found.append((first, last, self.counts[place]))
        return found


class Story:
    """A run as its trace tells it."""

    def __init__(self, trace: Trace) -> None:
        self.trace = trace
        self.head = trace.head
        self.addresses = [drive.address for drive in trace.head.drives]
        # Before the first MST there is no cycle.
        self.first = self.cycle = self.phase = -1
        self.time = 0
        self.master = Phases()
        self.drives = {address: Phases() for address in self.addresses}
        self.missing: dict[int, Counts] = {}
        self.missing_mdts = Counts(0)
        self.lacks: list[Lack] = []
        self.more_lacks = 0
        self.plans: list[Event] = []
        self.stops: list[Event] = []
        self.falls: list[Event] = []
        self.outcomes: list[Event] = []
        self.links: list[Event] = []
        self.end: Line = None
        self.sent: set[int] = set()
        self.mdt_sent = False
        for line in trace.lines():
            self.take(line)
        if self.cycle < 0:
            raise trace.fault("the trace has no cycle")
        self.end_cycle()

    def take(self, line: Line) -> None:
        name = name_of(line)
        if name == "Mst":
            self.begin_cycle(line)
        elif name == "End":
            self.end = line
        elif line.cycle != self.cycle:
            where = "before the first MST" if self.cycle < 0 else f"in the lines of cycle {self.cycle}"
            raise self.trace.fault(f"cycle {line.cycle} {where}")
        elif name == "At":
            self.sent.add(address_of(line))
        elif name == "Mdt":
            self.mdt_sent = True
        elif name == "Phase":
            self.move(line)
        else:
            self.report(name, line)

    def begin_cycle(self, mst: Line) -> None:
        if self.cycle < 0:
            self.first = mst.cycle
            self.missing = {address: Counts(mst.cycle) for address in self.addresses}
            self.missing_mdts = Counts(mst.cycle)
            for phases in self.drives.values() if mst.cycle == 0 else ():
                phases.change(0, 0)
        else:
            self.end_cycle()
            if mst.cycle != self.cycle + 1:
                raise self.trace.fault(f"cycle {mst.cycle} after cycle {self.cycle}")
            self.time += self.trace.cycle_time(self.phase)
        self.cycle = mst.cycle
        self.phase = self.trace.phase_of(mst)
        self.master.change(self.cycle, self.phase)
        self.sent, self.mdt_sent = set(), False

    def end_cycle(self) -> None:
        """Notes the telegrams that a cycle of phase 3 or 4 lacks: an AT of each drive and the MDT."""
        if self.phase < 3:
            return
        drives = tuple(address for address in self.addresses if address not in self.sent)
        for address in drives:
            self.missing[address].add(self.cycle)
        if not self.mdt_sent:
            self.missing_mdts.add(self.cycle)
        if drives or not self.mdt_sent:
            self.note_lack(Lack(self.cycle, self.cycle, drives, not self.mdt_sent))

    def note_lack(self, lack: Lack) -> None:
        before = self.lacks[-1] if self.lacks else None
        if before and before.last == lack.first - 1 and before[2:] == lack[2:]:
            self.lacks[-1] = before._replace(last=lack.last)
        elif len(self.lacks) < MOST_LACKS:
            self.lacks.append(lack)
        else:
            self.more_lacks += 1

    def move(self, line: Line) -> None:
        if line.address not in self.drives or line.phase > 4:
            raise self.trace.fault(f"no drive {line.address}, or no phase {line.phase}")
        self.drives[line.address].change(line.cycle, line.phase)

    def report(self, name: str, line: Line) -> None:
        event = Event(line.cycle, self.time, line)
        if name in ("Complete", "Refused", "Broken"):
            self.outcomes.append(event)
        elif name.startswith("Fall"):
            self.falls.append(event)
        elif name.startswith("Stop"):
            self.stops.append(event)
        elif name == "PlanMade":
            self.plans.append(event)
        elif name in ("LinkMade", "LastMade"):
            self.links.append(event)
