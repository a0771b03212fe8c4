"""A capture beside the plan of its document: how far each telegram is off its start, which are missing, and each rule that is broken."""
from __future__ import annotations

from collections.abc import Iterable, Iterator
from typing import NamedTuple

from .capture_rules import Judged, Telegram, finding_words
from .chain_words import drive_path
from .toml_places import Reading
from .trace_lines import BadInput, Head, Line, name_of

TIMES = ("slave", "t1min", "tatmt", "t4min", "tatat", "tmtsy", "tmtsg")


class Noted(NamedTuple):
    """Something of a capture that isn't as planned. `bits` is by how much, in bit times, where that is a time."""

    line: int
    cycle: int
    telegram: str
    drive: int
    what: str
    rule: int
    bits: int | None
    words: str


class Row:
    """What was seen of the AT of a drive, or of the MDT (drive 0), in the cycles of phases 3 and 4."""

    def __init__(self, drive: int, planned: int) -> None:
        self.drive, self.planned = drive, planned
        self.off: list[int] = []
        self.missing = self.early = self.late = 0

    @property
    def name(self) -> str:
        return f"AT {self.drive}" if self.drive else "MDT"

    def telegram(self) -> str:
        return f"the AT of drive {self.drive}" if self.drive else "the MDT"


def rows_of(plan: Iterable[Line], head: Head) -> list[Row]:
    """A row for each drive of the capture, in the order of its starts, and one for the MDT."""
    starts: dict[int, int] = {}
    mdt = None
    for line in plan:
        if name_of(line) == "Slot":
            starts[line.address] = line.t1
        elif name_of(line) == "Plan":
            mdt = line.t2
    missing = [str(drive.address) for drive in head.drives if drive.address not in starts]
    if missing:
        raise BadInput(f"the plan has no slot for drive {', '.join(missing)} of the capture")
    rows = [Row(drive.address, starts[drive.address]) for drive in head.drives]
    rows.sort(key=lambda row: row.planned)
    return rows + ([Row(0, mdt)] if mdt is not None else [])


class Report:
    """A capture that is read to its end."""

    def __init__(self, capture: Judged, plan: Iterable[Line], tolerance: float) -> None:
        self.head, self.rate = capture.head, int(capture.head.ring.rate)
        self.rows = {row.drive: row for row in rows_of(plan, capture.head)}
        self.most = tolerance * self.rate
        self.noted: list[Noted] = []
        self.cycles = self.cyclic = 0
        self.first = self.last = -1
        # The newest MST of phase 3 or 4, and the drives (0 for the MDT) that were seen since.
        self.mst: Telegram | None = None
        self.seen: set[int] = set()
        for telegram in capture.telegrams():
            self.note(telegram)
        if capture.has_end:
            self.close()
        self.noted.sort(key=lambda it: (it.line, it.rule == 0, it.rule))

    def note(self, telegram: Telegram) -> None:
        line = telegram.line
        for finding in telegram.findings:
            self.noted.append(Noted(finding.line, finding.cycle, finding.telegram, finding.drive, "rule", finding.rule, finding.bits,
                                    finding_words(finding, self.rate)))
        if telegram.name == "MST":
            self.close()
            self.cycles += 1
            self.first, self.last = line.cycle if self.first < 0 else self.first, line.cycle
            self.mst = telegram if telegram.phase >= 3 else None
        elif self.mst and telegram.phase >= 3 and telegram.drive in self.rows:
            self.place(telegram, self.rows[telegram.drive])

    def place(self, telegram: Telegram, row: Row) -> None:
        """How far a telegram is off its start."""
        line, off = telegram.line, telegram.line.start - row.planned * self.rate
        self.seen.add(row.drive)
        row.off.append(off)
        if abs(off) > self.most:
            what = "late" if off > 0 else "early"
            row.late, row.early = row.late + (off > 0), row.early + (off < 0)
            words = (f"cycle {line.cycle}, {row.telegram()}: {what} by {abs(off) / self.rate:g} us ({abs(off)} bit time{'s' * (abs(off) != 1)}); "
                     f"it starts at {line.start / self.rate:g} us, planned {row.planned} us")
            self.noted.append(Noted(telegram.number, line.cycle, telegram.name, row.drive, what, 0, abs(off), words))

    def close(self) -> None:
        """The end of a cycle: what of it is missing."""
        if self.mst:
            self.cyclic += 1
            cycle = self.mst.line.cycle
            for row in self.rows.values():
                if row.drive not in self.seen:
                    row.missing += 1
                    self.noted.append(Noted(self.mst.number, cycle, "AT" if row.drive else "MDT", row.drive, "missing", 0, None,
                                            f"cycle {cycle}, {row.telegram()}: missing"))
        self.mst, self.seen = None, set()

    def table(self) -> Iterator[str]:
        """A line for each drive and the MDT, with times in microseconds."""
        yield f"{'':8} {'planned':>8} {'seen':>7} {'missing':>8} {'early':>7} {'late':>7} {'least':>9} {'mean':>9} {'most':>9}"
        for row in self.rows.values():
            off = [bits / self.rate for bits in row.off]
            spread = "".join(f" {value:>+9.3f}" for value in (min(off), sum(off) / len(off), max(off))) if off else f" {'-':>9}" * 3
            yield f"{row.name:8} {row.planned:>8} {len(off):>7} {row.missing:>8} {row.early:>7} {row.late:>7}{spread}"


def head_differences(reading: Reading, head: Head) -> Iterator[str]:
    """Where the head of a capture isn't that of a document's ring."""
    ring, cycle = head.ring, reading.number("ring.cycle", 0)
    for key, wanted, found in (("rate", reading.number("ring.rate", 0), ring.rate), ("cycle", cycle, ring.cycle_time),
                               ("control", reading.number("ring.control", cycle), ring.control), ("gap", reading.number("ring.gap", 5), ring.gap)):
        if wanted != found:
            yield f"{key} is {wanted} in the document and {found} in the head of the capture"
    addresses = [reading.value(f"drive[{place}].address", "integer") for place, _ in enumerate(reading.items("drive"))]
    if sorted(filter(None, addresses)) != sorted(drive.address for drive in head.drives):
        yield f"the document has the drives {', '.join(map(str, addresses))}, the capture {', '.join(str(drive.address) for drive in head.drives)}"
    for drive in head.drives:
        path = drive_path(reading, drive.address)
        for key in TIMES if path else ():
            wanted = reading.number(f"{path}.{key}", drive.address if key == "slave" else 0)
            if wanted != getattr(drive, key):
                yield f"{key} of drive {drive.address} is {wanted} in the document and {getattr(drive, key)} in the head of the capture"
    order = [node.value for node in reading.items("ring.order")] or addresses
    if order != head.order and sorted(filter(None, order)) == sorted(head.order):
        yield f"the order of the ATs is {', '.join(map(str, order))} in the document and {', '.join(map(str, head.order))} in the capture"
