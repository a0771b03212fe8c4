"""What a page of a run has of its trace, in memory that a browser reads at once: columns of numbers, and texts.

A page has the telegrams as they were sent, and the rows of each drive's service channel in the words of `channel_steps`. A
telegram that was sent and not received is marked where a later line of the trace shows it.
"""
from __future__ import annotations

import array
import base64
import json
import sys
import zlib
from typing import NamedTuple

from .channel_steps import ANSWER_LOST, ERRORS, IDENTIFICATION, IDENTIFIED, NOT_ACCEPTED, Telling, fall_words, stop_words
from .page_document import BUILT_IN, RingDocument
from .page_waits import Plan, plan_rows, seen_plan
from .service_channel import Cycle, Status, cycles, records, statuses
from .trace_lines import Line, Trace, address_of, name_of

# The kinds of a channel's rows, in the two low bits of the column `row_bits`; then come AHS and MHS.
ROW, EVENT, IDLE = range(3)
BITS = {"0": 0, "1": 1, "-": 2}
MST, AT, MDT = range(3)
MST_LOST = "It didn't come back to the master whole, as the fall of cycle {} shows."
AT_LOST = "The master didn't take it, as the fall of cycle {} shows."
ANSWER_MISSED = "The master didn't receive it: its MDT of this cycle has the same step again."
IDENTIFIED_AGAIN = "The master didn't receive it: its MDT of this cycle is to the same drive again."
STEP_MISSED = "Drive {} didn't take it: its AT of the next cycle doesn't have the handshake bit of the step."
MDT_LOST = "Drive {} didn't take it, since it went to phase 0 after the MDT of cycle {}."


class Lost(NamedTuple):
    """A telegram that was sent and not received: its cycle, its kind, the drive, and how the trace shows it."""

    cycle: int
    kind: int
    drive: int
    words: str


class Event(NamedTuple):
    """A plan, a fall, a stop or an outcome: its cycle, its kind, its words, the chain of a stop, and the drive, or 0."""

    cycle: int
    kind: str
    words: str
    chain: list[str]
    drive: int


class Texts:
    """The distinct texts of a page, each with its number."""

    def __init__(self) -> None:
        self.numbers: dict[str, int] = {}

    def number(self, text: str) -> int:
        return self.numbers.setdefault(text, len(self.numbers))


class Columns:
    """Lists of numbers by name, with the type that the browser has for them."""

    TYPES = {"B": "Uint8Array", "H": "Uint16Array", "i": "Int32Array", "I": "Uint32Array"}

    def __init__(self, **codes: str) -> None:
        self.arrays = {name: array.array(code) for name, code in codes.items()}
        self.content = bytearray()

    def packed(self, texts: dict[str, object]) -> str:
        """All columns after their texts, compressed, as letters and digits: first the length of the texts, in four bytes.

        Each part begins at a multiple of four bytes.
        """
        columns = [[name, self.TYPES[column.typecode], len(column)] for name, column in self.arrays.items()]
        columns.append(["content", "Uint8Array", len(self.content)])
        head = json.dumps({**texts, "columns": columns}, ensure_ascii=False, separators=(",", ":")).encode("utf-8", "replace")
        parts = [len(head).to_bytes(4, "little"), head]
        for column in self.arrays.values():
            if sys.byteorder == "big":
                column.byteswap()
            parts.append(column.tobytes())
        parts.append(bytes(self.content))
        whole = b"".join(part + bytes(-len(part) % 4) for part in parts)
        return base64.b64encode(zlib.compress(whole, 6)).decode("ascii")


class ChannelRows:
    """The rows of one drive's channel, and the telegrams of which they show that they weren't received."""

    def __init__(self, address: int, texts: Texts, lost: list[Lost]) -> None:
        self.address = address
        self.texts = texts
        self.lost = lost
        self.cycles, self.bits = array.array("I"), array.array("B")
        self.answers, self.steps = array.array("I"), array.array("I")

    def add(self, cycle: int, bits: int, answer: int, step: int) -> None:
        self.cycles.append(cycle)
        self.bits.append(bits)
        self.answers.append(answer)
        self.steps.append(step)

    def row(self, cycle: Cycle, ahs: str, answer: str, mhs: str, step: str) -> None:
        self.add(cycle.number, ROW | BITS[ahs] << 2 | BITS[mhs] << 4, self.texts.number(answer), self.texts.number(step))
        if step.endswith(ANSWER_LOST) and ahs != "-":
            self.lost.append(Lost(cycle.number, AT, self.address, ANSWER_MISSED))
        if (answer, step) == (IDENTIFIED, IDENTIFICATION):
            self.lost.append(Lost(cycle.number, AT, self.address, IDENTIFIED_AGAIN))
        if answer.startswith(NOT_ACCEPTED):
            self.lost.append(Lost(cycle.number - 1, MDT, self.address, STEP_MISSED.format(self.address)))

    def idle(self, first: int, last: int, phase: int) -> None:
        self.add(first, IDLE, last, 0)

    def event(self, cycle: Cycle, text: str) -> None:
        self.add(cycle.number, EVENT, self.texts.number(text), 0)


def changed(changes: list[tuple[int, int]], cycle: int, phase: int) -> None:
    """Notes the phase of a station. Of several in one cycle the last counts."""
    if changes and changes[-1][0] == cycle:
        changes.pop()
    if not changes or changes[-1][1] != phase:
        changes.append((cycle, phase))


class PageData:
    """A run as a page shows it, gathered cycle by cycle."""

    def __init__(self, trace: Trace, document: RingDocument | None) -> None:
        self.trace, self.document = trace, document
        self.addresses = [drive.address for drive in trace.head.drives]
        self.columns = Columns(start="i", bits="H", length="H", telegrams="H", phase="B")
        self.texts, self.lost = Texts(), list[Lost]()
        self.rows = {address: ChannelRows(address, self.texts, self.lost) for address in self.addresses}
        self.tellings = [Telling(address, rows) for address, rows in self.rows.items()]
        self.missing = {address: array.array("I") for address in self.addresses}
        self.master = list[tuple[int, int]]()
        self.phases = {address: list[tuple[int, int]]() for address in self.addresses}
        self.events = list[Event]()
        self.plans = list[Plan]()
        # The first cycle in which all telegrams of a plan are sent, and the cycle before.
        self.whole: Cycle | None = None
        self.before: Cycle | None = None
        # The numbers of the first cycle and of the last.
        self.first = self.last = 0
        for cycle in cycles(trace):
            self.take(cycle)
        self.end()

    def end(self) -> None:
        """Ends with the last cycle, which must be there."""
        if not self.before:
            raise self.trace.fault("the trace has no cycle")
        if not self.plans and self.whole and (plan := seen_plan(self.trace.head, self.whole)):
            self.plans.append(plan)
        for telling in self.tellings:
            telling.end_idle()

    def take(self, cycle: Cycle) -> None:
        if not self.before:
            self.first = cycle.number
            # Before its first change a drive's phase isn't known, unless the run begins here.
            for phases in self.phases.values() if cycle.number == 0 else ():
                phases.append((0, 0))
        self.take_telegrams(cycle)
        for line in cycle.moves + cycle.falls:
            if line.address not in self.phases or line.phase > 4:
                raise self.trace.fault(f"no drive {line.address}, or no phase {line.phase}")
            changed(self.phases[line.address], cycle.number, line.phase)
        sent, steps = statuses(cycle), records(self.trace, cycle)
        self.take_senders(cycle, sent)
        if cycle.phase > 2 and cycle.mdt and not self.whole and len(sent) == len(self.addresses):
            self.whole = cycle
        for telling in self.tellings:
            address = telling.channel.address
            telling.tell(cycle, sent[address][1] if address in sent else None, steps.get(address))
        self.take_reports(cycle)
        self.before, self.last = cycle, cycle.number

    def take_telegrams(self, cycle: Cycle) -> None:
        """Notes the MST, the ATs and the MDT, each with its first bit, its length in bits, and its bytes."""
        arrays = self.columns.arrays
        telegrams = [cycle.mst, *cycle.ats, *([cycle.mdt] if cycle.mdt else [])]
        # The highest bit tells that the last telegram is an MDT.
        arrays["telegrams"].append(len(telegrams) | (0x8000 if cycle.mdt else 0))
        arrays["phase"].append(cycle.phase)
        changed(self.master, cycle.number, cycle.phase)
        try:
            arrays["start"].extend([telegram.start for telegram in telegrams])
            arrays["bits"].extend([telegram.bits for telegram in telegrams])
            arrays["length"].extend([len(telegram.content) // 2 for telegram in telegrams])
        except OverflowError as fault:
            raise self.trace.fault("this start, or this length, can't be") from fault
        self.columns.content += bytes.fromhex("".join([telegram.content for telegram in telegrams]))

    def take_senders(self, cycle: Cycle, sent: dict[int, tuple[Line, Status]]) -> None:
        """Notes the drives without an AT in a cycle of phase 3 or 4. One that sends an AT is in the phase that is commanded."""
        for address in sent:
            if not self.phases[address]:
                self.phases[address].append((cycle.number, cycle.phase))
        if cycle.phase > 2 and len(sent) < len(self.addresses):
            for address in self.addresses:
                if address not in sent:
                    self.missing[address].append(cycle.number)

    def take_reports(self, cycle: Cycle) -> None:
        for line in cycle.falls:
            for place in (cycle.number - 1, cycle.number):
                self.lost.append(Lost(place, MDT, line.address, MDT_LOST.format(line.address, cycle.number)))
        for line in cycle.reports:
            name = name_of(line)
            if name == "PlanMade":
                self.plans.append({"cycle": cycle.number, "t2": line.t2, "t3": line.t3, "t4": line.t4, "mdt": line.mdt,
                                   "slots": {}})
                self.event(cycle, "plan", f"T2 {line.t2}, T3 {line.t3}, T4 {line.t4} microseconds")
            elif name == "SlotMade" and self.plans:
                self.plans[-1]["slots"][line.address] = [line.t1, line.position]
            elif name in ("LinkMade", "LastMade") and self.events:
                self.events[-1].chain.append(link_text(line))
            elif name.startswith("Fall"):
                self.event(cycle, "fall", fall_words(line), getattr(line, "address", 0))
                self.take_fall(cycle, name, line)
            elif name.startswith("Stop"):
                self.event(cycle, "stop", stop_words(line), getattr(line, "address", 0))
            elif name in ("Complete", "Refused", "Broken"):
                self.event(cycle, name.lower(), self.outcome_text(line), self.request_drive(line.request))

    def event(self, cycle: Cycle, kind: str, text: str, drive: int = 0) -> None:
        self.events.append(Event(cycle.number, kind, text, [], drive if drive in self.phases else 0))

    def take_fall(self, cycle: Cycle, name: str, line: Line) -> None:
        """Marks the telegrams that a fall shows as lost, in its cycle and in the one before."""
        for place in (self.before, cycle):
            if place and place.phase and name == "FallMst":
                self.lost.append(Lost(place.number, MST, 0, MST_LOST.format(cycle.number)))
            elif place and name == "FallAt" and any(address_of(at) == line.address for at in place.ats):
                self.lost.append(Lost(place.number, AT, line.address, AT_LOST.format(cycle.number)))

    def request_drive(self, number: int) -> int:
        """The drive of a request, where a document has it; otherwise 0."""
        return self.document.request_drive(number) if self.document else 0

    def outcome_text(self, line: Line) -> str:
        words = self.document.request_words(line.request) if self.document else ""
        text = f"request {line.request}" + (f", {words}" if words else "")
        if name_of(line) == "Refused":
            return f"{text}: {line.code}, {ERRORS.get(int(line.code, 16), 'unknown')}"
        has_data = name_of(line) == "Complete" and line.content != "-"
        return f"{text}: {line.content}" if has_data else text

    def packed(self) -> str:
        """The data of the page."""
        arrays, drives = self.columns.arrays, self.rows.values()
        arrays["row_cycle"] = sum_of("I", [rows.cycles for rows in drives])
        arrays["row_answer"] = sum_of("I", [rows.answers for rows in drives])
        arrays["row_step"] = sum_of("I", [rows.steps for rows in drives])
        arrays["row_bits"] = sum_of("B", [rows.bits for rows in drives])
        arrays["at_cycle"] = sum_of("I", list(self.missing.values()))
        return self.columns.packed(self.meta())

    def meta(self) -> dict[str, object]:
        """All that isn't a column."""
        head = self.trace.head
        return {
            "ring": head.ring._asdict(),
            "drives": [drive._asdict() for drive in head.drives],
            "order": head.order,
            "first": self.first,
            "cycles": self.last - self.first + 1,
            "rows": [len(rows.cycles) for rows in self.rows.values()],
            "missing": [len(cycles) for cycles in self.missing.values()],
            "master": self.master,
            "phases": list(self.phases.values()),
            "events": self.events,
            "lost": sorted(set(self.lost)),
            "plans": [dict[str, object](plan, rows=plan_rows(head, plan)) for plan in self.plans],
            "texts": list(self.texts.numbers),
            "names": {**BUILT_IN, **(self.document.names if self.document else {})},
            "document": self.document.meta() if self.document else None,
        }


def sum_of(code: str, parts: list[array.array[int]]) -> array.array[int]:
    """The columns of all drives, one after another."""
    whole = array.array(code)
    for part in parts:
        whole.extend(part)
    return whole


def link_text(line: Line) -> str:
    """A line of the chain that shows that no plan fits."""
    drive = f", drive {line.address}" if line.address else ""
    if name_of(line) == "LinkMade":
        return f"rule {line.rule}{drive}: at bit time {line.at} or later"
    return f"rule {line.rule}{drive}: the sum {line.sum} is beyond the bound {line.bound}, in bit times"
