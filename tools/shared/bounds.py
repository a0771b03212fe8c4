"""The numbers of cycles that follow from a ring document (docs/PROTOCOL.md, 'How long a start-up takes' and what follows), each as the sum
that it is. .ci/tools.d/bounds compares them with the worked values of the definitions.
"""
from __future__ import annotations

from collections.abc import Iterable
from typing import Any

# Steps on the service channel. A read or a write of one word opens the block, reads both words of the attribute, and has one for the word;
# a read of an attribute opens the block and has two; a list has its two lengths and its entries; a check opens, sets, and reads its status,
# once more after its time.
WORD = 4
ATTRIBUTE = 3
LIST = 5
CHECK = 4
# The start-up reads six times, and the attribute of each listed block; it writes nine words and the two lists.
READS = 6 * WORD
WRITES = 9 * WORD + 2 * LIST + CHECK
# In phase 3 there is the second check. Four more steps are for the cycles in which a phase ends.
START = READS + WRITES + CHECK + 4
# After a failed check its list is read, of at most 36 blocks.
STOP = LIST + 36
# A request takes at most the steps of a list with 1,024 bytes, and three for its begin and end.
REQUEST = LIST + 512 + 3
# Phases 0 and 1: ten MSTs in a row and the changes of phase; each drive is identified in two cycles.
EARLY = 20
IDENTIFIED = 2
# A step without an answer for as many cycles makes a fall.
STEP_LIMIT = 64


class Drive:
    """The numbers of cycles that follow from a drive of a document: those of a start-up, with a longer busy time too, those that
    its reads or its writes take, and those of a request in phase 4."""

    def __init__(self, table: dict[str, Any]) -> None:
        self.address: int = table["address"]
        self.busy: int = table.get("busy", 0)
        self.command: int = table.get("command", 0)
        listed = len(table.get("at", [])) + len(table.get("mdt", []))
        self.steps = START + (ATTRIBUTE + 1) * listed + 2 * self.command
        self.section = (self.busy + 1) * max(READS + ATTRIBUTE * listed, WRITES + listed) + self.command
        self.request = (self.busy + 2) * (REQUEST + self.command)


class Bounds:
    """Those of a ring: of a start-up, of its stop on top, and after the last disturbed cycle until no fall is reported any more, until
    phase 4 by the ring's drives, and until phase 4 by the start-up's bound."""

    def __init__(self, tables: Iterable[dict[str, Any]]) -> None:
        self.drives = [Drive(table) for table in tables]
        self.start = self.start_with(2)
        self.stop = STOP * (2 + max(drive.busy for drive in self.drives))
        sections = [drive.section for drive in self.drives]
        self.fall = STEP_LIMIT + 4 + sum(sections) - min(sections)
        self.back = self.fall + self.start
        self.recovery = 2 * self.start + 200

    def start_with(self, more: int) -> int:
        """The bound of a start-up in which each step takes the busy time and so many cycles."""
        return EARLY + IDENTIFIED * len(self.drives) + sum((drive.busy + more) * drive.steps for drive in self.drives)

    def latest(self, requests: Iterable[dict[str, Any]]) -> dict[int, int]:
        """For each request, by its number from 1 on, the last cycle in which it is reported if nothing is disturbed: those of one drive
        come one after the other from phase 4 on."""
        cycles = {drive.address: drive.request for drive in self.drives}
        begun: dict[int, int] = {}
        latest = {}
        for number, request in enumerate(requests, 1):
            address = request["drive"]
            begun[address] = begun.get(address, 0) + 1
            latest[number] = self.start + begun[address] * cycles[address]
        return latest
