"""Which declared times a telegram of a plan waits for, and which of them holds it where it is.

All times are in microseconds after the end of the MST. docs/PROTOCOL.md, section 'The twelve inequalities', has the rules.
"""
from __future__ import annotations

import math
import operator
from collections.abc import Iterable
from typing import NamedTuple

from .frame_lengths import frame_bits, most_bits
from .svg_shapes import number
from .trace_lines import Head, Line


class Wait(NamedTuple):
    """A time that a telegram or a point in time waits for: of which inequality, of whom, from when to when."""

    rule: int
    name: str
    of: str
    begin: float
    end: float


class Times:
    """The numbers of a ring, in microseconds."""

    def __init__(self, head: Head) -> None:
        self.ring = head.ring
        self.drives: dict[int, Line] = {drive.address: drive for drive in head.drives}
        self.order = head.order
        self.mst = self.longest(2)
        self.records: int = sum(drive.record_length for drive in head.drives)
        self.mdt = self.longest(1 + self.records)
        self.real_mdt = self.zeros(255, self.records)

    def longest(self, content_bytes: int) -> float:
        return most_bits(content_bytes) / int(self.ring.rate)

    def zeros(self, address: int, data_bytes: int) -> float:
        return frame_bits(bytes([address]) + bytes(data_bytes)) / int(self.ring.rate)

    def at(self, address: int) -> float:
        return self.longest(1 + self.drives[address].at_length)

    def real_at(self, address: int) -> float:
        return self.zeros(address, self.drives[address].at_length)

    def first_with_most(self, time: str) -> Line:
        """The first drive of the ring with the greatest time of this name."""
        return max(self.drives.values(), key=operator.attrgetter(time))


def at_waits(times: Times, starts: dict[int, int], place: int) -> list[Wait]:
    """What the AT at this place of the order waits for, by the inequalities 1 to 4."""
    drive = times.drives[times.order[place]]
    gap = times.ring.gap
    waits = [Wait(1, "T1min", f"of drive {drive.address}", 0, drive.t1min)]
    if place == 0:
        return waits + [Wait(2, "gap", "after the MST", 0, gap)]
    before = times.order[place - 1]
    end = starts[before] + times.at(before)
    if times.drives[before].slave != drive.slave:
        waits.append(Wait(3, "gap", f"after the AT of drive {before}", end, end + gap))
    for other in reversed(times.order[:place]):
        if times.drives[other].slave == drive.slave:
            end = starts[other] + times.at(other)
            waits.append(Wait(4, "TATAT", f"after the AT of drive {other}", end, end + drive.tatat))
            break
    return waits


def mdt_waits(times: Times, starts: dict[int, int]) -> list[Wait]:
    """What the MDT waits for, by the inequalities 5 and 6."""
    last = times.order[-1]
    end = starts[last] + times.at(last)
    waits = [Wait(5, "gap", f"after the AT of drive {last}", end, end + times.ring.gap)]
    for address in times.order:
        end = starts[address] + times.at(address)
        waits.append(Wait(6, "TATMT", f"after the AT of drive {address}", end, end + times.drives[address].tatmt))
    return waits


def holder(waits: Iterable[Wait], start: int) -> Wait | None:
    """The wait of the least inequality that, rounded up to a microsecond, is this start."""
    return next((wait for wait in waits if math.ceil(wait.end) == start), None)


def reason(wait: Wait | None) -> str:
    """What holds a time back, in words."""
    if wait is None:
        return ""
    return f"rule {wait.rule}: {wait.name} {number(wait.end - wait.begin)} µs {wait.of}"


def last_wait(times: Times) -> Wait:
    """What is kept free between the MDT and the next MST: the gap, or the greatest TMTSY if that is longer."""
    drive = times.first_with_most("tmtsy")
    end = times.ring.cycle_time - times.mst
    if drive.tmtsy > times.ring.gap:
        return Wait(9, "TMTSY", f"of drive {drive.address} after the MDT", end - drive.tmtsy, end)
    return Wait(9, "gap", "after the MDT", end - times.ring.gap, end)


def t3_wait(times: Times, t2: int) -> Wait:
    """What the point T3 waits for."""
    drive = times.first_with_most("tmtsg")
    end = t2 + times.mdt
    return Wait(7, "TMTSG", f"of drive {drive.address} after the MDT", end, end + drive.tmtsg)


def t4_wait(times: Times) -> Wait:
    """What is kept free between the point T4 and the end of the cycle."""
    drive = times.first_with_most("t4min")
    cycle = times.ring.cycle_time
    return Wait(10, "T4min", f"of drive {drive.address} before the cycle's end", cycle - drive.t4min, cycle)
