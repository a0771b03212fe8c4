"""The telegrams and the points in time of a plan, each with the declared times that it waits for."""
from __future__ import annotations

import math
from typing import TYPE_CHECKING, TypedDict

from .service_channel import Cycle
from .slot_waits import Times, Wait, at_waits, holder, last_wait, mdt_waits, reason, t3_wait, t4_wait
from .trace_lines import Head, address_of

if TYPE_CHECKING:
    # Python has it from 3.11 on, and the tools that read no ring document run on 3.9.
    from typing import NotRequired


class Plan(TypedDict):
    """A plan of a page: the cycle that made it, its times, and of each drive T1 and its place in the MDT.

    One that the trace doesn't tell has the cycle in which it was seen.
    """

    cycle: int
    t2: int
    t3: int
    t4: int
    mdt: int
    slots: dict[int, list[int]]
    seen: NotRequired[int]


def row(name: str, drive: int, start: float, waits: list[Wait], held_by: Wait | None) -> dict[str, object]:
    return {
        "name": name, "drive": drive, "start": start, "held": reason(held_by),
        "waits": [[wait.name, wait.of, wait.begin, wait.end, int(wait == held_by)] for wait in waits],
    }


def seen_plan(head: Head, cycle: Cycle) -> Plan | None:
    """The plan of a trace that lacks its lines, from a cycle with all telegrams; none where they start between microseconds.

    T3 and T4 are those of the least plan by the declared times.
    """
    times, rate = Times(head), head.ring.rate
    if any(telegram.start % rate for telegram in (*cycle.ats, cycle.mdt)):
        return None
    t2 = cycle.mdt.start // rate
    place, slots = 1, {}
    starts = {address_of(at): at.start // rate for at in cycle.ats}
    for drive in head.drives:
        slots[drive.address] = [starts[drive.address], place]
        place += drive.record_length
    return {"cycle": cycle.number - 1, "t2": t2, "t3": math.ceil(t3_wait(times, t2).end), "t4": int(t4_wait(times).begin),
            "mdt": times.records, "slots": slots, "seen": cycle.number}


def plan_rows(head: Head, plan: Plan) -> list[dict[str, object]]:
    """A row for each AT in the order of the ATs, then for the MDT, for T3 and T4, and for the next MST.

    A plan that lacks the slot of a drive, as where a trace is cut, has no rows.
    """
    times = Times(head)
    if any(address not in plan["slots"] for address in head.order):
        return []
    starts: dict[int, int] = {address: plan["slots"][address][0] for address in head.order}
    rows = []
    for place, address in enumerate(head.order):
        waits = at_waits(times, starts, place)
        rows.append(row("AT", address, starts[address], waits, holder(waits, starts[address])))
    waits = mdt_waits(times, starts)
    rows.append(row("MDT", 0, plan["t2"], waits, holder(waits, plan["t2"])))
    for name, start, wait in (("T3", plan["t3"], t3_wait(times, plan["t2"])), ("T4", plan["t4"], t4_wait(times)),
                              ("next MST", head.ring.cycle_time - times.mst, last_wait(times))):
        rows.append(row(name, 0, start, [wait], wait))
    return rows
