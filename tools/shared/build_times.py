"""How long each crate of a build took: the estimate of what is left, and the table of `tools/build --times NAME`."""
from __future__ import annotations

import contextlib
import heapq
import json
import pathlib
from collections.abc import Iterable, Mapping
from typing import NamedTuple

from .crates import Crates

FILE = "build.times"
# So many crates show how fast the machine is.
ENOUGH = 3


class CrateTime(NamedTuple):
    """A crate's part of a build: when it began and ended, in seconds since the build began; its number of jobs; the seconds of a processor
    that it took; and whether it was kept from an earlier build."""

    name: str
    began: float
    ended: float
    jobs: int
    cost: float
    was_kept: bool


class Times:
    """The crates of a build that have ended, in the order in which they did."""

    def __init__(self, ended: Iterable[CrateTime] = ()) -> None:
        self.ended = list(ended)

    def write(self, out: pathlib.Path) -> None:
        """Keeps them beside the product, a line each."""
        with contextlib.suppress(OSError):
            (out / FILE).write_text("".join(f"{json.dumps(it)}\n" for it in self.ended), encoding="utf-8")

    @staticmethod
    def read(out: pathlib.Path) -> Times:
        """Those of the last build of the product, or none."""
        with contextlib.suppress(OSError):
            return Times(CrateTime(*json.loads(line)) for line in (out / FILE).read_text(encoding="utf-8").splitlines())
        return Times()

    def pace(self, weights: Mapping[str, int]) -> float | None:
        """How many seconds a unit of weight takes on this machine, or None until so many crates have shown it."""
        proved = [it for it in self.ended if not it.was_kept]
        if len(proved) < ENOUGH:
            return None
        return sum(it.ended - it.began for it in proved) / sum(weights[it.name] for it in proved)


def seconds_left(crates: Crates, left: Iterable[str], running: Mapping[str, float], lengths: Mapping[str, float],
                 behind: Mapping[str, int], processors: int) -> float:
    """How long it takes until all crates are proved, one a processor, each after its libraries, those first that most work waits for.
    `running` has for each crate that runs the seconds that it has taken, `lengths` the seconds that each takes in all."""
    ends = [(max(lengths[name] - spent, 0.0), name) for name, spent in running.items()]
    heapq.heapify(ends)
    waiting, now = set(left), 0.0
    open_ = {*waiting, *running}
    while waiting or ends:
        ready = [name for name in waiting if not open_.intersection(crates.libraries(name))]
        for name in sorted(ready, key=behind.__getitem__, reverse=True)[:max(processors - len(ends), 0)]:
            waiting.remove(name)
            heapq.heappush(ends, (now + lengths[name], name))
        now, name = heapq.heappop(ends)
        open_.remove(name)
    return now


def last_library(name: str, ended: Mapping[str, CrateTime], crates: Crates) -> CrateTime | None:
    """The library of a crate that ended last: what the crate waited for."""
    found = sorted((ended[it] for it in crates.libraries(name) if it in ended), key=lambda it: it.ended)
    return found[-1] if found else None


def table(times: Times, crates: Crates) -> str:
    """The crates as they began, each with what it waited for, then the sums, and the chain that the build waited for."""
    ended = {it.name: it for it in times.ended}
    lines = [f"{'crate':24}{'began':>8}{'ended':>8}{'took':>8}{'jobs':>6}{'processor':>11}  waited for"]
    for it in sorted(times.ended, key=lambda it: it.began):
        after = last_library(it.name, ended, crates)
        waited = "kept" if it.was_kept else after.name if after else ""
        lines.append(f"{it.name:24}{it.began:8.0f}{it.ended:8.0f}{it.ended - it.began:8.0f}{it.jobs:6}{it.cost:11.0f}  {waited}".rstrip())
    whole, cost = max(it.ended for it in times.ended), sum(it.cost for it in times.ended)
    chain = [times.ended[-1]]
    while before := last_library(chain[-1].name, ended, crates):
        chain.append(before)
    lines += ["", f"all: {whole:.0f} seconds, {cost:.0f} of a processor ({whole / max(cost, 1):.2f})",
              f"chain: {', '.join(f'{it.name} {it.ended - it.began:.0f}' for it in reversed(chain))}"]
    return "\n".join(lines)
