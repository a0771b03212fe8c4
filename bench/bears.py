#!/usr/bin/env python3
"""Checks on random rings what is said of a ring under sparse faults (docs/PROTOCOL.md, 'What a ring bears'), with the numbers
that tools/ring-bears prints of each ring.

Each seed makes a ring document by the generator of compare.py, without its script, and then three scripts. The first is sparse:
in phase 0 any cycles, in 1 and 2 at most one of any three in a row, in 3 and 4 at most one of any two, up to the last cycle. A
disturbed cycle loses one telegram or several. Some scripts are periodic, as dense as that allows, some are at random, some hit
one kind of telegram alone; some are greedy: each disturbed cycle loses the one telegram that delays the ring most. Of each run:

- nothing falls, no request is broken, and nothing is unseen;
- each drive ends each cycle in the commanded phase, or one below it in the first cycle commanded that phase;
- if the ring comes to phase 4 without faults, it does so under them by the bound of the start-up and the costs: 10 cycles for
  each one of phase 0 whose own MST is lost, 2 for each disturbed one of phases 1 and 2, 1 for each of phase 3; and by the bound
  with the costs of all. If not, it stops as many cycles later as a stop takes. A cycle counts as disturbed where the script has
  a fault, also if that hits no telegram;
- the i-th request of a drive ends within i times the cycles of one, from phase 4 on.

Another script keeps, in phases 1 and 2, one of the limits that ring-bears calls likely, as densely as it allows, and is sparse in 3 and
4: nothing falls under it, and no request is broken.

The last script hits any cycles and stations up to a cycle F, restarts among it, and is sparse, or empty, from then on:

- the ring falls at most once after F;
- it is in phase 4, or at a stop, within the bound of a recovery after F, with the costs since F;
- if nothing is disturbed after F, also within the sharper bound.

Prints each document of which this isn't so, with its seed, and at the end the numbers of what was run and the greatest part of
each bound that was taken. Ends with 0 if all is so of each.
"""
from __future__ import annotations

import collections
import pathlib
import random
import re
import subprocess
import sys
import tomllib
from collections.abc import Iterator
from typing import Any

from random_rings import Rings, table
from seeds import Judgement, judge_seeds, parser_of

TOP = pathlib.Path(__file__).resolve().parent.parent
PROGRAM = TOP / "crates/sercos/out/sercos"
SECONDS = 120
MOST_FAULTS = 4096
Fault = dict[str, Any]


class PlainRings(Rings):
    """Rings with requests and no script."""

    def script(self) -> None:
        pass


class Promised:
    """The numbers that tools/ring-bears prints of a ring."""

    def __init__(self, program: str, text: str) -> None:
        told = subprocess.run([TOP / "tools/ring-bears", "--program", program], input=text.encode(), check=True, stdout=subprocess.PIPE,
                              timeout=SECONDS).stdout.decode()

        def numbers(pattern: str) -> list[int]:
            found = re.search(pattern, told)
            if found is None:
                raise ValueError(f"ring-bears doesn't print {pattern!r}: {told}")
            return [int(number) for number in found.groups()]

        self.start, stop = numbers(r"start +phase 4 by cycle (\d+), or a stop by cycle (\d+), if nothing")
        self.stop = stop - self.start
        [self.recovery] = numbers(r"back +phase 4, or at a stop, (\d+) cycles after")
        [self.back] = numbers(r"back +phase 4 (\d+) cycles after")
        [self.all_costs] = numbers(r"costs +of all in phases 1 to 3 together: (\d+) cycles")
        self.requests = {int(drive): int(cycles) for drives, cycles in
                         re.findall(r"request +to drives? ([\d, ]+): the i-th ends within i \* (\d+) cycles", told) for drive in drives.split(",")}
        self.comes_up = re.search(r"started +phase 4 in cycle", told) is not None
        self.calm_of, self.disturbed, self.in_a_row = numbers(r"two calm in a row of any (\d+) or at most (\d+) disturbed of any 64; with (\d+) ATs")


class Run:
    """What a run of a document writes: the words of each line, and the phase that is commanded in each cycle."""

    def __init__(self, program: str, text: str) -> None:
        run = subprocess.run([program, "run"], input=text.encode(), stdout=subprocess.PIPE, stderr=subprocess.DEVNULL, timeout=SECONDS)
        self.lines = [line.split() for line in run.stdout.decode().splitlines()]
        self.phases = [int(words[-1][2:], 16) for words in self.lines if words[0] == "m"]

    def of(self, word: str) -> Iterator[list[str]]:
        return (words for words in self.lines if words[0] == word)

    def ends_clear(self) -> bool:
        return bool(self.lines) and self.lines[-1][-2:] == ["unseen", "0"]

    def back(self) -> int:
        """The first cycle from which on phase 4 is commanded in each, or the master stands at a stop."""
        stops = {int(words[1]) for words in self.of("stop")}
        falls = {int(words[1]) for words in self.of("fall")}
        stands, back = False, 0
        for cycle, phase in enumerate(self.phases):
            stands = (stands or cycle in stops) and cycle not in falls
            if not stands and phase != 4 or cycle in falls:
                back = cycle + 1
        return back


class Script:
    """A script for a ring."""

    def __init__(self, seed: int, drives: list[int]) -> None:
        self.random = random.Random(seed)
        self.drives = drives
        self.density = self.random.choice([1.0, 1.0, 0.5, 0.1])
        self.kinds = self.random.choice([["mst"], ["own"], ["at"], ["mdt"], ["mst", "own", "at", "mdt"], ["mst", "own", "at", "mdt"]])
        self.faults: list[Fault] = []
        self.last = -10

    def lost(self, kind: str, cycle: int, station: int) -> Fault:
        """The loss of a telegram of this kind: of the drive at this place, the last one that is to receive it, or the master."""
        fault: Fault = {"kind": "lose", "cycle": cycle, "telegram": "mst" if kind == "own" else kind}
        link = len(self.drives) if kind == "own" else station
        if kind == "at":
            fault["from"] = self.drives[station]
            link = len(self.drives)
        return {**fault, "link": link}

    def loss(self, cycle: int) -> Fault:
        kind = self.random.choice(self.kinds)
        fault = self.lost(kind, cycle, self.random.randrange(len(self.drives)))
        if kind == "at":
            fault["link"] = self.random.randint(self.drives.index(fault["from"]) + 1, len(self.drives))
        elif kind != "own":
            fault["link"] = self.random.randint(0, len(self.drives))
        return fault

    def disturb(self, cycle: int, apart: int) -> None:
        """Disturbs a cycle, or not, if the last that may be disturbed is far enough."""
        if cycle - self.last >= apart and self.random.random() < self.density:
            self.faults.extend(self.loss(cycle) for _ in range(self.random.choice([1, 1, 1, 2, 4])))
            self.last = cycle

    def disturb_zero(self, cycles: int) -> None:
        """A few cycles of phase 0, which is left after ten whole MSTs in a row."""
        for cycle in range(cycles):
            if self.random.random() < 0.1:
                self.faults.append(self.loss(cycle))
                self.last = cycle

    def break_up(self, first: int, last: int) -> None:
        """Cycles in which any telegrams are lost, and stations restart; something does in the last of them."""
        density = self.random.choice([1.0, 0.7, 0.3])
        for cycle in range(first, last + 1):
            if cycle == last or self.random.random() < density:
                self.faults.extend(self.loss(cycle) for _ in range(self.random.choice([1, 1, 2, 4])))
                if self.random.random() < 0.1:
                    self.faults.append({"kind": "restart", "cycle": cycle, "station": self.random.choice([0, *self.drives])})
        self.last = last

    def text(self) -> str:
        return "".join(table("fault", fault) for fault in self.faults)


def sparse_script(program: str, plain: str, script: Script, cycles: int) -> None:
    """Makes a script whose disturbed cycles are sparse in the run under it: each part is made once the phases before it are known."""
    if script.random.random() < 0.3:
        script.disturb_zero(script.random.randint(1, 25))
    for part, apart in ((1, 3), (3, 2)):
        first = next((cycle for cycle, phase in enumerate(Run(program, plain + script.text()).phases) if phase >= part), None)
        if first is None:
            break
        # what was made for the phases before ends with them
        script.faults = [fault for fault in script.faults if fault["cycle"] < first]
        script.last = max((fault["cycle"] for fault in script.faults), default=-10)
        for cycle in range(first, cycles):
            script.disturb(cycle, apart)
    script.faults = script.faults[:MOST_FAULTS]


def sparse_since(program: str, longer: str, script: Script, last: int, cycles: int) -> None:
    """Makes a script go on with sparse faults after its last cycle: periodic ones, as dense as that allows, or random ones."""
    script.density = script.random.choice([1.0, 1.0, 0.5, 0.1, 0.02])
    before = list(script.faults)
    for cycle in range(last + 1, cycles):
        script.disturb(cycle, 3)
    # where phase 3 or 4 is commanded from then on, every second cycle may be disturbed
    phases = Run(program, longer + script.text()).phases
    late = max((cycle + 1 for cycle, phase in enumerate(phases) if phase < 3), default=0)
    if last < late < len(phases):
        script.faults = before + [fault for fault in script.faults[len(before):] if fault["cycle"] < late]
        script.last = max(fault["cycle"] for fault in script.faults)
        for cycle in range(late, cycles):
            script.disturb(cycle, 2)


def likely_pattern(script: Script, promised: Promised) -> tuple[str, list[str], list[int]]:
    """One of the limits that are likely: its name, the kinds of telegrams that are lost, and which cycles of a row of them are disturbed."""
    row = 40 * promised.calm_of
    limit = script.random.choice(["two calm in a row", "some of any 64", "lost in a row"])
    if limit == "two calm in a row":
        # the disturbed ones alternate with calm ones, of which two in a row begin in each row of as many cycles less one
        period = (promised.calm_of - 2) // 2 * 2 + 1
        return limit, ["mst", "own", "at", "mdt"], [cycle for cycle in range(row) if cycle % period % 2 == 0 and cycle % period != period - 1]
    if limit == "some of any 64":
        return limit, ["mst", "own", "at", "mdt"], [cycle for cycle in range(row) if cycle % 64 % 2 == 0 and cycle % 64 < 2 * promised.disturbed]
    return limit, [script.random.choice(["at", "mdt"])], list(range(promised.in_a_row))


def likely_script(program: str, plain: str, script: Script, promised: Promised, cycles: int) -> str:
    """Makes a script that keeps a limit which is likely in phases 1 and 2, and is sparse in 3 and 4; and gives its name."""
    limit, kinds, disturbed = likely_pattern(script, promised)
    script.kinds = kinds
    phases = Run(program, plain).phases
    first = next((cycle for cycle, phase in enumerate(phases) if phase >= 1), cycles) + script.random.randint(0, 2 * len(script.drives) + 200)
    script.faults = [script.loss(first + cycle) for cycle in disturbed if first + cycle < cycles]
    late = next((cycle for cycle, phase in enumerate(Run(program, plain + script.text()).phases) if phase >= 3), cycles)
    # those of one telegram in a row are no limit where one of them is of phase 3, or right before it
    script.faults = [fault for fault in script.faults if fault["cycle"] < late - 1]
    script.last, script.kinds = late - 2, ["mst", "own", "at", "mdt"]
    for cycle in range(late + 1, cycles):
        script.disturb(cycle, 2)
    script.faults = script.faults[:MOST_FAULTS]
    return limit


def greedy_script(program: str, plain: str, script: Script, cycles: int) -> None:
    """Makes a sparse script in which each disturbed cycle loses the one telegram that keeps the ring longest from phase 4."""
    cycle = next((cycle for cycle, phase in enumerate(Run(program, plain).phases) if phase >= 1), cycles)
    tried = [(kind, place) for kind in ("mst", "at", "mdt") for place in range(len(script.drives))]
    while cycle < cycles:
        runs = []
        for kind, place in tried:
            fault = script.lost(kind, cycle, place)
            phases = Run(program, plain + script.text() + table("fault", fault)).phases
            runs.append((phases.index(4) if 4 in phases else len(phases), phases[cycle], fault))
        latest = max(runs, key=lambda run: run[0])
        if latest[1] == 4 or latest[0] == min(run[0] for run in runs) and latest[0] == cycles:
            break
        script.faults.append(latest[2])
        cycle += 2 if latest[1] == 3 else 3


def costs_of(phases: list[int], script: Script, since: int = 0) -> list[int]:
    """For each cycle, what the disturbed ones from the first on cost a start-up until then."""
    hit = {fault["cycle"] for fault in script.faults}
    own = {fault["cycle"] for fault in script.faults if fault.get("telegram") == "mst"}
    costs, sums = 0, []
    for cycle, phase in enumerate(phases):
        sums.append(costs)
        if cycle >= since and cycle in hit:
            costs += [10 * (cycle in own), 2, 2, 1, 0][phase]
    return sums


def wrong_stands(run: Run, drives: list[int]) -> Iterator[str]:
    """A cycle in which a drive isn't in the commanded phase, nor just below it."""
    stands = dict.fromkeys(drives, 0)
    moves = collections.defaultdict(list)
    for words in run.of("p"):
        moves[int(words[1])].append((int(words[2]), int(words[3])))
    for cycle, phase in enumerate(run.phases):
        stands.update(moves[cycle])
        is_first = cycle > 0 and run.phases[cycle - 1] < phase
        for drive, stood in stands.items():
            if stood != phase and not (is_first and stood == phase - 1):
                yield f"drive {drive} is in {stood} in cycle {cycle}, which is commanded {phase}"


class Judged:
    """What is wrong of a ring, and the greatest part of each bound that was taken."""

    def __init__(self, seed: int) -> None:
        self.seed = seed
        self.wrong: list[str] = []
        self.occurred: set[str] = set()
        self.parts: dict[str, float] = {}
        self.texts: list[str] = []

    def within(self, what: str, cycle: int, bound: int) -> None:
        if cycle > bound:
            self.wrong.append(f"{what}: {cycle}, bound {bound}")
        self.parts[what] = max(self.parts.get(what, 0.0), cycle / max(bound, 1))

    def judge_sparse(self, run: Run, script: Script, promised: Promised, document: dict[str, Any]) -> None:
        self.wrong += [" ".join(words) for words in run.lines if words[0] == "fall" or words[-1] == "broken"]
        self.wrong += [f"the run ends with {run.lines[-1:]}"] * (not run.ends_clear())
        self.wrong += list(wrong_stands(run, [drive["address"] for drive in document["drive"]]))[:1]
        if not run.phases:
            return
        costs, ends = costs_of(run.phases, script), run.back()
        zeros = costs_of([0 if phase == 0 else 4 for phase in run.phases], script)
        if promised.comes_up and 4 in run.phases:
            up = run.phases.index(4)
            self.within("phase 4, with the cost of each", up, promised.start + costs[up])
            self.within("phase 4, with the costs of all", up, promised.start + promised.all_costs + zeros[up])
            self.judge_requests(run, up, promised, document)
        elif promised.comes_up:
            self.wrong += ["phase 4 isn't commanded"] * (len(run.phases) > promised.start + costs[-1])
        elif ends < len(run.phases):
            self.within("a stop, with the cost of each", ends, promised.start + promised.stop + costs[ends])
            self.within("a stop, with the costs of all", ends, promised.start + promised.stop + promised.all_costs + zeros[ends])
        else:
            self.wrong += ["the ring doesn't stop"] * (len(run.phases) > promised.start + promised.stop + costs[-1])

    def judge_requests(self, run: Run, up: int, promised: Promised, document: dict[str, Any]) -> None:
        reported = {int(words[2]): int(words[1]) for words in run.of("r")}
        places: collections.Counter[int] = collections.Counter()
        for number, request in enumerate(document.get("request", []), 1):
            drive = request["drive"]
            places[drive] += 1
            latest = up + places[drive] * promised.requests[drive]
            if number in reported:
                self.within("a request", reported[number] - up, latest - up)
            elif latest < len(run.phases):
                self.wrong.append(f"request {number} isn't reported by cycle {latest}")

    def judge_likely(self, run: Run) -> None:
        """What is right under a script that keeps a limit which is likely."""
        self.wrong += [" ".join(words) for words in run.lines if words[0] == "fall" or words[-1] == "broken"]
        self.wrong += [f"the run ends with {run.lines[-1:]}"] * (not run.ends_clear())

    def judge_return(self, run: Run, script: Script, promised: Promised, last: int) -> None:
        """What is right after the last cycle that isn't sparse."""
        self.wrong += [f"the run ends with {run.lines[-1:]}"] * (not run.ends_clear())
        falls = [int(words[1]) for words in run.of("fall") if int(words[1]) > last]
        self.wrong += [f"{len(falls)} falls after cycle {last}"] * (len(falls) > 1)
        costs, back = costs_of(run.phases, script, last + 1), run.back()
        bound = last + promised.recovery
        is_calm = script.faults[-1]["cycle"] <= last
        if back < len(run.phases):
            self.within("a return", back - last, bound + costs[back] - last)
            if is_calm:
                sharp = promised.back + promised.stop * (not promised.comes_up)
                self.within("a return, by the sharper bound", back - last, sharp)
        else:
            self.wrong += [f"the ring isn't back by cycle {bound + costs[-1]}"] * (len(run.phases) > bound + costs[-1])
        self.occurred.add(f"{len(falls)} falls after the last cycle that isn't sparse" + ", calm since" * is_calm)


def checked(program: str, seed: int) -> Judged:
    """What is wrong of the ring of a seed."""
    judged = Judged(seed)
    plain = PlainRings(seed).document()
    document = tomllib.loads(plain)
    if not Run(program, plain).phases:
        judged.wrong.append("run refuses the document")
        return judged
    promised = Promised(program, plain)
    cycles = document["ring"]["cycles"]
    order = document["ring"].get("order", [drive["address"] for drive in document["drive"]])
    script = Script(seed, order)
    is_greedy = seed % 10 == 0 and len(order) <= 2 and promised.start <= 900
    (greedy_script if is_greedy else sparse_script)(program, plain, script, cycles)
    judged.texts.append(plain + script.text())
    run = Run(program, judged.texts[0])
    judged.judge_sparse(run, script, promised, document)
    kind = "greedy" if is_greedy else "/".join(script.kinds) + (" periodic" if script.density == 1 else "")
    judged.occurred.add(f"phase {max(run.phases, default=0)} with {kind}")
    likely, before = Script(seed + 2, order), len(judged.wrong)
    limit = likely_script(program, plain, likely, promised, cycles)
    judged.judge_likely(Run(program, plain + likely.text()))
    if len(judged.wrong) > before:
        judged.texts.append(plain + likely.text())
    judged.occurred.add(f"likely, {limit}")
    if promised.recovery <= 3000:
        broken, last = Script(seed + 1, order), random.Random(seed).randint(1, promised.start + 50)
        broken.break_up(random.Random(seed + 1).randint(max(last - 60, 0), last), last)
        length = last + promised.recovery + promised.stop + 100
        longer = re.sub(r"(?m)^cycles = \d+", f"cycles = {length}", plain, count=1)
        if seed % 2:
            sparse_since(program, longer, broken, last, length)
        broken.faults = broken.faults[:MOST_FAULTS]
        judged.texts.append(longer + broken.text())
        before = len(judged.wrong)
        judged.judge_return(Run(program, judged.texts[1]), broken, promised, last)
        judged.texts = judged.texts if len(judged.wrong) > before else judged.texts[:1]
    return judged


def main() -> int:
    words = parser_of(__doc__, program=str(PROGRAM)).parse_args()
    parts: dict[str, float] = {}

    def judge(seed: int) -> Judgement:
        judged = checked(words.program, seed)
        for what, part in judged.parts.items():
            parts[what] = max(parts.get(what, 0.0), part)
        return judged.wrong[:4] + judged.texts * bool(judged.wrong), judged.occurred
    return judge_seeds(words, judge, lambda: [f"{part:6.2f} of its bound, at most, took {what}" for what, part in sorted(parts.items())])


if __name__ == "__main__":
    sys.exit(main())
