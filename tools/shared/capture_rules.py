"""The nine rules of a capture, for every line and not the first alone, with by how much each is broken; and a telegram's place in the plan.

docs/FORMATS.md, section 'Captures', has the rules. `check` of the program reports the first line that breaks one: what is first here is
compared with it by `.ci/tools.d/capture-report`.
"""
from __future__ import annotations

from collections.abc import Iterator
from typing import NamedTuple

from .allowed import RULES
from .frame_lengths import frame_bits, most_bits
from .trace_lines import TRACE_KINDS, BadInput, Head, Line, Lines, Trace, address_of, name_of, read_line

EARLY_AT, EARLY_MDT = 300, 650
NAMES = {"Mst": "MST", "At": "AT", "Mdt": "MDT"}


class Finding(NamedTuple):
    """A rule that a telegram breaks. `bits` is by how much, in bit times, where that is a time."""

    line: int
    cycle: int
    telegram: str
    drive: int
    rule: int
    bits: int | None
    words: str


class Telegram(NamedTuple):
    """A telegram of a capture: the number of its line, its name, the phase of the newest MST, and the line."""

    number: int
    name: str
    phase: int
    line: Line
    findings: list[Finding]

    @property
    def drive(self) -> int:
        return address_of(self.line) if self.name == "AT" else 0


def count_bytes(content: str) -> int:
    return 0 if content == "-" else len(content) // 2


class Judge:
    """Judges telegrams one after the other. What broke a rule is judged by, too, like any other."""

    def __init__(self, head: Head) -> None:
        self.ring = head.ring
        self.rate: int = head.ring.rate
        self.drives: dict[int, Line] = {drive.address: drive for drive in head.drives}
        self.records: int = sum(drive.record_length for drive in head.drives)
        self.mst: Line | None = None
        self.phase = 0
        # The telegrams from the newest MST on.
        self.cycle: list[tuple[str, Line]] = []

    def us(self, bits: int) -> str:
        return f"{bits / self.rate:g} us"

    def judged(self, number: int, line: Line) -> Telegram:
        name = NAMES[name_of(line)]
        drive = address_of(line) if name == "AT" else 0
        findings = [Finding(number, line.cycle, name, drive, *found) for found in self.broken(name, line)]
        if name == "MST":
            self.mst, self.cycle = line, []
            self.phase = int(line.content[2:4], 16) if count_bytes(line.content) > 1 else 0
        self.cycle.append((name, line))
        return Telegram(number, name, self.phase, line, findings)

    def broken(self, name: str, line: Line) -> Iterator[tuple[int, int | None, str]]:
        """The rules that a telegram breaks: each with by how much, and in words."""
        yield from self.order(name, line)
        yield from self.frame(line)
        has_layout = True
        for found in self.layout(name, line):
            has_layout = False
            yield found
        if not has_layout:
            return
        if name == "MST":
            yield from self.command(line)
        yield from self.start(name, line)
        if name != "MST" and self.phase >= 3:
            yield from self.gap(name, line)
            yield from self.recovery(name, line)
            if name == "MDT":
                yield from self.transition(line)
                yield from self.end(line)

    def order(self, name: str, line: Line) -> Iterator[tuple[int, int | None, str]]:
        if name == "MST":
            if self.mst and line.cycle != self.mst.cycle + 1:
                yield 1, None, f"the MST before is of cycle {self.mst.cycle}, so this one must be of {self.mst.cycle + 1}"
            return
        if not self.mst:
            yield 1, None, f"an {name} before the first MST"
            return
        if line.cycle != self.mst.cycle:
            yield 1, None, f"it is after the MST of cycle {self.mst.cycle}"
            return
        last_name, last = self.cycle[-1]
        if line.start < last.start:
            early = last.start - line.start
            yield 1, early, f"it starts {self.us(early)} before the start of the {last_name} of the line before"
        elif any(other == "MDT" for other, _ in self.cycle):
            yield 1, None, f"an {name} after the MDT of this cycle"
        elif name == "AT" and count_bytes(line.content) and \
                any(other == "AT" and count_bytes(it.content) and address_of(it) == address_of(line) for other, it in self.cycle):
            yield 1, None, f"a second AT with the address {address_of(line)} in this cycle"

    def frame(self, line: Line) -> Iterator[tuple[int, int | None, str]]:
        count = count_bytes(line.content)
        if not 1 <= count <= 2048:
            yield 2, None, f"the content has {count} bytes, not 1 to 2048"
            return
        bits = frame_bits(bytes.fromhex(line.content))
        if line.bits != bits:
            yield 2, abs(line.bits - bits), f"the frame of this content has {bits} bits with flags and inserted zeros, not {line.bits}"

    def layout(self, name: str, line: Line) -> Iterator[tuple[int, int | None, str]]:
        count, address = count_bytes(line.content), address_of(line)
        if name == "MST":
            if count != 2 or address != 255 or int(line.content[2:4], 16) > 4:
                yield 3, None, "an MST has the content ff00 to ff04"
            return
        if self.phase == 0:
            yield 3, None, f"in phase 0 there is no {name}"
            return
        whole = 5 if self.phase < 3 else 1 + self.records if name == "MDT" else 1 + self.drives[address].at_length if address in self.drives else 5
        if name == "MDT" and self.phase >= 3:
            if address != 255:
                yield 3, None, f"in phase {self.phase} an MDT has the address 255, not {address}"
        elif address not in self.drives:
            yield 3, None, f"the head has no drive with the address {address}"
            return
        if count != whole:
            yield 3, None, f"in phase {self.phase} this {name} has {whole} bytes, not {count}"

    def command(self, line: Line) -> Iterator[tuple[int, int | None, str]]:
        phase = int(line.content[2:4], 16)
        allowed = sorted({0, self.phase, min(self.phase + 1, 4)})
        if self.mst and phase not in allowed:
            yield 4, None, f"after phase {self.phase} an MST commands {', '.join(map(str, allowed[:-1]))} or {allowed[-1]}, not {phase}"

    def start(self, name: str, line: Line) -> Iterator[tuple[int, int | None, str]]:
        if name == "MST":
            if line.start != -line.bits:
                yield 5, abs(line.start + line.bits), f"an MST ends at 0, so it starts at {-line.bits}, not {line.start}"
        elif self.phase < 3:
            time = EARLY_AT if name == "AT" else EARLY_MDT
            if line.start != time * self.rate:
                yield 5, abs(line.start - time * self.rate), \
                    f"in phases 1 and 2 of this profile an {name} starts at {time} us, not {self.us(line.start)}"
        elif name == "AT":
            time = self.drives[address_of(line)].t1min
            if line.start < time * self.rate:
                yield 5, time * self.rate - line.start, f"it starts at {self.us(line.start)}, before the T1min of {time} us of its drive"

    def gap(self, name: str, line: Line) -> Iterator[tuple[int, int | None, str]]:
        if not self.cycle:
            return
        last_name, last = self.cycle[-1]
        is_same = name == last_name == "AT" and self.slave(last) == self.slave(line)
        gap, end = 0 if is_same else self.ring.gap, last.start + last.bits
        early = end + gap * self.rate - line.start
        if early > 0:
            before = f"the AT of drive {address_of(last)}" if last_name == "AT" else f"the {last_name}"
            wanted = "it may start then, as it is of the same slave" if is_same else f"the gap is {gap} us"
            yield 6, early, f"it starts at {self.us(line.start)}; {before} before it ends at {self.us(end)}, and {wanted}"

    def slave(self, line: Line) -> int:
        drive = self.drives.get(address_of(line))
        return int(drive.slave) if drive else 0

    def recovery(self, name: str, line: Line) -> Iterator[tuple[int, int | None, str]]:
        if name != "AT":
            return
        for other, before in reversed(self.cycle):
            if other == "AT" and self.slave(before) == self.slave(line):
                tatat, end = self.drives[address_of(line)].tatat, before.start + before.bits
                early = end + tatat * self.rate - line.start
                if early > 0:
                    yield 7, early, (f"it starts at {self.us(line.start)}; the AT of drive {address_of(before)} of its slave ends at "
                                     f"{self.us(end)}, and its TATAT is {tatat} us")
                return

    def transition(self, line: Line) -> Iterator[tuple[int, int | None, str]]:
        worst, words = 0, ""
        for name, before in self.cycle:
            if name != "AT" or address_of(before) not in self.drives:
                continue
            tatmt, end = self.drives[address_of(before)].tatmt, before.start + before.bits
            early = end + tatmt * self.rate - line.start
            if early > worst:
                worst, words = early, (f"it starts at {self.us(line.start)}; the AT of drive {address_of(before)} ends at {self.us(end)}, "
                                       f"and its TATMT is {tatmt} us")
        if worst:
            yield 8, worst, words

    def end(self, line: Line) -> Iterator[tuple[int, int | None, str]]:
        tmtsy = max(drive.tmtsy for drive in self.drives.values())
        room, end = max(self.ring.gap, tmtsy), line.start + line.bits
        bound = self.rate * self.ring.cycle_time - most_bits(2)
        late = end + room * self.rate - bound
        if late > 0:
            what = "the largest TMTSY" if tmtsy > self.ring.gap else "the gap"
            yield 9, late, f"it ends at {self.us(end)}; with {what} of {room} us the next MST, which may begin at {self.us(bound)}, is too early"


def finding_words(finding: Finding, rate: int) -> str:
    """What a finding says, without its line: the cycle, the telegram, by how much, and why."""
    rule = RULES[finding.rule]
    telegram = f"the AT of drive {finding.drive}" if finding.telegram == "AT" else f"the {finding.telegram}"
    text = f"cycle {finding.cycle}, {telegram}: rule {finding.rule} {rule.name}, {rule.means}"
    if finding.bits is not None and finding.rule != 2:
        text += f", by {finding.bits / rate:g} us ({finding.bits} bit time{'s' * (finding.bits != 1)})"
    return f"{text}; {finding.words}"


class Judged:
    """A capture that is read and judged line by line."""

    def __init__(self, stream: Lines) -> None:
        self.trace = Trace(stream)
        self.head = self.trace.head
        self.has_end = False

    def telegrams(self) -> Iterator[Telegram]:
        judge = Judge(self.head)
        for line in self.trace.lines():
            if name_of(line) in NAMES:
                yield judge.judged(self.trace.number, line)
            self.has_end = self.has_end or name_of(line) == "End"


def is_line(text: str) -> bool:
    """Whether a line is one of a trace."""
    try:
        read_line(TRACE_KINDS, text, 0)
    except BadInput:
        return False
    return True
