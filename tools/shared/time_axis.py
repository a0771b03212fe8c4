"""A time axis in microseconds, which leaves out long times in which nothing is sent."""
from __future__ import annotations

from collections.abc import Iterable, Sequence

from .svg_shapes import Picture, number, text_width

# A time from its begin to its end.
Span = tuple[float, float]

CUT_WIDTH = 30
# A time without a telegram is left out if it would take more than this part of the axis.
MOST_PART = 0.3
TICK_STEPS: list[int] = [step * 10 ** power for power in range(10) for step in (1, 2, 5)]


def cuts_of(marks: Sequence[float], telegrams: Sequence[Span]) -> list[Span]:
    """The times to be left out: the longest between two marks without a telegram, while one takes too large a part."""
    idle = [(begin, end) for begin, end in zip(marks, marks[1:])
            if not any(first < end and last > begin for first, last in telegrams)]
    idle.sort(key=lambda span: span[0] - span[1])
    left = marks[-1] - marks[0]
    cuts = []
    for begin, end in idle:
        if end - begin <= MOST_PART * left:
            break
        cuts.append((begin, end))
        left -= end - begin
    return sorted(cuts)


class TimeAxis:
    """The places of times. Between two cuts the axis is linear, in one scale for all parts. It begins at `left`."""

    def __init__(self, begin: float, end: float, width: float, cuts: Iterable[Span] = ()) -> None:
        self.begin, self.end, self.width, self.cuts = begin, end, width, list(cuts)
        self.left = 0.0
        shown = end - begin - sum(last - first for first, last in self.cuts)
        self.scale = (width - CUT_WIDTH * len(self.cuts)) / shown

    def x(self, time: float) -> float:
        place = self.left + (time - self.begin) * self.scale
        for first, last in self.cuts:
            hidden = min(max(time - first, 0), last - first)
            place += hidden / (last - first) * CUT_WIDTH - hidden * self.scale
        return place

    def ticks(self) -> list[float]:
        """The times with a label, so that no two labels overlap: the ends first, then whole steps."""
        step = next((step for step in TICK_STEPS if step * self.scale >= 55), TICK_STEPS[-1])
        edges = [0, self.end] + [edge for cut in self.cuts for edge in cut]
        steps = [time for time in range(0, int(self.end) + 1, step)
                 if not any(first < time < last for first, last in self.cuts)]
        taken: list[tuple[float, float, float]] = []
        for time in edges + steps:
            half = text_width(number(time), 10) / 2 + 4
            span = self.x(time) - half, self.x(time) + half
            if not any(span[0] < right and span[1] > left for _, left, right in taken):
                taken.append((time, *span))
        return sorted(time for time, _, _ in taken)

    def draw(self, picture: Picture, top: float, bottom: float) -> None:
        """The axis above the rows, with a thin line at each tick down to the last row, and the cuts as grey bands."""
        for first, last in self.cuts:
            picture.box(self.x(first), top, self.x(last) - self.x(first), bottom - top,
                        f"left out: {number(first)} to {number(last)} microseconds, in which nothing is sent",
                        fill="#eeeeee", class_="cut", data_from=first, data_to=last)
        picture.line(self.x(self.begin), top, self.x(self.end), top, stroke="#444444")
        for time in self.ticks():
            x = self.x(time)
            picture.line(x, top - 4, x, bottom, stroke="#d8d8d8", class_="tick", data_microseconds=time)
            picture.text(x, top - 7, number(time), 10, text_anchor="middle")
