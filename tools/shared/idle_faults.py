"""The faults of a document's script that have no effect: on a link that the telegram doesn't take, after the last cycle, past the last
bit. The program takes them and says nothing of them."""
from __future__ import annotations

from collections.abc import Iterator

from .chain_words import drive_path
from .frame_lengths import most_bits
from .refusal_words import named, plural
from .toml_places import Reading


def carried_bytes(reading: Reading, drive: str, key: str) -> int:
    """The bytes that a drive's AT or record has at most: four, and at most four for each entry."""
    return 4 + 4 * len(reading.items(f"{drive}.{key}"))


def longest(reading: Reading, telegram: str, sender: int) -> int:
    """The most bits that a frame of this telegram can have, in any phase."""
    if telegram == "mst":
        return most_bits(2)
    if telegram == "at":
        return most_bits(1 + carried_bytes(reading, drive_path(reading, sender), "at"))
    return most_bits(1 + sum(carried_bytes(reading, f"drive[{place}]", "mdt") for place, _ in enumerate(reading.items("drive"))))


def why_idle(reading: Reading, path: str) -> str:
    """Why a fault has no effect; empty if it may have one."""
    kind, telegram = reading.value(f"{path}.kind", "text"), reading.value(f"{path}.telegram", "text") or ""
    cycle, cycles = reading.number(f"{path}.cycle", 0), reading.number("ring.cycles", 50000)
    drives = len(reading.items("drive"))
    if cycle >= cycles:
        return f"cycle {cycle} is after the last one: the ring runs for {plural(cycles, 'cycle')}, 0 to {cycles - 1}"
    if kind in ("deaf", "restart"):
        return ""
    link, sender = reading.number(f"{path}.link", 0), reading.number(f"{path}.from", 0)
    if telegram == "mdt" and link == drives:
        return f"no station receives an MDT after the last drive; its links are 0 to {drives - 1}"
    if telegram == "at":
        place = next((place for place in range(drives) if reading.value(f"drive[{place}].address", "integer") == sender), 0) + 1
        if link < place:
            return (f"the AT of drive {sender}, which is number {place} of the ring, doesn't take link {link}; "
                    + (f"its links are {place} to {drives}" if place < drives else f"it takes link {drives} alone"))
    bit, most = reading.number(f"{path}.bit", 0), longest(reading, telegram, sender)
    if kind in ("flip", "cut") and bit >= most:
        return f"bit {bit} is past the end: the frame has at most {most} bits, 0 to {most - 1}"
    return ""


def warnings(reading: Reading, before: int = 0) -> Iterator[str]:
    """A line for each fault that has no effect. So many lines of the input are before the document."""
    for place, node in enumerate(reading.items("fault")):
        path = f"fault[{place}]"
        if why := why_idle(reading, path):
            yield f"line {reading.line_column(node.start)[0] + before}: {named(reading, path)} has no effect: {why}"
