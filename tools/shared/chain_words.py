"""The chain that proves that no plan fits, in microseconds: what begins when, and which line of the document shortens it."""
from __future__ import annotations

import re
from collections.abc import Iterator

from .allowed import LINKS
from .toml_places import Reading
from .trace_lines import Line, name_of

# The key that a link takes its time from: of the ring for 2, 3 and 5, else of its drive.
KEYS = {1: "t1min", 2: "gap", 3: "gap", 4: "tatat", 5: "gap", 6: "tatmt", 7: "tmtsg", 9: "tmtsy", 10: "t4min"}


def drive_path(reading: Reading, address: int) -> str:
    """The path of the drive with an address."""
    for place, _ in enumerate(reading.items("drive")):
        if reading.value(f"drive[{place}].address", "integer") == address:
            return f"drive[{place}]"
    return ""


def with_drive(words: str, address: int) -> str:
    return re.sub(r"\bA\b", f"drive {address}", words)


def key_text(reading: Reading, rule: int, address: int) -> str:
    """The time of a link as the document has it, with its line."""
    key = "gap" if rule == 9 and address == 0 else KEYS.get(rule, "")
    table = "ring" if key == "gap" else drive_path(reading, address)
    node = reading.paths.get(f"{table}.{key}")
    if not key:
        return ""
    if node is None:
        return " (gap = 5 if absent)" if key == "gap" else ""
    return f" ({key} = {node.value}, line {reading.line_column(node.start)[0]})"


def shorter_text(reading: Reading, shortens: str, rule: int, address: int) -> str:
    """What shortens a link, its own time with the line of the document."""
    first, *others = with_drive(shortens, address).split("; ")
    return f"{' ' * 25}shorter by: {'; '.join([first + key_text(reading, rule, address), *others])}"


def chain_text(reading: Reading, lines: list[Line]) -> Iterator[str]:
    """The chain: of each link when it begins, how much later than the one before that is, and what shortens it."""
    rate = reading.number("ring.rate", 0)
    links = [line for line in lines if name_of(line) in ("Link", "LinkMade")]
    last = next((line for line in lines if name_of(line) in ("Last", "LastMade")), None)
    if last is None or rate <= 0:
        return
    excess = last.sum - last.bound
    yield (f"no plan fits in a cycle of {reading.number('ring.cycle', 0)} us: the chain is {excess / rate:g} us ({excess} bit times) too long. "
           "Each of these can't begin earlier, given the one before:")
    before = 0
    for link in links:
        words = LINKS[link.rule]
        yield f"  {link.at / rate:>9.6g} us  +{(link.at - before) / rate:<8.6g} {with_drive(words.begins, link.address)}"
        yield shorter_text(reading, words.shortens, link.rule, link.address)
        before = link.at
    words = LINKS[last.rule]
    begins = words.begins
    if last.rule == 9:
        begins = "after the MDT there is no room for the " + ("gap" if last.address == 0 else f"TMTSY of drive {last.address}") + " before the next MST"
    yield f"  {last.sum / rate:>9.6g} us  of {last.bound / rate:<7.6g} {with_drive(begins, last.address)}"
    shortens = "gap; fewer bytes in the MDT" if last.rule == 9 and last.address == 0 else words.shortens
    yield shorter_text(reading, shortens, last.rule, last.address)
    whole = -(-excess // rate)
    yield f"take {whole} us or more from these together, or a longer cycle: `sercos margin` has the shortest"
