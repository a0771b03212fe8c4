"""What an engineer asks of a ring first: what limits its cycle, what is free in one, and which drive holds up the start-up; from answers of
`plan` and `margin` alone."""
from __future__ import annotations

import copy
from collections.abc import Callable
from typing import Any

from .chain_words import KEYS
from .frame_lengths import most_bits
from .trace_lines import Line, name_of, read_answer

# The answer of a command to a document: its status and its lines.
Ask = Callable[[str, "dict[str, Any]"], "tuple[int, list[str]]"]
SHORTEST, STEP = 125, 250


def in_cycle(document: dict[str, Any], cycle: int) -> dict[str, Any]:
    """The same ring with another cycle time, which is also that of the control unit."""
    changed = copy.deepcopy(document)
    changed["ring"].pop("control", None)
    changed["ring"]["cycle"] = cycle
    return changed


def drive_of(document: dict[str, Any], address: int) -> dict[str, Any]:
    found: dict[str, Any] = next(table for table in document["drive"] if table["address"] == address)
    return found


def parts_of(document: dict[str, Any], chain: list[Line]) -> dict[str, list[int]]:
    """The times of a chain, from its end on: of each key the drives of its links, an entry for each link; 0 is the ring."""
    parts: dict[str, list[int]] = {}
    for link in reversed(chain):
        key = "gap" if link.rule == 9 and link.address == 0 else KEYS.get(link.rule, "")
        if key:
            parts.setdefault(key, []).append(0 if key == "gap" else link.address)
    return parts


def shorter(document: dict[str, Any], key: str, addresses: set[int], by: int) -> dict[str, Any] | None:
    """The ring with these times shorter, if they can be."""
    changed = copy.deepcopy(document)
    for address in addresses:
        table = drive_of(changed, address) if address else changed["ring"]
        table[key] = table.get(key, 5) - by
        if table[key] < 0:
            return None
    return changed


def in_turns(document: dict[str, Any]) -> list[int]:
    """The addresses in an order in which drives of one slave are apart."""
    slaves: dict[int, list[int]] = {}
    for table in document["drive"]:
        slaves.setdefault(table.get("slave", table["address"]), []).append(table["address"])
    most = max(map(len, slaves.values()))
    return [drives[place] for place in range(most) for drives in slaves.values() if place < len(drives)]


def what_fits(document: dict[str, Any], chain: list[Line], excess: int, ask: Ask) -> str:
    """A change that makes a plan fit: one time, a time of several drives, or another order; else the parts of the chain."""
    rate, parts = document["ring"]["rate"], parts_of(document, chain)
    for key, addresses in parts.items():
        for address in dict.fromkeys(addresses):
            changed = shorter(document, key, {address}, -(-excess // (addresses.count(address) * rate)))
            if changed and ask("plan", changed)[0] == 0:
                now, then = ((drive_of(it, address) if address else it["ring"]).get(key, 5) for it in (document, changed))
                return f"{key}{f' of drive {address}' if address else ''} {then} in place of {now} fits"
    for key, addresses in parts.items():
        by = -(-excess // (len(addresses) * rate))
        changed = shorter(document, key, set(addresses), by) if len(set(addresses)) > 1 else None
        if changed and ask("plan", changed)[0] == 0:
            return f"{key} {by} less in each of the drives {', '.join(map(str, sorted(set(addresses))))} fits"
    if "tatat" in parts:
        changed = copy.deepcopy(document)
        changed["ring"]["order"] = in_turns(document)
        if ask("plan", changed)[0] == 0:
            return f"order = {changed['ring']['order']} fits"
    return f"shorten {', '.join(parts)}, and at and mdt, together"


def lacking(document: dict[str, Any], lines: list[str], ask: Ask) -> str:
    """By how much no plan fits, and what would."""
    chain = [line for line in read_answer("\n".join(lines)) if name_of(line) != "NoPlan"]
    last = chain[-1]
    excess, rate = last.sum - last.bound, document["ring"]["rate"]
    return f"{document['ring']['cycle']} us are {excess / rate:g} us too short: {what_fits(document, chain, excess, ask)}"


def limits_told(document: dict[str, Any], ask: Ask) -> str:
    """What limits the cycle."""
    status, lines = ask("margin", document)
    shortest = lines[0].split(" ")[1]
    if status:
        return (f"no plan fits{' in any cycle' if shortest == 'none' else f'; the shortest cycle is {shortest} us'}; "
                f"{lacking(document, lines[1:], ask)}")
    if int(shortest) == SHORTEST:
        return f"the cycle can be {SHORTEST} us, the shortest that there is"
    below = in_cycle(document, int(shortest) - STEP if int(shortest) > STEP else SHORTEST)
    return f"the shortest cycle is {shortest} us; {lacking(below, ask('plan', below)[1], ask)}"


def free_told(document: dict[str, Any], ask: Ask) -> str:
    """What is free in a cycle."""
    status, lines = ask("plan", document)
    if status:
        return "nothing: no plan fits"
    plan = read_answer("\n".join(lines))[0]
    ring = document["ring"]
    kept = max(ring.get("gap", 5), *(table["tmtsy"] for table in document["drive"]))
    end = plan.t2 + most_bits(1 + plan.mdt) / ring["rate"]
    free = ring["cycle"] - most_bits(2) / ring["rate"] - end - kept
    return f"{free:g} of {ring['cycle']} us, beside the {kept} after the MDT"


def holds_up_told(parts: dict[int, int], busy: dict[int, int], whole: int) -> str:
    """Which drive holds up the start-up: the parts of the drives of its bound."""
    slowest = max(parts, key=lambda address: parts[address])
    if len(set(parts.values())) == 1:
        return f"{'each' if len(parts) > 1 else 'the'} drive has {parts[slowest]} of at most {whole} cycles"
    others = max(cycles for address, cycles in parts.items() if address != slowest)
    return f"drive {slowest} has {parts[slowest]} of at most {whole} cycles (busy {busy[slowest]}), the others up to {others}"
