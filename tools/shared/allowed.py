"""What a ring document may have, what each link of a chain and each rule of a capture means: the one table of these words.

docs/MESSAGES.md and the words of the page are compared with it by `.ci/tools.d/explain`.
"""
from __future__ import annotations

import re
from typing import NamedTuple

US = "microseconds"


class Allowed(NamedTuple):
    """The values that a path may have: in words, their unit, and the type of TOML."""

    words: str
    unit: str = ""
    kind: str = "integer"

    def text(self) -> str:
        """Values and unit, such as '0 to 300, in microseconds'."""
        if not self.unit:
            return self.words
        return f"{self.words} {self.unit}" if self.unit.startswith("bytes") else f"{self.words}, in {self.unit}"


BLOCK_NUMBER = ("a block of the drive, built-in or own, with a number of two or four bytes: is the block missing, a list, or a procedure "
                "command?")
BOUND = "only for a number of two or four bytes, and one that fits it: is it signed?"
ALLOWED = {
    "ring.rate": Allowed("2, 4, 8 or 16", "Mbit/s"),
    "ring.cycle": Allowed("125, 250 or another multiple of 250 up to 64000", US),
    "ring.control": Allowed("a positive multiple of cycle, up to 64000: was cycle changed alone?", US),
    "ring.gap": Allowed("0 to 1000", US),
    "ring.cycles": Allowed("1 to 50000", "cycles"),
    "ring.order": Allowed("one address for each drive", kind="list"),
    "ring.order[N]": Allowed("the address of a drive"),
    "ring": Allowed("the MDT has at most 2047 bytes: four for each drive, and two or four for each entry of its mdt", kind="table"),
    "drive": Allowed("1 to 64 drives", kind="tables"),
    "request": Allowed("at most 4096 requests", kind="tables"),
    "fault": Allowed("at most 4096 faults", kind="tables"),
    "drive[N].address": Allowed("1 to 254"),
    "drive[N].slave": Allowed("1 to 254"),
    "drive[N].busy": Allowed("0 to 20 cycles"),
    "drive[N].command": Allowed("0 to 200 cycles"),
    "drive[N].t1min": Allowed("0 to 300", US),
    "drive[N].tatmt": Allowed("0 to 300", US),
    "drive[N].tmtsy": Allowed("0 to 250", US),
    "drive[N].t4min": Allowed("0 to 64000", US),
    "drive[N].tatat": Allowed("0 to 64000", US),
    "drive[N].tmtsg": Allowed("0 to 64000", US),
    "drive[N].cycle_min": Allowed("0 to 64000", US),
    "drive[N].cycle_max": Allowed("0 to 64000", US),
    "drive[N].block": Allowed("at most 36 blocks", kind="tables"),
    "drive[N].at": Allowed("at most 16 entries", kind="list"),
    "drive[N].mdt": Allowed("at most 16 entries", kind="list"),
    "drive[N].at[N]": Allowed(BLOCK_NUMBER, kind="text"),
    "drive[N].mdt[N]": Allowed(BLOCK_NUMBER, kind="text"),
    "drive[N].block[N].idn": Allowed('an identifier number such as "S-0-0051"', kind="text"),
    "drive[N].block[N].attribute": Allowed("the word of an attribute: length, display form, bits 23 and 31"),
    "drive[N].block[N].name": Allowed("1 to 60", "bytes of printable ASCII", "text"),
    "drive[N].block[N].unit": Allowed("1 to 12 bytes of printable ASCII", kind="text"),
    "drive[N].block[N].min": Allowed(BOUND),
    "drive[N].block[N].max": Allowed(BOUND),
    "drive[N].block[N].max_len": Allowed("1 to 1024 bytes in whole items, only for a list"),
    "drive[N].block[N].data": Allowed("a number that fits; 0 for a procedure command; for a list two hexadecimal digits a byte, whole items, "
                                      "at most max_len bytes", kind="integer or text"),
    "drive[N].block[N].fixed": Allowed("true or false", kind="boolean"),
    "drive[N].block[N].step": Allowed("above 0 only for a number without min and max"),
    "drive[N].block[N].fails": Allowed("true only for a procedure command", kind="boolean"),
    "request[N].drive": Allowed("a drive of this ring"),
    "request[N].kind": Allowed("read, write or command", kind="text"),
    "request[N].idn": Allowed("an identifier number; for command not one of other data", kind="text"),
    "request[N].element": Allowed("1 to 7 to read, 2 to 7 to write"),
    "request[N].data": Allowed("two hexadecimal digits a byte, at most 1024 bytes", kind="text"),
    "fault[N].kind": Allowed("lose, flip, cut, deaf or restart", kind="text"),
    "fault[N].cycle": Allowed("0 to 49999", "cycles"),
    "fault[N].last": Allowed("cycle to 49999", "cycles"),
    "fault[N].every": Allowed("1 to 50000", "cycles"),
    "fault[N].telegram": Allowed("mst, mdt or at", kind="text"),
    "fault[N].from": Allowed("a drive of this ring"),
    "fault[N].link": Allowed("0 to the number of drives (places, not addresses)"),
    "fault[N].bit": Allowed("0 to 19695", "bits"),
    "fault[N].station": Allowed("a drive, or 0 for the master; only the master is deaf to an AT, only a drive to an MDT"),
}
# Paths that no refusal of range has.
ANY = {"drive[N].block[N].fixed"}


class Link(NamedTuple):
    """A rule of a chain: what begins there, and what shortens it."""

    begins: str
    shortens: str


LINKS = {
    1: Link("the AT of A, at its T1min", "t1min of A; another drive first in order"),
    2: Link("the first AT, a gap after the MST", "gap"),
    3: Link("the AT of A, a gap after one of another slave", "gap; fewer bytes in the AT of the line before (at: up to 9.6 bits a byte)"),
    4: Link("the AT of A, its TATAT after one of its slave", "tatat of A; ATs of other slaves between the two in order"),
    5: Link("the MDT, a gap after the last AT", "gap; fewer bytes in the AT of A"),
    6: Link("the MDT, the TATMT of A after its AT", "tatmt of A; A earlier in order; fewer bytes in its AT"),
    7: Link("T3, the TMTSG of A after the MDT", "tmtsg of A; fewer bytes in the MDT (mdt: up to 9.6 bits a byte)"),
    8: Link("T3 is after the end of the cycle", "what the lines before say"),
    9: Link("after the MDT there is no room for the TMTSY of A, or drive 0: for the gap, before the next MST",
            "tmtsy of A, down to the gap; then gap; fewer bytes in the MDT"),
    10: Link("T4min of A is longer than the cycle", "t4min of A"),
}


class Rule(NamedTuple):
    """A rule of a capture: its name, what is wrong, and what to look at first."""

    name: str
    means: str
    look: str


RULES = {
    1: Rule("order", "out of order", "a missing telegram; an AT after the MDT; two ATs of one address; a START below the line before"),
    2: Rule("frame", "BITS isn't the length of the frame of HEX", "BITS counts flags and inserted zeros"),
    3: Rule("layout", "not a telegram of this phase", "address, length: five bytes in phases 1 and 2, then those of the head"),
    4: Rule("phase", "an MST of another phase than before, the next, or 0", "a missing MST"),
    5: Rule("start", "it can't start at this time",
            "an MST at minus BITS; in phases 1 and 2 an AT at 300 and an MDT at 650 (this profile's); later an AT at its T1min or after"),
    6: Rule("gap", "too early after the telegram before", "GAP of the head"),
    7: Rule("recovery", "an AT too early after one of its slave", "TATAT of its drive"),
    8: Rule("transition", "the MDT too early after an AT", "TATMT of each drive"),
    9: Rule("end", "the MDT ends too late for the next MST", "GAP, the largest TMTSY, CYCLE"),
}

# What each type of TOML is called.
KINDS = {"integer": "a whole number", "text": "a text in quotes", "boolean": "true or false", "list": "a list", "table": "a table",
         "tables": "a list of tables", "integer or text": "a whole number, or a text in quotes"}


def form_of(path: str) -> str:
    """A path with N in place of each number in brackets, as the table has it."""
    return re.sub(r"\[\d+\]", "[N]", path)


def keys_of(table: str) -> list[str]:
    """The keys of a table, in their order: of `ring`, `drive`, `block`, `request`, `fault`, or of the top table for an empty name."""
    if not table:
        return ["ring", "drive", "request", "fault"]
    found = {"block": r"drive\[N\]\.block\[N\]\.(\w+)", "ring": r"ring\.(\w+)"}.get(table, rf"{table}\[N\]\.(\w+)")
    return [name[1] for path in ALLOWED if (name := re.fullmatch(found, path))]
