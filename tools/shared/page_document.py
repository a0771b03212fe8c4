"""What a ring document adds to a page: the names of its data blocks, the cyclic data, the requests and the faults.

docs/FORMATS.md, section 'Ring documents', has the keys; docs/PROTOCOL.md the attributes and the built-in blocks.
"""
from __future__ import annotations

import pathlib
from typing import Any

from .command_line import toml_of
from .trace_lines import BadInput, Head

TIMES = ("t1min", "tatmt", "t4min", "tatat", "tmtsy", "tmtsg")
# A word of two bytes without a sign, as most built-in blocks are.
WORD = 0x70110001
BUILT_IN = {
    "S-0-0001": "control unit cycle time",
    "S-0-0002": "SERCOS cycle time",
    "S-0-0003": "shortest AT starting time, T1min",
    "S-0-0004": "transmit/receive transition time, TATMT",
    "S-0-0005": "minimum feedback processing time, T4min",
    "S-0-0006": "AT starting time, T1",
    "S-0-0007": "feedback capture point, T4",
    "S-0-0008": "command valid time, T3",
    "S-0-0009": "position of the data record in the MDT",
    "S-0-0010": "length of the MDT",
    "S-0-0015": "telegram type",
    "S-0-0016": "configuration list of the AT",
    "S-0-0021": "invalid operation data for phase 2",
    "S-0-0022": "invalid operation data for phase 3",
    "S-0-0024": "configuration list of the MDT",
    "S-0-0087": "transmit to transmit recovery time, TATAT",
    "S-0-0088": "receive to receive recovery time, TMTSY",
    "S-0-0089": "MDT starting time, T2",
    "S-0-0090": "command processing time, TMTSG",
    "S-0-0127": "phase 3 transition check",
    "S-0-0128": "phase 4 transition check",
}
OTHER_RING = "the document isn't that of the trace's ring: "


class RingDocument:
    """A ring document, as far as a page shows it. It must be that of the trace's ring."""

    def __init__(self, name: str, head: Head) -> None:
        try:
            self.top = toml_of(pathlib.Path(name).read_bytes().decode("utf-8"))
        except ValueError as fault:
            raise BadInput(f"{name} isn't TOML 1.0: {fault}") from fault
        try:
            self.check(head)
            self.drives = {drive["address"]: drive for drive in self.top["drive"]}
            self.requests = [(table["drive"], table["kind"], table["idn"]) for table in self.top.get("request", [])]
            self.blocks = {address: {block["idn"]: block for block in drive.get("block", [])}
                           for address, drive in self.drives.items()}
            self.fields = {str(address): {kind: [self.field(address, idn) for idn in drive.get(kind, [])]
                                          for kind in ("at", "mdt")} for address, drive in self.drives.items()}
            self.names = {idn: str(block["name"]) for blocks in self.blocks.values() for idn, block in blocks.items()
                          if "name" in block}
            self.faults = [fault_of(table) for table in self.top.get("fault", [])]
        except (KeyError, TypeError, AttributeError, ValueError) as fault:
            raise BadInput(f"{name} is no ring document; `sercos plan` names its first fault") from fault

    def check(self, head: Head) -> None:
        ring, drives = self.top["ring"], self.top["drive"]
        for key, wanted in (("rate", head.ring.rate), ("cycle", head.ring.cycle_time)):
            if ring[key] != wanted:
                raise BadInput(f"{OTHER_RING}ring.{key} is {ring[key]} there, and {wanted} in the trace")
        if [drive["address"] for drive in drives] != [drive.address for drive in head.drives]:
            raise BadInput(f"{OTHER_RING}it has other drives")
        for mine, other in zip(drives, head.drives):
            for time in TIMES:
                if mine[time] != getattr(other, time):
                    raise BadInput(f"{OTHER_RING}{time} of drive {other.address} is {mine[time]} there, and "
                                   f"{getattr(other, time)} in the trace")

    def field(self, address: int, idn: str) -> dict[str, str | int]:
        """How a number is carried in a telegram: its bytes, whether it has a sign, its decimal places, its name and unit."""
        block = self.blocks[address].get(idn, {})
        attribute = int(block.get("attribute", WORD))
        return {
            "idn": idn, "name": str(block.get("name", BUILT_IN.get(idn, ""))), "unit": str(block.get("unit", "")),
            "bytes": 4 if attribute >> 16 & 7 == 2 else 2, "signed": int(attribute >> 20 & 7 == 2),
            "hexadecimal": int(attribute >> 20 & 7 in (0, 3)), "decimals": attribute >> 24 & 15,
        }

    def request_drive(self, number: int) -> int:
        return int(self.requests[number - 1][0]) if number <= len(self.requests) else 0

    def request_words(self, number: int) -> str:
        """What a request is, in words."""
        if number > len(self.requests):
            return ""
        drive, kind, idn = self.requests[number - 1]
        return f"{kind} {idn} of drive {drive}"

    def meta(self) -> dict[str, object]:
        declared = {str(address): {key: int(drive.get(key, 0)) for key in ("busy", "command")}
                    for address, drive in self.drives.items()}
        return {"fields": self.fields, "faults": self.faults, "declared": declared}


def fault_of(table: dict[str, Any]) -> list[str | int]:
    """The first cycle of a fault, the last one, how often it acts, and what it does, in words."""
    first, kind = int(table["cycle"]), str(table["kind"])
    telegram = str(table.get("telegram", "")).upper()
    of = f" of drive {table['from']}" if "from" in table else ""
    place = f", on link {table['link']}" if "link" in table else ""
    bit = f", bit {table['bit']}" if "bit" in table else ""
    station = f" station {table['station']}" if "station" in table else ""
    words = {"restart": f"restart of{station}", "deaf": f"deaf{station}, to the {telegram}{of}"}
    return [first, int(table.get("last", first)), int(table.get("every", 1)), words.get(kind, f"{kind} the {telegram}{of}{place}{bit}")]
