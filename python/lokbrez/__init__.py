"""Lokbrez in a Python program: the verified ends of a SERCOS ring (IEC 61491:1995), in its own process.

    import lokbrez

    document = open("examples/two_drives.toml").read()
    print(lokbrez.plan(document))
    for cycle in lokbrez.run(document):
        ...

Ring documents are TOML texts (docs/FORMATS.md). An object that holds memory of the library is a context manager: Deframer, Drive, Links,
Master, Ring, and what `run` returns. What is refused is an exception below `Error`, whose message says why. Each object may be used by several
threads: its calls are made one after the other.
"""
import pathlib

# In the repository the readers of a trace are those of tools/shared/; in an installed package they are in its folder, which comes first.
__path__.append(str(pathlib.Path(__file__).resolve().parents[2] / "tools" / "shared"))

from .commands import Answer, Chain, Clean, Link, Plan, Slot, Violation, call, check, plan
from .errors import BadFrame, BadTelegram, BadWords, Closed, Error, NoSuchDrive, OutOfMemory, Refused, Status, TooLong
from .frames import Bits, Deframer, fcs, frame, unframe
from .links import Arrival, Arrived, Links
from .rings import Cycle, Ring, Run, run
from .stations import Drive, Master, NoElement, Timed
from .telegrams import (At, Record, at_read, at_write, idn_parse, idn_text, joint_read, mst_read, mst_write, record_write, single_read,
                        single_write)
from .trace_lines import name_of

__version__ = "0.1.0"

__all__ = [
    "Answer", "Arrival", "Arrived", "At", "BadFrame", "BadTelegram", "BadWords", "Bits", "Chain", "Clean", "Closed", "Cycle", "Deframer",
    "Drive", "Error", "Link", "Links", "Master", "NoElement", "NoSuchDrive", "OutOfMemory", "Plan", "Record", "Refused", "Ring", "Run",
    "Slot", "Status", "Timed", "TooLong", "Violation", "at_read", "at_write", "call", "check", "fcs", "frame", "idn_parse", "idn_text",
    "joint_read", "mst_read", "mst_write", "name_of", "plan", "record_write", "run", "single_read", "single_write", "unframe",
]
