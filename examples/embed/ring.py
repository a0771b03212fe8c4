"""A master and its drives, coupled without bits: as ring.c, by the package of python/.

At the top of the repository, after tools/library, in a virtual environment (python3 -m venv FOLDER). With a release its wheel is installed,
in place of ./python:

    pip install ./python
    python3 examples/embed/ring.py examples/one_read.toml
"""
from __future__ import annotations

import contextlib
import itertools
import pathlib
import sys

from lokbrez import Drive, Master, NoSuchDrive


def drives_of(document: bytes, stack: contextlib.ExitStack) -> list[Drive]:
    drives: list[Drive] = []
    with contextlib.suppress(NoSuchDrive):
        for place in itertools.count():
            drives.append(stack.enter_context(Drive(document, place)))
    return drives


def run_cycle(master: Master, drives: list[Drive], cycle: int) -> None:
    mst = master.mst()
    for drive in drives:
        drive.hear_mst(cycle, mst)
    master.hear_mst(mst)
    ats = [at for drive in drives if (at := drive.at())]
    # Those of one start stay in the order of the ring.
    for at in sorted(ats, key=lambda at: at.start):
        master.hear_at(at.content)
    mdt = master.mdt()
    for drive in drives:
        drive.hear_mdt(mdt.content if mdt else None)
    master.end_cycle()


def main() -> None:
    if len(sys.argv) != 2:
        print("usage: ring.py RING.toml", file=sys.stderr)
        sys.exit(2)
    document = pathlib.Path(sys.argv[1]).read_bytes()
    with contextlib.ExitStack() as stack:
        master = stack.enter_context(Master(document))
        drives = drives_of(document, stack)
        for cycle in range(300):
            run_cycle(master, drives, cycle)
            print(master.events(), end="")
        print(f"phase {master.command} after 300 cycles")


main()
