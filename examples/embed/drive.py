"""A drive in this program's own process: as drive.c, by the package of python/.

At the top of the repository, after tools/library, in a virtual environment (python3 -m venv FOLDER). With a release its wheel is installed,
in place of ./python:

    pip install ./python
    python3 examples/embed/drive.py examples/one_read.toml
"""
from __future__ import annotations

import pathlib
import sys

from lokbrez import Drive, Record, at_read, mst_write, single_write

# The phase that the master commands, and the step of the service channel that it sends.
CYCLES: list[tuple[int, Record | None]] = [
    (0, None),
    (1, Record()),
    (2, Record(mhs=True, write=True, last=True, element=1, info=0x0003)),  # open S-0-0003
    (2, Record(mhs=False, last=True, element=7)),  # read its operation data
    (2, Record(mhs=False)),
]


def main() -> None:
    if len(sys.argv) != 2:
        print("usage: drive.py RING.toml", file=sys.stderr)
        sys.exit(2)
    document = pathlib.Path(sys.argv[1]).read_bytes()
    with Drive(document, 0) as drive:
        for number, (phase, step) in enumerate(CYCLES):
            drive.hear_mst(number, mst_write(phase))
            text = f"cycle {number} phase {drive.phase}"
            if sent := drive.at():
                at = at_read(1, 4, sent.content)
                text += f" AT at {sent.start} ahs {at.ahs:d} info {at.info}"
            print(text)
            drive.hear_mdt(single_write(1, step) if step else None)


main()
