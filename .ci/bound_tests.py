"""What the tests of the bounds share: rings, the bounds of PROTOCOL.md, and runs."""
import re
import sys
import tomllib

from tool_tests import TOP, sercos

sys.path.insert(0, str(TOP / "tools"))
from shared.bounds import Bounds

ONE = (TOP / "examples/one_drive.toml").read_text()
TWO = (TOP / "examples/two_drives.toml").read_text()
THREE = (TOP / "examples/three_drives.toml").read_text()
SHORT = (TOP / "examples/short_cycle.toml").read_text()
# Three drives with busy time 2, a procedure command of three cycles, and four listed numbers each.
BUSY_THREE = "[ring]\nrate = 4\ncycle = 1000\ngap = 10\ncycles = 900\n" + "".join(
    f'[[drive]]\naddress = {k}\nbusy = 2\ncommand = 3\nt1min = 20\ntatmt = 15\nt4min = 100\ntatat = 20\ntmtsy = 20\ntmtsg = 50\n'
    'at = ["S-0-0051", "S-0-0040"]\nmdt = ["S-0-0047", "S-0-0036"]\n'
    + "".join(f'[[drive.block]]\nidn = "{idn}"\nattribute = 0x00220001\n' for idn in ("S-0-0036", "S-0-0040", "S-0-0047", "S-0-0051"))
    for k in (1, 2, 3))
# As many own blocks as a drive may have, each with data outside its limits: below the minimum and above the maximum in turn.
OUTSIDE = ["S-0-0047", "S-0-0051"] + [f"P-0-{k:04}" for k in range(100, 134)]
ALL_OUTSIDE = re.sub(r"(?m)^step.*\n", "max = 64499\n", ONE).replace("attribute = 0x00220001", "attribute = 0x00220001\nmin = 1", 1) + "".join(
    f'[[drive.block]]\nidn = "{idn}"\nattribute = 0x00110001\nmin = 10\nmax = 100\ndata = {5 + 195 * (k % 2)}\n' for k, idn in enumerate(OUTSIDE[2:]))
# Rings whose start-up ends with a stop, and what the stop says.
CYCLE_MIN = TWO.replace("address = 2", "address = 2\ncycle_min = 500", 1)
CYCLE_MAX = re.sub(r"(?m)^(address = \d)", r"\1\ncycle_max = 125", TWO)
IS_OUTSIDE = ["check128", "1"] + OUTSIDE
IS_BELOW = ["refused", "2", "S-0-0002", "0x7006"]
IS_ABOVE = ["refused", "1", "S-0-0002", "0x7007"]


def busy(document, cycles):
    """The ring whose first drive is busy for so many cycles."""
    return document.replace("t1min", f"busy = {cycles}\nt1min", 1)


def bounds(document):
    """S of a ring, the cycles of a refusal after it, and for each request the cycle in which it is reported at the latest."""
    ring = tomllib.loads(document)
    of = Bounds(ring["drive"])
    return of.start, of.stop, of.latest(ring.get("request", []))


def ran(document, cycles):
    """The lines of a run of so many cycles."""
    return sercos(["run"], re.sub(r"(?m)^cycles = \d+", f"cycles = {cycles}", document, count=1).encode()).splitlines()


def told(lines, word):
    """The words of each line that begins with this word."""
    return [line.split() for line in lines if line.split(" ", 1)[0] == word]
