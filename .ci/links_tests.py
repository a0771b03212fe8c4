"""What the tests of the links share: a script over three drives, and what arrives by the rules of docs/PROTOCOL.md, worked out by hand.

An MST and an MDT take the links from 0 on to their drive, the master's own MST all four; the AT of drive k takes those from k on.
"""
from tool_tests import TOP

DOCUMENT = (TOP / "examples/three_drives.toml").read_text(encoding="utf-8") + "".join(f"[[fault]]\n{keys}\n" for keys in (
    'kind = "lose"\ncycle = 5\ntelegram = "mst"\nlink = 1',
    'kind = "lose"\ncycle = 6\ntelegram = "at"\nfrom = 2\nlink = 2',
    'kind = "flip"\ncycle = 7\ntelegram = "mdt"\nlink = 1\nbit = 40',
    'kind = "cut"\ncycle = 8\ntelegram = "mst"\nlink = 1\nbit = 16',
    'kind = "deaf"\ncycle = 9\ntelegram = "mst"\nstation = 1',
    'kind = "restart"\ncycle = 10\nstation = 2',
    # The bits of the generator, sixteen places apart at most: the check sequence stays right.
    *(f'kind = "flip"\ncycle = 11\ntelegram = "at"\nfrom = 1\nlink = 3\nbit = {bit}' for bit in (20, 24, 31, 36))))
MST, AT, MDT = "ff04", "01" + "00" * 9, "ff" + "00" * 12
# Cycle, kind, sender, receiver and content; how its frame arrives; the content that is heard.
PASSED = [
    (4, "mst", 0, 2, MST, "as sent", MST),
    (5, "mst", 0, 1, MST, "as sent", MST), (5, "mst", 0, 2, MST, "nothing", None), (5, "mst", 0, 3, MST, "nothing", None),
    (5, "mst", 0, 0, MST, "nothing", None), (5, "mdt", 0, 3, MDT, "as sent", MDT),
    (6, "at", 2, 0, AT, "nothing", None), (6, "at", 1, 0, AT, "as sent", AT), (6, "at", 3, 0, AT, "as sent", AT), (7, "at", 2, 0, AT, "as sent", AT),
    (7, "mdt", 0, 1, MDT, "as sent", MDT), (7, "mdt", 0, 2, MDT, "damaged", None), (7, "mdt", 0, 3, MDT, "damaged", None),
    (8, "mst", 0, 1, MST, "as sent", MST), (8, "mst", 0, 2, MST, "damaged", None), (8, "mst", 0, 0, MST, "damaged", None),
    (9, "mst", 0, 1, MST, "nothing", None), (9, "mst", 0, 2, MST, "as sent", MST), (9, "mst", 0, 0, MST, "as sent", MST),
    (11, "at", 1, 0, AT, "other frame", "01108110" + "00" * 6), (11, "at", 2, 0, AT, "as sent", AT), (12, "at", 1, 0, AT, "as sent", AT),
]
# Cycle and station, and whether it restarts.
RESTARTS = [(9, 2, False), (10, 2, True), (10, 1, False), (10, 0, False), (11, 2, False)]
