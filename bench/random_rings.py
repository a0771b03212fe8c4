#!/usr/bin/env python3
"""Random ring documents, each made from a seed: random_rings.py [--tight|--saved] SEED, or .. [--tight|--saved] FIRST COUNT FOLDER

The first prints the document of the seed, the second writes COUNT of them from seed FIRST on. A document has 1 to 6
drives, now and then up to 64, with blocks, lists, limits and busy times of all kinds; requests, also ones that a drive
refuses; and a script with every kind of damage, among it damage that leaves a frame. Most rings come to phase 4.

The tight ones are for `plan` and `margin`: a plan fits in about half of them, and in some it fits in no cycle. Their times
and gaps are of all sizes, up to the largest; they have no requests and no script.

The saved ones are for `backup` and `restore`: drives have lists of backup operation data, and most requests write operation data.
"""
import pathlib
import random
import sys

from frames import frame_bits

BUILT_IN = ["S-0-%04d" % n for n in (1, 2, 3, 4, 5, 6, 7, 8, 9, 10, 15, 87, 88, 89, 90)]
BUILT_IN_LISTS = ["S-0-0016", "S-0-0021", "S-0-0022", "S-0-0024"]
CHECKS = ["S-0-0127", "S-0-0128"]
TIMES = {"t1min": 60, "tatmt": 25, "t4min": 90, "tatat": 60, "tmtsy": 40, "tmtsg": 80}
# The longest that a document allows.
LONGEST_TIMES = {"t1min": 300, "tatmt": 300, "t4min": 64000, "tatat": 64000, "tmtsy": 250, "tmtsg": 64000}
# The distances of the four bits of x^16 + x^12 + x^5 + 1 on the link: flipped together they leave the check sequence
# right, if no zero is inserted or missing then.
DIVISOR = [0, 4, 11, 16]
# The phases whose MSTs have frames of one length.
PHASES_OF_49_BITS = [0, 1, 2, 4]


def table(name, keys):
    lines = ["", "[[%s]]" % name]
    for key, value in keys.items():
        if isinstance(value, bool):
            value = "true" if value else "false"
        elif isinstance(value, (str, list)):
            value = str(value).replace("'", '"') if isinstance(value, list) else '"%s"' % value
        lines.append("%s = %s" % (key, value))
    return "\n".join(lines) + "\n"


class Rings:
    """What one document is made of, as it is chosen."""

    def __init__(self, seed):
        self.random = random.Random(seed)
        self.drives = []
        self.requests = []
        self.faults = []

    def few(self, share):
        """Whether something comes that has this share."""
        return self.random.random() < share

    def pick(self, items):
        return self.random.choice(items)

    def between(self, low, high):
        return self.random.randint(low, high)

    # The drives.

    def number_block(self, idn):
        size = self.pick([2, 4])
        form = self.pick([0, 1, 2, 3])
        low, high = (-(1 << 8 * size - 1), (1 << 8 * size - 1) - 1) if form == 2 else (0, (1 << 8 * size) - 1)
        keys = {"idn": idn, "attribute": self.pick([1, 1, 10, 65535]) + (size // 2 << 16) + (form << 20)}
        keys["attribute"] += (self.between(0, 15) << 24) + (self.protection() << 28)
        value = self.pick([0, 1, high, low, self.between(low, high)])
        if self.few(0.3):
            least, most = sorted([self.between(low, high), self.between(low, high)])
            keys.update({"min": least, "max": most})
            value = self.between(least, most) if self.few(0.93) else self.pick([low, high])
        elif self.few(0.4):
            keys["step"] = self.pick([1, 10, 4096, 4294967295, self.between(0, 100000)])
        keys["data"] = value
        return keys

    def protection(self):
        return self.between(0, 7) if self.few(0.2) else 0

    def list_block(self, idn):
        size = self.pick([1, 2, 4])
        keys = {"idn": idn, "attribute": 1 + ({1: 4, 2: 5, 4: 6}[size] << 16) + (self.pick([0, 1, 3, 4, 5]) << 20)}
        keys["attribute"] += self.protection() << 28
        most = self.pick([size, 4 * size, 16 * size, size * self.between(1, 64)])
        keys["max_len"] = most
        if self.few(0.7):
            keys["data"] = self.hex_text(size * self.between(0, most // size))
        return keys

    def command_block(self, idn):
        return {"idn": idn, "attribute": 0x00090001 + (self.protection() << 28), "fails": self.few(0.3)}

    def hex_text(self, length):
        return bytes(self.between(0, 255) for _ in range(length)).hex()

    def block(self, idn):
        keys = self.pick([self.number_block] * 4 + [self.list_block] * 2 + [self.command_block])(idn)
        if self.few(0.4):
            keys["name"] = "".join(self.pick("AZaz 09~!") for _ in range(self.between(1, 60)))
        if self.few(0.3):
            keys["unit"] = "x" * self.between(1, 12)
        if self.few(0.15):
            keys["fixed"] = True
        return keys

    def own_idns(self, count):
        idns = {}
        while len(idns) < count:
            number = self.pick([99, 126, 129, 4095, self.between(30, 80)])
            idns["%s-%d-%04d" % (self.pick("SP"), self.pick([0, 0, 0, 1, 7]), number)] = True
        return sorted(idns, key=lambda _: self.random.random())

    def time(self, name):
        return self.between(0, TIMES[name])

    def drive(self, address, calm):
        keys = {"address": address}
        if self.drives and self.few(0.4):
            keys["slave"] = self.pick(self.drives)["keys"].get("slave", 1)
        elif self.few(0.8):
            keys["slave"] = self.between(1, 254)
        keys["busy"] = 0 if calm else self.pick([0, 0, 0, 1, 1, 2, 3, self.between(0, 8)])
        keys["command"] = self.pick([0, 0, 1, 2, 5, 0 if calm else self.between(0, 40)])
        keys.update((name, self.time(name)) for name in TIMES)
        if self.few(0.04):
            keys["cycle_min" if self.few(0.5) else "cycle_max"] = self.pick([500, 1000, 2000])
        blocks = [self.block(idn) for idn in self.own_idns(self.pick([0, 1, 2, 3, 4, 8, 36 if self.few(0.05) else 2]))]
        numbers = BUILT_IN + [b["idn"] for b in blocks if not b["attribute"] >> 19 & 1 and not b["attribute"] >> 18 & 1]
        own = numbers[len(BUILT_IN):] or numbers
        for key in ("at", "mdt"):
            count = self.pick([0, 1, 1, 2, 3, 16 if self.few(0.05) else 2])
            keys[key] = [self.pick(own if self.few(0.8) else numbers) for _ in range(count)]
        return {"keys": keys, "blocks": blocks}

    def drives_of(self, count):
        for address in self.random.sample(range(1, 255), count):
            self.drives.append(self.drive(address, count > 6))
        if self.few(0.03):
            self.pick(self.drives)["keys"]["busy"] = 20

    # The ring's numbers.

    def address(self):
        return self.pick(self.drives)["keys"]["address"]

    def start_up(self):
        """About the cycle in which phase 4 is commanded, if nothing comes between."""
        cycles = 12 + len(self.drives)
        for drive in self.drives:
            keys = drive["keys"]
            steps = 74 + 4 * (len(keys["at"]) + len(keys["mdt"]))
            cycles += (keys["busy"] + 1) * steps + keys["command"]
        return cycles + max((d["keys"]["busy"] + 1) * 4 + d["keys"]["command"] for d in self.drives)

    def wanted_cycle(self, rate, gap):
        """About the cycle time, in microseconds, for which a plan fits."""
        wire = lambda count: (16 + 9.6 * (count + 2)) / rate
        keys = [d["keys"] for d in self.drives]
        ats = sum(wire(5 + 4 * len(k["at"])) + max(gap, k["tatat"]) + 1 for k in keys)
        mdt = wire(1 + sum(4 + 4 * len(k["mdt"]) for k in keys))
        return ats + mdt + 60 + max(k["tatmt"] + k["tmtsg"] + k["tmtsy"] + k["t4min"] for k in keys)

    def gap(self):
        return self.pick([5, 5, 0, 1, 10, self.between(0, 40)])

    def cycle_time(self, wanted):
        """A cycle time in which a plan fits, for most rings."""
        if self.few(0.1):
            wanted /= 2
        cycle = 125 if wanted < 125 else 250 * (int(wanted) // 250 + self.pick([1, 1, 1, 2, 4]))
        return min(cycle, 64000)

    def ring(self):
        rate = self.pick([2, 4, 8, 16])
        gap = self.gap()
        cycle = self.cycle_time(self.wanted_cycle(rate, gap))
        self.cycles = self.between(100, 1500)
        if self.few(0.85):
            self.cycles = max(100, min(1500, self.start_up() + self.between(40, 500)))
        if len(self.drives) > 6:
            self.cycles = min(self.cycles, self.between(100, 400))
        keys = {"rate": rate, "cycle": cycle, "gap": gap, "cycles": self.cycles}
        if self.few(0.3):
            keys["control"] = cycle * self.between(1, 64000 // cycle)
        order = [d["keys"]["address"] for d in self.drives]
        if self.few(0.5):
            self.random.shuffle(order)
            keys["order"] = order
        return keys

    # The requests.

    def any_idn(self, drive):
        known = [b["idn"] for b in drive["blocks"]] or BUILT_IN
        return self.pick([self.pick(known)] * 6 + [self.pick(BUILT_IN + BUILT_IN_LISTS + CHECKS)] * 2 + ["P-3-0777"])

    def request(self):
        drive = self.pick(self.drives)
        keys = {"drive": drive["keys"]["address"], "kind": self.pick(["read", "read", "write", "write", "command"])}
        if keys["kind"] == "command":
            own = [b["idn"] for b in drive["blocks"] if b["attribute"] >> 19 & 1]
            keys["idn"] = self.pick(own * 3 + CHECKS + ["P-3-0777"])
            return keys
        keys["idn"] = self.any_idn(drive)
        if self.few(0.5):
            keys["element"] = self.between(1 if keys["kind"] == "read" else 2, 7)
        if keys["kind"] == "write":
            length = self.pick([0, 1, 2, 2, 2, 4, 4, 4, 3, 8, self.between(0, 80)])
            keys["data"] = self.pick([self.hex_text(length), "03000000"[:2 * length], "00" * length])
        return keys

    # The script.

    def moment(self):
        """A cycle: any, one about the end of the start-up, or one in phase 4."""
        end = self.start_up()
        ends = [end + self.between(-12, 30), self.between(end, end + 200)]
        near = self.pick([self.between(0, self.cycles - 1), self.between(8, 40)] + ends)
        return max(0, min(near, self.cycles - 1, 49999))

    def span(self):
        """The cycles of a fault: one, some in a row, each second or third of many, or very many."""
        first = self.moment()
        kind = self.pick(["one", "one", "two", "two", "row", "every", "every", "long"])
        if kind == "one":
            return {"cycle": first}
        if kind == "two":
            return {"cycle": first, "last": min(first + 1, 49999)}
        if kind == "row":
            return {"cycle": first, "last": min(first + self.between(0, 6), 49999)}
        if kind == "long":
            return {"cycle": first, "last": min(first + self.between(55, 110), 49999)}
        every = self.pick([2, 2, 3, 3, 5, self.between(1, 90)])
        return {"cycle": first, "last": min(first + self.between(1, 600), 49999), "every": every}

    def telegram(self):
        kind = self.pick(["mst", "mdt", "at", "at"])
        return {"telegram": kind, "from": self.address()} if kind == "at" else {"telegram": kind}

    def link(self):
        return {"link": self.between(0, len(self.drives))}

    def bit(self):
        return {"bit": self.pick([self.between(0, 60), self.between(0, 250), self.between(0, 19695)])}

    def deaf_station(self, telegram):
        if telegram == "at":
            return 0
        return 0 if telegram == "mst" and self.few(0.4) else self.address()

    def plain_fault(self):
        kind = self.pick(["lose", "lose", "lose", "flip", "cut", "deaf", "deaf", "restart"])
        keys = {"kind": kind}
        keys.update(self.span())
        if kind == "restart":
            if self.few(0.8):
                keys = {"kind": kind, "cycle": keys["cycle"]}
            keys["station"] = 0 if self.few(0.4) else self.address()
        elif kind == "deaf":
            keys.update(self.telegram())
            keys["station"] = self.deaf_station(keys["telegram"])
        else:
            keys.update(self.telegram())
            keys.update(self.link())
            if kind != "lose":
                keys.update(self.bit())
        self.faults.append(keys)

    def flips(self, span, telegram, places):
        link = self.link()
        for place in places:
            self.faults.append({"kind": "flip", **span, **telegram, **link, "bit": place})

    def another_mst(self):
        """Flips that turn the MST of one phase into that of another."""
        one, other = self.random.sample(PHASES_OF_49_BITS, 2)
        pairs = zip(frame_bits(bytes([255, one])), frame_bits(bytes([255, other])))
        self.flips(self.span(), {"telegram": "mst"}, [place for place, (a, b) in enumerate(pairs) if a != b])

    def another_frame(self):
        """Four flips that leave the check sequence right."""
        place = self.pick([self.between(8, 45), self.between(8, 45), self.between(8, 120)])
        self.flips(self.span(), self.telegram(), [place + more for more in DIVISOR])

    def another_station(self):
        """Flips that turn the MDT or the AT of phase 1 into that of another drive, which has frames of one length."""
        one, other = self.address(), self.address()
        frames = [frame_bits(bytes([address, 0, 0, 0, 0])) for address in (one, other)]
        places = [place for place, (a, b) in enumerate(zip(*frames)) if a != b]
        cycle = self.between(10, 10 + 2 * len(self.drives))
        telegram = self.pick([{"telegram": "mdt"}, {"telegram": "at", "from": one}])
        self.flips({"cycle": cycle, "last": cycle + self.pick([0, 0, 70])}, telegram, places)

    def script(self):
        shares = {self.plain_fault: 0.75, self.another_mst: 0.08, self.another_frame: 0.2, self.another_station: 0.05}
        for make, share in shares.items():
            if self.few(share):
                for _ in range(self.pick([1, 1, 2, 3, self.between(1, 12)])):
                    make()

    def requests_and_script(self):
        for _ in range(self.pick([0, 1, 2, 4, 8, 12, 16, 60 if self.few(0.2) else 5])):
            self.requests.append(self.request())
        self.script()

    def document(self):
        count = self.between(1, 6) if self.few(0.97) else self.between(7, 64)
        self.drives_of(count)
        head = table("ring", self.ring()).replace("[[ring]]", "[ring]")
        self.requests_and_script()
        parts = [head]
        for drive in self.drives:
            parts.append(table("drive", drive["keys"]))
            parts.extend(table("drive.block", block) for block in drive["blocks"])
        parts.extend(table("request", keys) for keys in self.requests)
        parts.extend(table("fault", keys) for keys in self.faults[:4096])
        return "".join(parts).lstrip()


class TightRings(Rings):
    """What a tight document is made of."""

    def time(self, name):
        most = LONGEST_TIMES[name]
        if self.few(0.03):
            return self.pick([most, most - 1, self.between(0, most)])
        return self.pick([0, super().time(name), super().time(name), self.between(0, min(most, 400))])

    def gap(self):
        return self.between(41, 1000) if self.few(0.1) else super().gap()

    def cycle_time(self, wanted):
        """Mostly one that may be the shortest in which a plan fits."""
        near = int(wanted * self.random.uniform(0.4, 1.4)) // 250
        if self.few(0.1):
            near = self.between(1, 256)
        return 250 * min(near, 256) or 125

    def requests_and_script(self):
        pass


class SavedRings(Rings):
    """What a document for `backup` and `restore` is made of: most drives have a list of backup operation data, now and then one with
    an odd byte at its end, and most requests write operation data."""

    def listed(self, drive):
        """The blocks on the list of a drive: its own ones, built-in ones, and some that it hasn't."""
        own = [block["idn"] for block in drive["blocks"]]
        names = own + self.random.sample(BUILT_IN, 3) + BUILT_IN_LISTS + CHECKS
        if self.few(0.15):
            names.append("P-3-%04d" % self.between(0, 4095))
        return [self.pick(names) for _ in range(self.pick([0, 1, 2, 3, self.between(1, 12)]))]

    def saved_list(self, drive):
        numbers = [self.raw(name) for name in self.listed(drive)]
        text = b"".join(number.to_bytes(2, "little") for number in numbers)
        single = self.few(0.2)
        if single and self.few(0.5):
            text += b"\x2f"
        return {"idn": "S-0-0192", "attribute": 0x00540001 if single else 0x00550001, "max_len": 1024, "data": text.hex()}

    def raw(self, name):
        letter, group, number = name.split("-")
        return (letter == "P") << 15 | int(group) << 12 | int(number)

    def requests_and_script(self):
        for drive in self.drives:
            if self.few(0.8) and len(drive["blocks"]) < 36 and all(b["idn"] != "S-0-0192" for b in drive["blocks"]):
                drive["blocks"].append(self.saved_list(drive))
        for _ in range(self.pick([0, 1, 2, 4, 8, 16])):
            request = self.request()
            if self.few(0.02) or request["kind"] == "write" and request.get("element", 7) == 7:
                self.requests.append(request)
        if self.few(0.6):
            self.script()


def document(seed):
    """The text of the document of a seed."""
    return Rings(seed).document()


def tight_document(seed):
    """The text of the tight document of a seed."""
    return TightRings(seed).document()


def saved_document(seed):
    """The text of the document of a seed for `backup` and `restore`."""
    return SavedRings(seed).document()


def main():
    words = sys.argv[1:]
    make = document
    if words[0] == "--saved":
        make, words = saved_document, words[1:]
    if words[0] == "--tight":
        make, words = tight_document, words[1:]
    if len(words) == 1:
        sys.stdout.write(make(int(words[0])))
        return
    first, count, folder = int(words[0]), int(words[1]), pathlib.Path(words[2])
    folder.mkdir(parents=True, exist_ok=True)
    for seed in range(first, first + count):
        (folder / f"{seed}.toml").write_text(make(seed))


if __name__ == "__main__":
    main()
