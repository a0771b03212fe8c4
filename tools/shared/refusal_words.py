"""A refusal of a ring document in words: the line and the column of its path, the value, what is allowed, and what was probably meant."""
from __future__ import annotations

import difflib
import re
from collections.abc import Iterator
from typing import NamedTuple

from .allowed import ALLOWED, KINDS, form_of, keys_of
from .command_line import toml_of
from .toml_places import Node, Reading, Stumble
from .trace_lines import BadInput

REFUSAL = re.compile(r"refused (\d+) (\w+)(?: (.*))?", re.S)
IDN = re.compile(r"[SP]-[0-7]-(?:[0-3]\d{3}|40[0-8]\d|409[0-5])")
BUILT_IN_NUMBERS = {*range(1, 11), 15, *range(87, 91)}
BUILT_IN_LISTS, BUILT_IN_COMMANDS = {16, 21, 22, 24}, {127, 128}
DATA = "drive[N].block[N].data"
TIMES = {"t1min", "tatmt", "t4min", "tatat", "tmtsy", "tmtsg", "cycle_min", "cycle_max", "gap", "cycle", "control"}
ARTICLES = {"integer": "a whole number", "float": "a number with a point", "text": "a text", "boolean": "true or false", "date": "a date",
            "list": "a list", "table": "a table"}


class Refusal(NamedTuple):
    """What `refused ..` says: its number and kind, the path, and the value if it has one."""

    number: int
    kind: str
    path: str
    value: str


class Words(NamedTuple):
    """What is wrong, what is allowed, what was probably meant, and the span in the text, if it has one."""

    what: str
    allowed: str
    hint: str
    span: tuple[int, int] | None


def read_refusal(answer: str) -> Refusal | None:
    """The parts of a refusal. A path may have a line feed in it; another answer is none."""
    found = REFUSAL.fullmatch(answer[:-1] if answer.endswith("\n") else answer)
    if not found or found[1] not in "123456":
        return None
    rest = found[3] or ""
    path, _, value = rest.rpartition(" ") if found[2] == "range" else (rest, "", "")
    return Refusal(int(found[1]), found[2], path, value)


def plural(count: int, word: str) -> str:
    return f"{count} {word}{'' if count == 1 else 's'}"


def named(reading: Reading, path: str) -> str:
    """A table in words, such as 'block 2 (block[1], S-0-0051) of drive 9 (drive[8], address 12)': counted from 1, and as the path has it."""
    words: list[str] = []
    whole = ""
    for part in re.split(r"\.(?=(?:ring|drive|request|fault|block)\b)", path):
        whole = f"{whole}.{part}" if whole else part
        found = re.fullmatch(r"(\w+)\[(\d+)\]", part)
        if not found:
            words.insert(0, f"[{part}]" if part == "ring" else part)
            continue
        notes = [part]
        if part.startswith("drive") and (address := reading.value(f"{whole}.address", "integer")) is not None:
            notes.append(f"address {address}")
        if idn := reading.value(f"{whole}.idn", "text"):
            notes.append(shown(idn, 20))
        words.insert(0, f"{found[1]} {int(found[2]) + 1} ({', '.join(notes)})")
    return " of ".join(words)


def shown(text: str, most: int = 60) -> str:
    """A text of the document for a line of output."""
    plain = "".join(letter if letter.isprintable() else "?" for letter in text)
    return plain if len(plain) <= most else plain[:most] + ".."


def divided(path: str) -> tuple[str, str]:
    """The path of the table, and the key in it."""
    table, _, key = path.rpartition(".")
    return table, key


def subject_of(reading: Reading, path: str) -> str:
    table, key = divided(path)
    found = re.fullmatch(r"(order|at|mdt)\[(\d+)\]", key)
    if found and table:
        return f"entry {int(found[2]) + 1} of {found[1]} ({key}) of {named(reading, table)}"
    if re.fullmatch(r"(ring|drive|request|fault|block)(\[\d+\])?", key) or not table:
        return named(reading, path) if path in reading.paths or not table else f"{key} of {named(reading, table)}"
    return f"{shown(key)} of {named(reading, table)}"


def value_of(node: Node | None, value: str) -> str:
    """The value in words: the number that the program prints of a text or a list isn't one."""
    if node is None:
        return value
    if node.kind == "text":
        return f'"{shown(node.value)}"' if node.value else 'empty, ""'
    if node.kind == "list":
        return f"a list of {value} entries"
    return str(node.value).lower() if node.kind == "boolean" else value


def kind_of(node: Node | None) -> str:
    if node is None:
        return "of another type"
    if node.kind == "text":
        return f'a text, "{shown(node.value, 30)}"'
    return f"{ARTICLES[node.kind]}, {shown(str(node.value), 30)}" if node.kind in ("float", "integer", "date") else ARTICLES[node.kind]


def idn_meant(text: str) -> str:
    """The identifier number that a text was probably meant to be."""
    found = re.fullmatch(r"\s*([SPsp])[-_ ]?(?:(\d)[-_ .])?0*(\d{1,4})\s*", text)
    if not found or int(found[3]) > 4095 or int(found[2] or 0) > 7:
        return ""
    return f"{found[1].upper()}-{found[2] or 0}-{int(found[3]):04}"


def idn_hint(text: str) -> str:
    meant = idn_meant(text)
    if meant:
        return f'write "{meant}"'
    return "the set is 0 to 7, the number 0000 to 4095" if re.fullmatch(r"[SP]-\d-\d{4}", text) else ""


class Block(NamedTuple):
    """An own block of a drive, as the document has it: its path and its attribute."""

    path: str
    attribute: int | None

    def says(self) -> str:
        """Why it is no number for a telegram."""
        if self.attribute is None:
            return "has no attribute"
        if self.attribute >> 19 & 1:
            return "is a procedure command"
        return "is a list" if self.attribute >> 16 & 7 in (4, 5, 6) else ""


def blocks_of(reading: Reading, drive: str) -> Iterator[tuple[str, Block]]:
    for place, _ in enumerate(reading.items(f"{drive}.block")):
        path = f"{drive}.block[{place}]"
        if idn := reading.value(f"{path}.idn", "text"):
            yield idn, Block(path, reading.value(f"{path}.attribute", "integer"))


def addresses_of(reading: Reading) -> list[int]:
    found = [reading.value(f"drive[{place}].address", "integer") for place, _ in enumerate(reading.items("drive"))]
    return [address for address in found if address is not None]


def addresses_text(reading: Reading) -> str:
    addresses = addresses_of(reading)
    return f"the drives of this ring have the addresses {', '.join(map(str, addresses[:16]))}{' ..' if len(addresses) > 16 else ''}"


def entry_hint(reading: Reading, path: str, text: str) -> str:
    """Why an entry of `at` or `mdt` isn't allowed."""
    drive = path[:path.rindex(".")]
    if not IDN.fullmatch(text):
        meant = idn_meant(text)
        known = [idn for idn, block in blocks_of(reading, drive) if not block.says()]
        return f'write "{meant}"' if meant else f"the numbers of its own blocks are {', '.join(known[:8])}" if known else 'write such as "S-0-0051"'
    own, number = dict(blocks_of(reading, drive)), int(text[4:])
    if text in own:
        says = own[text].says() or "can't be in a telegram"
        return f"{text} of {named(reading, drive)} {says}; a telegram carries numbers of two or four bytes"
    if text.startswith("S-0-") and number in BUILT_IN_LISTS | BUILT_IN_COMMANDS:
        return f"{text} is built in, and a {'list' if number in BUILT_IN_LISTS else 'procedure command'}; a telegram carries numbers"
    return f"{text} has no block in {named(reading, drive)}: write a [[drive.block]] with this idn after the keys of the drive"


def attribute_hint(value: int) -> str:
    """The first field of a word that makes it no attribute."""
    length, is_command, form = value >> 16 & 7, value >> 19 & 1, value >> 20 & 7
    if not 0 <= value < 1 << 32:
        return "it has 32 bits"
    if length in (0, 3, 7):
        return f"bits 18 to 16, the length, are {length}: 1 is two bytes, 2 four; 4, 5, 6 a list. A signed number of four bytes is 0x00220001"
    if is_command and length != 1:
        return "bit 19 makes it a procedure command, whose length is two bytes (bits 18 to 16 are 1): 0x00090001"
    if form > 5:
        return f"bits 22 to 20, the display form, are {form}: 0 binary, 1 unsigned, 2 signed, 3 hexadecimal, 4 text, 5 identifier number"
    return "bits 23 and 31 are always 0"


def bounds_text(attribute: int | None) -> str:
    """The numbers of a block with this attribute."""
    if attribute is None or attribute >> 16 & 7 not in (1, 2):
        return ""
    bits = 16 * (attribute >> 16 & 7)
    is_signed = attribute >> 20 & 7 == 2
    least, most = (-(1 << bits - 1), (1 << bits - 1) - 1) if is_signed else (0, (1 << bits) - 1)
    return f"{'a signed' if is_signed else 'an unsigned'} number of {bits // 8} bytes is {least} to {most}"


def block_hint(reading: Reading, table: str, key: str, node: Node | None) -> str:
    """What the attribute of a block has to do with a value of it."""
    attribute = reading.value(f"{table}.attribute", "integer")
    block = Block(table, attribute)
    if key == "attribute" and node:
        return attribute_hint(int(node.value))
    if key in ("min", "max"):
        return f"this block {block.says()}, which has no {key}" if block.says() else bounds_text(attribute)
    if key == "max_len":
        if block.says() != "is a list":
            return "by its attribute this block is no list"
        return f"an item has {1 << ((attribute or 0) >> 16 & 3)} bytes"
    if key == "fails":
        return "by its attribute this block is no procedure command"
    if key == "step":
        return f"this block {block.says()}" if block.says() else "this block has min or max" if {"min", "max"} & {*(reading.paths[table].entries)} else ""
    if key == "data" and block.says() == "is a list":
        size = 1 << ((attribute or 0) >> 16 & 3)
        most = reading.value(f"{table}.max_len", "integer")
        return f"an item has {plural(size, 'byte')}, {2 * size} digits" + (f"; max_len is {most} bytes" if most is not None else "") + digits_hint(node)
    if key == "data":
        return "" if block.says() else bounds_text(attribute)
    if key in ("name", "unit"):
        return text_hint(node)
    return ""


def digits_hint(node: Node | None) -> str:
    if node is None or node.kind != "text":
        return ""
    if odd := re.search(r"[^\da-fA-F]", node.value):
        return f"; {shown(odd[0])!r} is no hexadecimal digit"
    return f"; these are {len(node.value)} digits" if len(node.value) % 2 else ""


def text_hint(node: Node | None) -> str:
    if node is None or node.kind != "text":
        return ""
    if odd := re.search(r"[^ -~]", node.value):
        return f"{odd[0]!a} isn't printable ASCII"
    return f"these are {len(node.value)} bytes" if node.value else ""


def cycle_hint(value: int) -> str:
    if 0 < value <= 64 and value not in (125, 250):
        return f"if {value} ms are meant, write {1000 * value}"
    if value > 64000 or value <= 0:
        return ""
    low = value // 250 * 250
    return f"the nearest are {low or 125} and {min(low + 250, 64000)}"


def ring_hint(reading: Reading, key: str, value: int) -> str:
    cycle = reading.number("ring.cycle", 0)
    if key == "cycle":
        return cycle_hint(value)
    if key == "control" and cycle > 0:
        near = max(1, min(round(value / cycle), 64000 // cycle)) * cycle
        return f"cycle is {cycle}, so {near} is allowed" + (f"; if {value} ms are meant, write {1000 * value}" if 0 < value <= 64 else "")
    if key == "rate":
        return "in Mbit/s: 4 for 4000000 bits a second" if value > 16 else ""
    if key == "cycles" and value > 50000:
        return "tools/ring-bears says how many are enough"
    if key == "order":
        return f"the ring has {plural(len(reading.items('drive')), 'drive')}"
    return addresses_text(reading) if key.startswith("order[") else nanoseconds_hint(key, value)


def nanoseconds_hint(key: str, value: int) -> str:
    """A time that is a whole number of microseconds if its unit is nanoseconds."""
    return f"if {value} ns are meant, write {value // 1000}" if key in TIMES and 1000 <= value <= 64000000 and value % 1000 == 0 else ""


def request_hint(reading: Reading, table: str, key: str, node: Node | None) -> str:
    if key in ("drive", "from", "station"):
        return addresses_text(reading)
    if key in ("kind", "telegram") and node and node.kind == "text":
        return near_word(node.value, re.findall(r"\w+", ALLOWED[f"{form_of(table)}.{key}"].words))
    if key == "idn" and node and node.kind == "text":
        if not IDN.fullmatch(node.value):
            return idn_hint(node.value)
        return f"{node.value} is no procedure command of this drive; use kind read or write"
    if key == "data":
        return digits_hint(node).removeprefix("; ")
    if key == "link":
        return f"this ring has links 0 to {len(reading.items('drive'))}: link k leads from the k-th drive of the ring to the next"
    if key == "last":
        return f"cycle is {reading.value(f'{table}.cycle', 'integer')}"
    return ""


def near_word(word: str, known: list[str]) -> str:
    near = difflib.get_close_matches(word.lower().replace("-", "_"), known, 1, 0.6)
    return f"write {near[0]}" if near else ""


def hint_of(reading: Reading, path: str, node: Node | None, value: str) -> str:
    """What was probably meant by a value that isn't allowed."""
    table, key = divided(path)
    if path == "ring":
        return f"it would have {value} bytes: take entries out of mdt"
    if re.fullmatch(r"(at|mdt)\[\d+\]", key) and node and node.kind == "text":
        return entry_hint(reading, path, node.value)
    number = int(value) if re.fullmatch(r"-?\d+", value) else 0
    if table == "ring":
        return ring_hint(reading, key, number)
    if ".block[" in table:
        if key == "idn":
            return idn_hint(node.value) if node and node.kind == "text" else ""
        return block_hint(reading, table, key, node)
    if re.match(r"(request|fault)\[", table):
        return request_hint(reading, table, key, node)
    return nanoseconds_hint(key, number)


def wrong_kind_hint(node: Node | None, wanted: str, key: str) -> str:
    if node is None:
        return ""
    if node.kind == "float" and wanted.startswith("integer"):
        digits = re.fullmatch(r"([+-]?\d[\d_]*)\.0*", str(node.value))
        return f"write {digits[1]}, without a point" if digits else f"{'times are whole microseconds' if key in TIMES else 'write a whole number'}"
    if node.kind == "text" and wanted == "integer" and re.fullmatch(r"[+-]?\d+", node.value):
        return f"write {int(node.value)}, without quotes"
    if node.kind == "text" and wanted == "integer" and (unit := re.fullmatch(r"\s*(\d+)\s*[A-Za-zµμ/]+\s*", node.value)):
        return f"write {unit[1]}, without quotes and unit"
    if node.kind == "text" and wanted == "boolean":
        return "write true or false, without quotes"
    if node.kind == "text" and wanted == "integer" and re.fullmatch("0[xX][0-9a-fA-F]+", node.value):
        return f"write {node.value.lower()}, without quotes"
    if node.kind == "text" and wanted == "list":
        return f'write ["{shown(node.value, 30)}"]'
    if node.kind == "integer" and re.match(r"(idn|at|mdt)\b", key) and 0 <= node.value <= 4095:
        text = f'"S-0-{node.value:04}"'
        return f"write {f'[{text}]' if key in ('at', 'mdt') else text}"
    if wanted == "table" and node.is_tables:
        return f"write [{key}]"
    if wanted == "tables":
        return f"each {key} begins with a line [[{'drive.block' if key == 'block' else key}]]" if node.kind == "table" else ""
    return ""


def twice_words(reading: Reading, refusal: Refusal, node: Node | None) -> tuple[str, str]:
    """Where the value is already."""
    table, key = divided(refusal.path)
    subject = subject_of(reading, refusal.path)
    if node is None:
        return f"{subject} occurs twice", ""
    for other, found in reading.paths.items():
        if other != refusal.path and form_of(other) == form_of(refusal.path) and found.kind == node.kind and found.value == node.value \
                and (not key.startswith("idn") or other.rpartition(".block[")[0] == table.rpartition(".block[")[0]) and found.start < node.start:
            once = {"address": "each drive has an address of its own, 1 to 254", "idn": "each number has one block in a drive"}
            return (f"{subject} is {value_of(node, str(node.value))}, as in line {reading.line_column(found.start)[0]}",
                    once.get(key, "each address is in the order once"))
    idn = str(node.value)
    if key == "idn" and IDN.fullmatch(idn):
        return f'{subject} is "{idn}", which is a built-in block', "built-in blocks need no table; take this one out"
    return f"{subject} is {value_of(node, str(node.value))}, which occurs twice", ""


def unknown_words(reading: Reading, refusal: Refusal) -> tuple[str, str, str]:
    """A key without a meaning: the keys of its table, and the one that was meant."""
    table, key = divided(refusal.path)
    name = re.sub(r"\[\d+\]", "", table.rpartition(".")[2])
    known = keys_of(name) if name in ("", "ring", "drive", "block", "request", "fault") else []
    where = f"in {named(reading, table)}" if table else "outside the tables"
    hint = near_word(key, [word for word in known if word != key])
    owners = [other for other in ("ring", "drive", "block", "request", "fault") if key in keys_of(other) and other != name]
    if name == "block" and "drive" in owners:
        hint = f"{key} is a key of the drive: write it above the first [[drive.block]] of this drive"
    elif key in known:
        kind = " and ".join(f'{part} "{value}"' for part in ("kind", "telegram") if (value := reading.value(f"{table}.{part}", "text")))
        return f"{shown(key)} has no meaning {where}", f"a {name} with {kind} has no {key}" if kind else "", "take it out, or change the kind"
    elif not hint and owners:
        header = {"ring": "[ring]", "block": "[[drive.block]]"}.get(owners[0], f"[[{owners[0]}]]")
        hint = f"{key} is a key below {header}"
    return f"{shown(key) or 'a key without a name'} has no meaning {where}", f"its keys are {', '.join(known)}" if known else "", hint


def missing_words(reading: Reading, refusal: Refusal) -> Words:
    table, key = divided(refusal.path)
    node = reading.get(table) if table else None
    span = (node.start, node.end) if node and node is not reading.top else None
    known = ALLOWED.get(form_of(refusal.path))
    if not table:
        wanted = f"[{key}]" if key == "ring" else f"[[{key}]]"
        if not reading.text.strip():
            return Words(f"there is no {wanted}: the text is empty", "a ring document has one [ring], and a [[drive]] for each drive",
                         "is the file empty, or did the command before it fail?", span)
        near = next((f"{other} isn't {key}" for other in reading.top.entries if difflib.get_close_matches(key, [other.lower()], 1, 0.6)), "")
        return Words(f"there is no {wanted}", "a ring document has one [ring], and a [[drive]] for each drive", near, span)
    names = [] if node is None else list(node.entries)
    nearest = difflib.get_close_matches(key, [name for name in names if name not in keys_of(re.sub(r"\[\d+\]", "", table.rpartition(".")[2]))], 1, 0.6)
    return Words(f"{key} of {named(reading, table)} is missing", f"wanted: {KINDS[known.kind]}; allowed: {known.text()}" if known else "",
                 f"is {nearest[0]} meant for it?" if nearest else "", span)


def python_stumble(reading: Reading) -> Stumble | None:
    """Where Python's reader of TOML sees the first fault, if there is one: it also knows which dates there are."""
    try:
        toml_of(reading.text)
    except BadInput:
        return None
    except ValueError as fault:
        found = re.fullmatch(r"(.*) \(at line (\d+), column (\d+)\)", str(fault))
        if found:
            start = sum(len(line) + 1 for line in reading.text.split("\n")[:int(found[2]) - 1])
            return Stumble(start + int(found[3]) - 1, f"{found[1][:1].lower()}{found[1][1:]}")
    return None


def words_of(reading: Reading, refusal: Refusal) -> Words:
    """A refusal in words. Of one that isn't TOML the place is where the reader of this folder sees it."""
    if refusal.kind == "toml":
        found = reading.stumble or python_stumble(reading)
        if found is None:
            return Words("the text is not TOML; its place can't be told", "", "", None)
        return Words(f"the text is not TOML: {found.words}", "", found.hint, (found.place, found.place + 1))
    if refusal.kind == "missing":
        return missing_words(reading, refusal)
    node = reading.get(refusal.path)
    span = (node.start, node.end) if node else None
    if refusal.kind == "unknown":
        what, allowed, hint = unknown_words(reading, refusal)
        return Words(what, allowed, hint, node.key if node else span)
    if refusal.kind == "twice":
        what, hint = twice_words(reading, refusal, node)
        return Words(what, "", hint, span)
    known, (table, _) = ALLOWED.get(form_of(refusal.path)), divided(refusal.path)
    if refusal.kind == "kind":
        return kind_words(reading, refusal, node)
    hint = hint_of(reading, refusal.path, node, refusal.value)
    if refusal.path == "ring":
        return Words(f"the MDT would have {refusal.value} bytes", f"allowed: {known.text()}" if known else "", hint, span)
    allowed = block_data(reading.value(f"{table}.attribute", "integer")) if known and form_of(refusal.path) == DATA else known.text() if known else ""
    # A question of the table is answered by what was meant.
    allowed = re.sub(r": (?:is|was) [^?]*\?", "", allowed) if hint else allowed
    return Words(f"{subject_of(reading, refusal.path)} is {value_of(node, refusal.value)}", f"allowed: {allowed}" if allowed else "", hint, span)


def block_data(attribute: int | None) -> str:
    """What the table says of the data of a block with this attribute."""
    number, command, listed = ALLOWED[DATA].words.split("; ")
    says = Block("", attribute).says()
    return {"is a list": listed.removeprefix("for a list "), "is a procedure command": command}.get(says, number)


def kind_words(reading: Reading, refusal: Refusal, node: Node | None) -> Words:
    known, (table, key) = ALLOWED.get(form_of(refusal.path)), divided(refusal.path)
    wanted, values = known.kind if known else "", re.sub(r": (?:is|was) [^?]*\?", "", known.text()) if known else ""
    if form_of(refusal.path) == DATA:
        attribute = reading.value(f"{table}.attribute", "integer")
        wanted, values = "text" if Block("", attribute).says() == "is a list" else "integer", block_data(attribute)
    subject, found = subject_of(reading, refusal.path), node
    # Of a list of tables it may be an item that is none.
    if node and wanted == "tables" and node.kind == "list":
        found = next((item for item in node.items if item.kind != "table"), node)
    what = f"{subject} is {kind_of(found)}" if found is node or found is None else f"an item of {subject} is {kind_of(found)}"
    allowed = f"wanted: {KINDS[wanted]}" if wanted else ""
    if known and wanted not in ("table", "tables", "boolean"):
        allowed += f"; allowed: {values}"
    return Words(what, allowed, wrong_kind_hint(found, wanted, key), (found.start, found.end) if found else None)
