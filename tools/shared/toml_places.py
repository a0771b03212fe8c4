"""Where each value of a ring document is in its text: a reader of TOML 1.1 that keeps places, and says why a text isn't TOML.

It is written like the reader of the page (`web/scanner.js`). The program alone decides what a document means; this reading is for lines
and columns. Paths are spelled as the program spells them in a refusal.
"""
from __future__ import annotations

import re
from collections.abc import Iterator
from typing import Any, NoReturn

BARE, BLANK = re.compile(r"[A-Za-z0-9_-]+"), re.compile(r"[ \t]*")
INTEGER = re.compile(r"[+-]?(?:0|[1-9](?:_?\d)*)|0x[\da-fA-F](?:_?[\da-fA-F])*|0o[0-7](?:_?[0-7])*|0b[01](?:_?[01])*")
FLOAT = re.compile(r"[+-]?(?:(?:0|[1-9](?:_?\d)*)(?:\.\d(?:_?\d)*)?(?:[eE][+-]?\d(?:_?\d)*)?|inf|nan)")
DATE = re.compile(r"(?:\d{4}-\d\d-\d\d(?:[Tt ]\d\d:\d\d(?::\d\d(?:\.\d+)?)?(?:[Zz]|[+-]\d\d:\d\d)?)?|\d\d:\d\d(?::\d\d(?:\.\d+)?)?)")
WORD = re.compile(r"\d{4}-\d\d-\d\d \d\d:[^\s,\]}#]*|[^\s,\]}#=]*")
# Runs of letters of a text that mean themselves.
PLAIN = {'"': re.compile(r'[^"\\\0-\x08\x0a-\x1f\x7f]+'), "'": re.compile(r"[^'\0-\x08\x0a-\x1f\x7f]+")}
CONTROL = re.compile(r"[\0-\x08\x0a-\x1f\x7f]")
COMMENT_CONTROL = re.compile(r"[\0-\x08\x0b-\x1f\x7f](?!\Z)|[\0-\x08\x0b\x0c\x0e-\x1f\x7f]\Z")
ESCAPES = {"b": "\b", "t": "\t", "n": "\n", "f": "\f", "r": "\r", "e": "\x1b", '"': '"', "\\": "\\"}
# So many lists and tables may be in one another, and so many parts in a key.
MOST_DEPTH = 80
MARK = "\ufeff"


class Stumble(Exception):
    """Where a text stops being TOML, in words, and what was probably meant."""

    def __init__(self, place: int, words: str, hint: str = "") -> None:
        super().__init__(words)
        self.place, self.words, self.hint = place, words, hint


class Node:
    """A value: its type, what it is or has, and its place in the text. Of a table that is its header or its braces."""

    def __init__(self, kind: str, start: int, end: int, value: Any = None, made: str = "") -> None:
        self.kind, self.start, self.end, self.value, self.made = kind, start, end, value, made
        self.entries: dict[str, Node] = {}
        self.items: list[Node] = []
        self.is_tables = False
        self.key = (start, end)

    def parts(self) -> Iterator[tuple[str | int, Node]]:
        yield from self.entries.items()
        yield from enumerate(self.items)


def integer_of(word: str) -> int:
    return int(word.replace("_", ""), 0 if re.match("0[xob]", word) else 10)


def hint_for_word(word: str) -> str:
    """What a word that is no value was probably meant to be."""
    unit = re.fullmatch(r"([+-]?\d[\d_]*(?:\.\d+)?)([A-Za-zµμ/%]+)", word)
    if unit:
        return f"a number has no unit: times are in microseconds; write {unit[1]} for so many"
    if re.fullmatch(r"[+-]?0\d+", word):
        return f"a number has no zeros before it; write {int(word)}"
    if re.fullmatch(r"0[XOB][\da-fA-F]+", word):
        return f"write {word[:2].lower()}{word[2:]}"
    if word.lower() in ("true", "false"):
        return f"write {word.lower()}"
    if word[:1] in "“”„‘’«»`´":
        return 'a text has straight quotes: "S-0-0051"'
    if re.fullmatch(r"[+-]?\d+\.", word) or re.fullmatch(r"[+-]?\.\d+", word):
        return "times are whole microseconds"
    if re.fullmatch(r"[A-Za-z][\w.-]*", word):
        return f'a text needs quotes: "{word}"; where a number belongs, write digits'
    return ""


class Scanner:
    """Reads a text once, from its beginning, and keeps what it has read up to a stumble."""

    def __init__(self, text: str) -> None:
        self.text = text
        self.place = len(MARK) if text.startswith(MARK) else 0
        self.depth = 0
        self.top = Node("table", 0, 0, made="header")

    def stumble(self, words: str, place: int | None = None, hint: str = "") -> NoReturn:
        raise Stumble(self.place if place is None else place, words, hint)

    def match(self, pattern: re.Pattern[str]) -> str:
        found = pattern.match(self.text, self.place)
        if not found:
            return ""
        self.place = found.end()
        return found[0]

    def is_at(self, mark: str) -> bool:
        return self.text.startswith(mark, self.place)

    def taken(self, mark: str) -> bool:
        if not self.is_at(mark):
            return False
        self.place += len(mark)
        return True

    def rest(self) -> str:
        """What is left of the line."""
        end = self.text.find("\n", self.place)
        return self.text[self.place:len(self.text) if end < 0 else end].rstrip("\r")

    def comment(self) -> None:
        if not self.is_at("#"):
            return
        end = self.text.find("\n", self.place)
        end = len(self.text) if end < 0 else end
        if odd := COMMENT_CONTROL.search(self.text[self.place:end]):
            self.stumble("a control character in a comment", self.place + odd.start())
        self.place = end

    def space(self) -> None:
        """Blanks, comments and ends of lines."""
        while True:
            self.match(BLANK)
            self.comment()
            if not self.taken("\n") and not self.taken("\r\n"):
                return

    def line_end(self) -> None:
        self.match(BLANK)
        self.comment()
        if self.place >= len(self.text) or self.taken("\n") or self.taken("\r\n"):
            return
        rest, before = self.rest(), self.text[:self.place].rstrip()[-1:]
        hint = ""
        if self.is_at("\r"):
            hint = "lines end in a carriage return alone; they have to end in a line feed"
        elif re.match(r",\s*\d", rest) and before.isdigit():
            hint = "a number has no decimal comma: times are whole microseconds"
        elif re.match(r"//|;|--|%|/\*", rest):
            hint = "a comment begins with #; a line has no end mark"
        elif re.match(r"[A-Za-zµμ%/]+\s*(#|$)", rest) and before.isdigit():
            hint = "a number has no unit: times are in microseconds"
        elif rest.startswith(","):
            hint = "a line has no comma at its end"
        elif rest.startswith("]"):
            hint = "one ] too many, or one [ too few"
        elif before == '"':
            hint = "there is one quote too many, or none at the end"
        self.stumble("more on the line than one key and its value", hint=hint)

    def document(self) -> None:
        table = self.top
        self.space()
        while self.place < len(self.text):
            if self.is_at("["):
                table = self.header()
            else:
                self.pair(table)
            self.line_end()
            self.space()

    def key(self) -> tuple[str, int, int]:
        start = self.place
        name = self.string(False) if self.is_at('"') or self.is_at("'") else self.match(BARE)
        if self.place > start:
            return name, start, self.place
        if start >= len(self.text):
            self.stumble("the text ends where a key is due")
        letter = self.text[start]
        hints = {"\r": "lines end in a carriage return alone; they have to end in a line feed",
                 "=": "the key before = is missing", "]": "one ] too many, or one [ too few",
                 "/": "a comment begins with #", ";": "a comment begins with #",
                 "\0": "the file isn't UTF-8: save it as UTF-8, without 16-bit letters", "\xa0": "that is a blank without a break; write a plain one"}
        self.stumble("no key", hint=hints.get(letter, "keys have letters without accents, digits, _ and -" if not letter.isascii() else ""))

    def keys(self) -> list[tuple[str, int, int]]:
        found = []
        while True:
            self.match(BLANK)
            found.append(self.key())
            if len(found) > MOST_DEPTH:
                self.stumble(f"a key of more than {MOST_DEPTH} parts", found[0][1])
            self.match(BLANK)
            if not self.taken("."):
                return found

    def header(self) -> Node:
        """A header, [name] or [[name]], and the table that it opens."""
        start = self.place
        is_list = self.taken("[[")
        if not is_list:
            self.taken("[")
        keys = self.keys()
        end = "]]" if is_list else "]"
        if not self.taken(end):
            words = f"[{end and keys[-1][0]}]" if not is_list else f"[[{keys[-1][0]}]]"
            self.stumble(f"no {end} at the end of a header", hint=f"write {words}")
        table = self.top
        for key in keys[:-1]:
            table = self.inner(table, key, "implied")
        last = keys[-1]
        known, place = table.entries.get(last[0]), self.place
        if is_list:
            return self.item(table, last, known, start, place)
        if known is None:
            return self.put(table, last, Node("table", start, place, made="header"))
        if known.kind != "table" or known.made != "implied":
            hint = f"each {last[0]} begins with [[{'.'.join(key[0] for key in keys)}]]" if last[0] in ("drive", "request", "fault", "block") else ""
            self.stumble(f"{last[0]} is there already, in line {self.line_of(known.start)}", last[1], hint)
        known.made, known.start, known.end, known.key = "header", start, place, last[1:]
        return known

    def item(self, table: Node, key: tuple[str, int, int], known: Node | None, start: int, end: int) -> Node:
        if known is None:
            known = self.put(table, key, Node("list", start, end))
            known.is_tables = True
        elif not known.is_tables:
            self.stumble(f"{key[0]} is there already, in line {self.line_of(known.start)}, and isn't a list of tables", key[1],
                         f"write [[{key[0]}]] there too" if known.kind == "table" else "")
        made = Node("table", start, end, made="header")
        made.key = key[1:]
        known.items.append(made)
        return made

    def line_of(self, place: int) -> int:
        return self.text.count("\n", 0, place) + 1

    def inner(self, table: Node, key: tuple[str, int, int], made: str) -> Node:
        """The table of a key that is before the last one of a header or of a pair."""
        found = table.entries.get(key[0])
        if found is None:
            found = self.put(table, key, Node("table", key[1], key[2], made=made))
        if found.is_tables:
            found = found.items[-1]
        if not (found.kind == "table" and found.made != "braces" and (made == "implied" or found.made == "dotted")):
            self.stumble(f"{key[0]} can't be added to", key[1])
        return found

    def put(self, table: Node, key: tuple[str, int, int], node: Node) -> Node:
        if key[0] in table.entries:
            self.twice(table, key)
        node.key = key[1:]
        table.entries[key[0]] = node
        return node

    def twice(self, table: Node, key: tuple[str, int, int]) -> NoReturn:
        line = self.line_of(table.entries[key[0]].key[0])
        hint = "each drive begins with a line [[drive]]" if key[0] in ("address", "t1min", "tatmt", "t4min", "tatat", "tmtsy", "tmtsg") else ""
        self.stumble(f"the key {key[0]} is there already, in line {line}", key[1], hint)

    def pair(self, table: Node) -> None:
        keys = self.keys()
        owner = table
        for key in keys[:-1]:
            owner = self.inner(owner, key, "dotted")
        last = keys[-1]
        if last[0] in owner.entries:
            self.twice(owner, last)
        if not self.taken("="):
            first = self.text[self.place:self.place + 1]
            hint = f"write {last[0]} = and the value"
            if re.match(r"\s*[\w-]+\s+\d", self.text[last[1]:last[2]] + " " + self.rest()) and last[0] == "sercos":
                hint = "this is a trace or a capture: `sercos check` reads it"
            elif not table.entries and not self.top.entries and last[0] not in ("ring", "drive", "request", "fault"):
                hint += "; or this is no ring document"
            elif self.rest().startswith("]"):
                hint = f"write [{last[0]}]"
            elif first in ("", "\n", "\r"):
                hint = f"write {last[0]} = and the value, or [{last[0]}] for a table"
            self.stumble("no = after a key", hint=hint)
        self.match(BLANK)
        self.put(owner, last, self.value())

    def value(self) -> Node:
        start = self.place
        if self.is_at('"') or self.is_at("'"):
            value = self.string(True)
            return Node("text", start, self.place, value)
        if self.is_at("[") or self.is_at("{"):
            if self.depth == MOST_DEPTH:
                self.stumble(f"more than {MOST_DEPTH} lists and tables in one another")
            self.depth += 1
            found = self.listed() if self.is_at("[") else self.braces()
            self.depth -= 1
            return found
        return self.plain(start)

    def plain(self, start: int) -> Node:
        """A number, a boolean or a date."""
        word = self.match(WORD)
        end = self.place
        if not word:
            hint = ""
            if start >= len(self.text):
                self.stumble("the text ends where a value is due", start)
            if self.text[start] in "#\r\n":
                hint = "write the value after =, in the same line"
            elif self.text[start] == "=":
                hint = "one = is enough"
            self.stumble("no value", start, hint)
        if word in ("true", "false"):
            return Node("boolean", start, end, word == "true")
        if INTEGER.fullmatch(word):
            value = integer_of(word)
            if not -1 << 63 <= value < 1 << 63:
                self.stumble("a whole number of more than 64 bits", start)
            return Node("integer", start, end, value)
        if FLOAT.fullmatch(word):
            return Node("float", start, end, word)
        if DATE.fullmatch(word):
            return Node("date", start, end, word)
        shown = word if len(word) <= 40 else word[:40] + ".."
        self.stumble(f"{shown} is no value", start, hint_for_word(word))

    def listed(self) -> Node:
        found = Node("list", self.place, self.place)
        self.taken("[")
        self.space()
        while not self.taken("]"):
            if self.place >= len(self.text):
                self.stumble("the text ends in a list", hint=f"the [ of line {self.line_of(found.start)} has no ]")
            if re.match(r"[\w-]+\s*=", self.rest()) or self.is_at("["):
                line = self.line_of(found.start)
                if line < self.line_of(self.place) and not self.is_at("[\""):
                    self.stumble("a key where an item of a list is due", hint=f"the [ of line {line} has no ]")
            found.items.append(self.value())
            self.space()
            if not self.taken(",") and not self.is_at("]"):
                line = self.line_of(found.start)
                self.stumble("no comma between the items of a list, or no ] after them",
                             hint=f"the [ of line {line} has no ]" if line < self.line_of(self.place) else "write a comma, or ]")
            self.space()
        found.end = self.place
        return found

    def braces(self) -> Node:
        made = Node("table", self.place, self.place, made="dotted")
        self.taken("{")
        self.space()
        while not self.taken("}"):
            if self.place >= len(self.text):
                self.stumble("the text ends in a table", hint=f"the {{ of line {self.line_of(made.start)} has no }}")
            self.pair(made)
            self.space()
            if not self.taken(",") and not self.is_at("}"):
                self.stumble("no comma between the keys of a table, or no } after them", hint="write a comma, or }")
            self.space()
        made.made, made.end = "braces", self.place
        return made

    def string(self, may_be_long: bool) -> str:
        mark = self.text[self.place]
        if may_be_long and self.taken(mark * 3):
            return self.long_string(mark)
        start = self.place
        self.taken(mark)
        value = ""
        while not self.taken(mark):
            if self.place >= len(self.text) or self.is_at("\n") or self.is_at("\r\n"):
                self.stumble("a text without an end", start, f"the closing {mark} is missing in this line")
            value += self.letters(mark)
        return value

    def long_string(self, mark: str) -> str:
        start = self.place
        if not self.taken("\n"):
            self.taken("\r\n")
        value = ""
        while not self.taken(mark * 3):
            if self.place >= len(self.text):
                self.stumble("a text without an end", start - 3, f"the closing {mark * 3} is missing")
            if mark == '"' and self.match(re.compile(r"\\[ \t]*\r?\n")):
                self.match(re.compile(r"[ \t\r\n]*"))
            elif self.taken("\n") or self.taken("\r\n"):
                value += "\n"
            else:
                value += self.letters(mark)
        for _ in range(2):
            if self.taken(mark):
                value += mark
        return value

    def letters(self, mark: str) -> str:
        """The next letters of a text: a run of plain ones, or one that an escape stands for, or the other mark."""
        if run := self.match(PLAIN[mark]):
            return run
        place, letter = self.place, self.text[self.place]
        if CONTROL.match(letter):
            self.stumble("a control character in a text", place)
        self.place += 1
        if mark == "'" or letter != "\\":
            return letter
        escape = self.text[self.place:self.place + 1]
        self.place += 1
        if escape in ESCAPES:
            return ESCAPES[escape]
        digits = {"x": 2, "u": 4, "U": 8}.get(escape, 0)
        code = self.text[self.place:self.place + digits]
        if not digits or not re.fullmatch(r"[\da-fA-F]+", code) or len(code) < digits:
            self.stumble("no such escape in a text", place, r"write \\ for one \ ")
        number = int(code, 16)
        if number > 0x10ffff or 0xd800 <= number < 0xe000:
            self.stumble("no such character", place)
        self.place += digits
        return chr(number)


class Reading:
    """A document that was read: its top table, and each node by its path. If it isn't TOML, `stumble` says where that is seen. From
    there on nothing has a place."""

    def __init__(self, source: bytes) -> None:
        self.stumble: Stumble | None = None
        try:
            self.text = source.decode()
        except UnicodeDecodeError as fault:
            self.text = source[:fault.start].decode()
            hint = "save the file as UTF-8"
            if source[:2] in (b"\xff\xfe", b"\xfe\xff"):
                hint = "the file has letters of 16 bits: save it as UTF-8"
            self.stumble = Stumble(len(self.text), f"the byte 0x{source[fault.start]:02x} isn't UTF-8", hint)
        scanner = Scanner(self.text)
        try:
            scanner.document()
        except Stumble as found:
            # What ends before the bad byte isn't a fault of its own.
            if self.stumble is None or found.place < len(self.text) - 1:
                self.stumble = found
        self.top = scanner.top
        self.paths: dict[str, Node] = {}
        self.note()

    def note(self) -> None:
        """Notes each node by its path. A list of what is left, since tables may be nested deeper than calls."""
        left: list[tuple[str, Node]] = [("", self.top)]
        while left:
            path, node = left.pop()
            self.paths.setdefault(path, node)
            for key, inner in node.parts():
                left.append((f"{path}[{key}]" if isinstance(key, int) else f"{path}.{key}" if path else key, inner))

    def get(self, path: str) -> Node | None:
        return self.top.entries.get("") if path == "" else self.paths.get(path)

    def value(self, path: str, kind: str) -> Any:
        """The value at a path if it is of a type; else nothing."""
        node = self.paths.get(path)
        return node.value if node and node.kind == kind else None

    def number(self, path: str, other: int) -> int:
        value = self.value(path, "integer")
        return other if value is None else int(value)

    def items(self, path: str) -> list[Node]:
        node = self.paths.get(path)
        return node.items if node else []

    def line_column(self, place: int) -> tuple[int, int]:
        """The line and the column of a place, both from 1."""
        start = self.text.rfind("\n", 0, place) + 1
        if start == 0 and self.text.startswith(MARK):
            start = len(MARK)
        return self.text.count("\n", 0, place) + 1, max(place - start, 0) + 1

    def line(self, number: int) -> str:
        lines = self.text.split("\n")
        return lines[number - 1].lstrip(MARK).rstrip("\r") if number <= len(lines) else ""


def plain_value(node: Node) -> Any:
    """What Python's reader of TOML makes of a node; of floats and dates their texts."""
    if node.kind == "table":
        return {key: plain_value(inner) for key, inner in node.entries.items()}
    return [plain_value(inner) for inner in node.items] if node.kind == "list" else node.value
