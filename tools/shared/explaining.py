"""The words behind an answer of the program: with the line and the column, the value, what is allowed, and what was probably meant."""
from __future__ import annotations

import io
import re
from collections.abc import Callable, Iterator

from .capture_rules import Judged, finding_words
from .chain_words import chain_text
from .channel_steps import ERRORS, FALLS
from .idle_faults import warnings
from .refusal_words import read_refusal, shown, words_of
from .toml_places import Reading
from .trace_lines import name_of, read_answer

LONGEST = 1048576
MOST_SHOWN, MOST_CODES = 100, 20
# Runs the program with words on an input: its status and output; none where there is no program.
Run = Callable[[list[str], bytes], "tuple[int, str] | None"]
LINE_AT = re.compile(r"(refused|violation) line (\d+) (?:column (\d+)|rule (\d+) (\w+))\n?")
OTHERS = {
    8: "request {0} isn't a write of element 7: `restore` takes requests with kind \"write\" and without another element",
    9: "no line is exactly `capture`: it divides the document and the capture, without blanks and carriage returns",
    10: "the document has no drive with the address {0}; 0 is the master",
    11: "the input has {0} document(s), and 2 to 8 are wanted: lines that are exactly `next` divide them, and one at the end begins one more",
    12: "the cycle time is {0} us: it must be 125, 250, 500 or 1000 us, and the same in all documents",
    13: "the capture begins with cycle {0}: a replay needs it from cycle 0 on",
}


def lines_of(source: bytes) -> list[bytes]:
    return re.findall(rb"[^\n]*\n|[^\n]+", source)


class Part:
    """A text in the input: a document, or a capture. Its lines are counted from those before it."""

    def __init__(self, source: bytes, before: int = 0) -> None:
        self.source, self.before = source, before

    def document(self) -> Reading:
        return Reading(self.source)


def parts_of(source: bytes, mark: bytes) -> Iterator[Part]:
    """The parts of an input that lines divide which are exactly the mark."""
    first = 0
    pieces: list[bytes] = []
    for number, line in enumerate(lines_of(source)):
        if line in (mark, mark + b"\n"):
            yield Part(b"".join(pieces), first)
            pieces, first = [], number + 1
        else:
            pieces.append(line)
    yield Part(b"".join(pieces), first)


def marked(text: str, column: int) -> Iterator[str]:
    """A line of the input with a mark below a column."""
    plain = "".join(letter if letter.isprintable() else " " if letter == "\t" else "?" for letter in text)
    start = max(0, column - MOST_SHOWN * 3 // 4) if len(plain) > MOST_SHOWN else 0
    yield f"    {plain[start:start + MOST_SHOWN]}"
    yield f"    {' ' * (column - 1 - start)}^"


def refusal_text(part: Part, answer: str) -> Iterator[str]:
    """A refusal of a document, with its place."""
    refusal = read_refusal(answer)
    if refusal is None:
        return
    reading = part.document()
    words = words_of(reading, refusal)
    if words.span:
        line, column = reading.line_column(words.span[0])
        yield f"line {line + part.before}, column {column}: {words.what}"
        yield from marked(reading.line(line), column)
    else:
        yield words.what
    for more in (words.allowed, words.hint):
        if more:
            yield f"  {more}"


def line_text(source: bytes, number: int) -> str:
    lines = source.split(b"\n")
    return lines[number - 1].decode(errors="replace") if number <= len(lines) else ""


def why_no_bits(text: str, column: int) -> str:
    """What is probably wrong with a line that isn't one of `show`."""
    if not text:
        return "the line is empty"
    kind, count, digits = (text.split(" ") + ["", ""])[:3]
    if column <= len(kind) + 1:
        return "a line is KIND COUNT HEX, with single blanks; KIND is raw, mst, single or at"
    if column <= len(kind) + len(count) + 2:
        return "COUNT is the number of bits, 0 to 19696, without zeros before it, and a single blank follows"
    wanted = 2 * -(-int(count) // 8) if count.isdecimal() else 0
    return (f"HEX has two hexadecimal digits for each eight bits begun, here {wanted}, with zeros in the spare bits; - for no bits. "
            f"These are {len(digits)}")


def why_no_line(text: str, column: int, number: int, source: bytes) -> str:
    """What is probably wrong with a line that no capture has."""
    if text.lstrip("\ufeff").lstrip().startswith(("[", "#")) and number <= 2 and not text.startswith("[pcap"):
        return "this is a ring document: `plan`, `margin`, `run`, `backup` and `restore` read one"
    if source[:4] in (b"\x0a\x0d\x0d\x0a", b"\xd4\xc3\xb2\xa1"):
        return "this is a capture file: `tools/pcap-trace` makes a capture of one"
    if not text:
        return "the line is empty, or the text ends before its head is whole"
    if text[:column].endswith("  ") or text.endswith((" ", "\t")) or text.startswith((" ", "\t")):
        return "there is one blank between two words, and none at the ends of a line"
    if column == 1:
        return ("a capture begins with `sercos 1`, then `ring`, its lines `drive`, and `order`, which has the address of each drive once; "
                "then lines of cycles; or numbers of the head are none that a ring has")
    if re.search("[A-F]", text[column - 1:column]):
        return "hexadecimal digits of a capture are in lower case"
    return "the first byte that doesn't fit; numbers have no sign, no point and no zeros before them, and a content has two digits a byte"


def line_refusal(part: Part, number: int, column: int, is_show: bool) -> Iterator[str]:
    text = line_text(part.source, number)
    if "\r" in text:
        why = "the line ends in a carriage return: `tr -d '\\r'` takes all out"
    else:
        why = why_no_bits(text, column) if is_show else why_no_line(text, column, number, part.source)
    yield f"line {number + part.before}, column {column}: {why}"
    if text:
        yield from marked(text, column)


def violation_text(part: Part, number: int, rule: int) -> Iterator[str]:
    """The first line that breaks a rule: cycle, telegram, by how much; and how many more there are."""
    judged = Judged(io.StringIO(part.source.decode(errors="backslashreplace"), newline="\n"))
    found = [finding for telegram in judged.telegrams() for finding in telegram.findings]
    this = next((finding for finding in found if (finding.line, finding.rule) == (number, rule)), None)
    if this is None:
        return
    yield f"line {number + part.before}: {finding_words(this, judged.head.ring.rate)}"
    yield f"    {shown(line_text(part.source, number), MOST_SHOWN)}"
    others = len({finding.line for finding in found}) - 1
    if others:
        yield f"  {others} more line{'s' * (others > 1)} break{'s' * (others == 1)} a rule: `tools/capture-report DOCUMENT CAPTURE` has each"


def stop_text(lines: list[str], reading: Reading) -> Iterator[str]:
    """What kept a run from phase 4: its last stop or fall, or its too few cycles."""
    last, phase = "", ""
    chain: list[str] = []
    for line in lines:
        word = line.partition(" ")[0]
        if word in ("stop", "fall"):
            last, chain = line, []
        elif word == "rule":
            chain.append(re.sub(r"^rule \d+ ", "rule ", line))
        elif word == "end":
            phase = line.split(" ")[3]
    parts = last.split(" ")
    if phase == "4":
        yield (f"the run ended in phase 4, with {reading.number('ring.cycles', 0)} cycles: if requests are open, take more cycles "
               "(`tools/ring-bears` says how many)")
    elif parts[0] == "stop":
        yield f"the start-up stopped in cycle {parts[1]}: {stop_words(parts[2:])}"
        if chain:
            yield from chain_text(reading, read_answer("\n".join(chain)))
    elif parts[0] == "fall":
        yield f"the ring fell in cycle {parts[1]}: {fall_words(parts[2:])}; at the end it was in phase {phase or '0'}"
    else:
        yield (f"the run ended in phase {phase or '0'}: {reading.number('ring.cycles', 0)} cycles are too few for the start-up, or no MST returned "
               "(`tools/ring-bears` says how many it takes)")


def code_words(code: str) -> str:
    return ERRORS.get(int(code, 16), "no code of this profile")


def fall_words(parts: list[str]) -> str:
    """A fall in words: those after its cycle."""
    kind = {"mst": "FallMst", "at": "FallAt", "step": "FallStep", "restart": "FallRestart"}[parts[0]]
    return FALLS[kind].format(address=parts[-1])


def stop_words(parts: list[str]) -> str:
    kind, drive = parts[0], parts[1] if len(parts) > 1 else ""
    if kind == "nofit":
        return "no plan fits the times that the drives answered"
    if kind == "refused":
        limits = {"0x7006": ": the cycle time is below its cycle_min", "0x7007": ": the cycle time is above its cycle_max"}
        why = limits.get(parts[3]) if parts[2] == "S-0-0002" else None
        return f"drive {drive} refused {parts[2]} with {parts[3]}{why or ': ' + code_words(parts[3])}"
    if kind == "config":
        return f"by the attribute {parts[3]} {parts[2]} of drive {drive} is no number, or all data records have more than 2047 bytes"
    checks = {"check127": "the check for phase 3", "check128": "the check for phase 4 (data below its minimum or above its maximum)"}
    return f"{checks.get(kind, kind)} of drive {drive} failed, for {' '.join(parts[2:])}"


def failed_text(part: Part, answer: str, run: Run) -> Iterator[str]:
    """What kept `backup` or `restore` from its requests, in place of a line for each."""
    lines = answer.splitlines()
    left = [line for line in lines if line.endswith((" open", " broken"))]
    for found in list(filter(None, (re.fullmatch(r"failed (\d+) (\S+) refused (0x\w+)", line) for line in lines)))[:MOST_CODES]:
        yield f"drive {found[1]} refused {found[2]} with {found[3]}: {code_words(found[3])}"
    if left:
        yield f"{len(left)} of {len(lines)} requests weren't answered:"
        ran = run(["run"], part.source)
        if ran and ran[0] == 0:
            yield from (f"  {line}" for line in stop_text(ran[1].splitlines(), part.document()))


def too_long_text(source: bytes, words: list[str]) -> Iterator[str]:
    """What to do with an input of more than 1 MiB: of a trace, which cycles fit."""
    yield f"the input has more than {LONGEST:,} bytes, the most that is read"
    if source.startswith(b"sercos 1\n"):
        yield "  keep a part: `tools/trace-part FROM TO < TRACE` has the head and the cycles FROM to TO"
        head = source.find(b"\n", source.find(b"\norder") + 1)
        found = re.findall(rb"(?m)^m (\d+) ", source[:LONGEST]) if head > 0 else []
        if len(found) > 2:
            yield f"  the first {LONGEST:,} bytes have the cycles {int(found[0])} to {int(found[-2])}: so many fit"
    elif words[:1] == ["show"]:
        yield "  `split -C 1048576 --filter='sercos show'` gives the lines in parts"
    elif words[:1] == ["replay"]:
        yield "  a replay needs a capture from cycle 0 on: cut its end, by `tools/trace-part 0 TO`"


def other_refusal(answer: str, source: bytes) -> Iterator[str]:
    found = re.match(r"(?:document (\d+) )?refused (\d+) \w+(?: (\d+))?\n?\Z", answer)
    if found and int(found[2]) in OTHERS:
        yield (f"document {found[1]}: " if found[1] else "") + OTHERS[int(found[2])].format(found[3])
        # What nearly divides: the line with blanks, or with a carriage return.
        mark = {9: b"capture", 11: b"next"}.get(int(found[2]))
        near = re.search(rb"(?m)^[ \t]*" + mark + rb"[ \t\r]+$", source) if mark else None
        if near:
            yield (f"  line {source.count(10, 0, near.start()) + 1} has " + ("a carriage return: `tr -d '\\r'` takes all out" if b"\r" in near[0]
                                                                          else "blanks"))


def idle_text(name: str, source: bytes) -> Iterator[str]:
    """A warning for each fault of a document, or of several, that has no effect."""
    for part in parts_of(source, b"next") if name == "sercos_rings" else [Part(source)]:
        yield from (f"warning: {line}" for line in warnings(part.document(), part.before))


def explained(name: str, words: list[str], status: int, source: bytes, answer: str, run: Run) -> Iterator[str]:
    """The words behind an answer of a program to the words of a command; none if there is nothing to say. The answer may be absent if
    the status is 0."""
    if status == 7:
        yield from too_long_text(source, words)
        return
    rings = re.match(r"document (\d+) (refused [1-6] .*)", answer, re.S)
    if rings:
        first, *others = refusal_text(list(parts_of(source, b"next"))[int(rings[1]) - 1], rings[2])
        yield f"document {rings[1]}{', ' if first.startswith('line ') else ': '}{first}"
        yield from others
        return
    part = Part(source)
    if words[:1] == ["replay"]:
        part, *captures = parts_of(source, b"capture")
        # Only the first such line divides.
        start = captures[0].before if captures else 0
        capture = Part(b"".join(lines_of(source)[start:]), start)
    else:
        capture = part
    if found := LINE_AT.match(answer):
        if found[1] == "refused":
            yield from line_refusal(capture, int(found[2]), int(found[3]), words[:1] == ["show"])
        else:
            yield from violation_text(capture, int(found[2]), int(found[4]))
    elif read_refusal(answer):
        yield from refusal_text(part, answer)
    elif answer.startswith(("refused", "document")):
        yield from other_refusal(answer, source)
    elif re.match(r"(cycle \S+\n)?no plan\n", answer):
        lines = read_answer(re.sub(r"\Acycle .*\n", "", answer))
        yield from chain_text(part.document(), [line for line in lines if name_of(line) != "NoPlan"])
    elif answer.startswith(("failed ", "restored ")):
        yield from failed_text(part, answer, run)
    elif status == 0 and words[:1] in (["run"], ["backup"], ["restore"]) and b"fault" in source:
        yield from idle_text(name, source)
