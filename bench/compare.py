#!/usr/bin/env python3
"""Compares two programs on random rings, on random captures, on random replays, on several random rings, or on random lines
of `show`:

compare.py ONE OTHER FIRST COUNT [JOBS]
compare.py --tight ONE OTHER FIRST COUNT [JOBS]
compare.py --saved ONE OTHER FIRST COUNT [JOBS]
compare.py --rings ONE OTHER FIRST COUNT [JOBS]
compare.py --captures RUN ONE OTHER FIRST COUNT [JOBS]
compare.py --replays RUN ONE OTHER FIRST COUNT [JOBS]
compare.py --show ONE OTHER FIRST COUNT [JOBS]

ONE and OTHER are commands that read a ring document, such as `crates/sercos/out/sercos run`, or with `plan` or `margin` in
place of `run`. For each of the COUNT seeds from FIRST on, both are given the document of the seed, and with `--tight` its
tight document: one in two of these has no plan, and one in ten has none in any cycle. With `--saved` it is one for `backup` and
`restore`, which stand in place of `run`. With `--captures` they read a capture,
as `sercos check` does: both are given a capture made from the trace that the command RUN writes of the document. With
`--replays` they read what `sercos replay A` reads, and are given an address as their last word: the document, and the first
cycles of the trace that RUN writes of it, in which up to two telegrams are changed. With `--rings` they read what
`sercos_rings run` reads, and are given the input of the seed. With
`--show` they read lines as `sercos show` does: both are given those of the seed. Of each input on which they differ, in
output or status, the first line that differs is printed, and at the end what occurred in the outputs of ONE. Ends with 0
where none differs.
"""
import re
import shlex
import subprocess
import sys

import random_lines
from random_captures import capture, replayed
from random_rings import LONGEST_TIMES, document, saved_document, tight_document
from random_several import several
from seeds import judge_seeds, parser_of

SECONDS = 600


def answer(command, source):
    run = subprocess.run(shlex.split(command), input=source, capture_output=True, timeout=SECONDS)
    return run.returncode, run.stdout.decode("latin-1").split("\n")


def difference(one, other):
    """The first difference of two answers, or None."""
    for place, (a, b) in enumerate(zip(one[1], other[1])):
        if a != b:
            return f"line {place + 1}: {a[:200]!r}, other {b[:200]!r}"
    if len(one[1]) != len(other[1]):
        return f"{len(one[1])} lines, other {len(other[1])}"
    if one[0] != other[0]:
        return f"status {one[0]}, other {other[0]}"
    return None


def occurs_in(status, lines):
    """What a trace, a verdict, or an answer of `show`, `plan` or `margin` has, each named once."""
    if lines[0].startswith("differs "):
        return {"differs " + lines[0].split(" ")[3], "expected none" if lines[1] == "expected none" else "expected",
                "found none" if lines[2] == "found none" else "found"}
    if any(line.split(" ")[0] in ("failed", "restored", "[[request]]") for line in lines):
        return {words[0] + (" " + words[3] if words[0] == "failed" else "") for words in (line.split(" ") for line in lines)
                if words[0] in ("failed", "restored", "[[request]]")}
    if status == 1 and len(lines) == 2:
        return {" ".join(lines[0].split(" ")[3:])}
    if re.match(r"document \d|refused 11 ", lines[0]):
        return {re.sub(r"^document \d+", "document", " ".join(lines[0].split(" ")[:4]))}
    if status and "no plan" not in lines:
        return {f"status {status}"}
    found = set()
    for line in lines:
        words = re.sub(r"^[1-8] ", "", line).split(" ")
        if words[0] == "m":
            found.add("phase " + words[4][-1])
        elif words[0] == "p" and words[3] == "0":
            found.add("a drive falls")
        elif words[0] in ("stop", "fall"):
            found.add(f"{words[0]} {words[2]}")
        elif words[0] == "r":
            found.add("request " + words[3])
        elif words[0] == "end" and words[-1] != "0":
            found.add("unseen")
        elif words[0] in ("error", "layout"):
            found.add(" ".join(words[:3]))
        elif words[0] in ("clean", "ok", "mst", "single", "at", "plan", "agrees"):
            found.add(words[0])
        elif line in ("cycle none", "no plan"):
            found.add(line)
        elif words[0] == "rule" and words[2] == "drive" and words[4] == "sum":
            found.add(f"bound {words[1]}")
        elif words[0] == "together":
            found.add("together 0" if words[1] == "0" else "together")
        elif words[0] == "margin":
            found.add("margins")
            found.update(f"{name} below its limit" for name, time in zip(words[2::2], words[3::2])
                         if int(time) < LONGEST_TIMES[name])
    return found


def source_of(words, seed):
    """What both are given for a seed: a last word or none, and lines, a document, or a capture made from its trace."""
    if words[0] == "--show":
        return "", random_lines.source(seed)
    text = {"--tight": tight_document, "--saved": saved_document, "--rings": several}.get(words[0], document)(seed)
    if words[0] in ("--captures", "--replays"):
        trace = "\n".join(answer(words[1], text.encode())[1])
        word, source = replayed(seed, text, trace) if words[0] == "--replays" else ("", capture(seed, trace))
        return word, source.encode()
    return "", text.encode()


def compared(words, seed):
    """How the answers to a seed differ, and what occurred. The words are those before FIRST."""
    word, source = source_of(words, seed)
    answers = [answer(f"{command} {word}", source) for command in words[-2:]]
    found = difference(*answers)
    return [found] * bool(found), occurs_in(*answers[0])


def main():
    words = sys.argv[1:]
    commands = {"--captures": 4, "--replays": 4, "--show": 3, "--tight": 3, "--saved": 3, "--rings": 3}.get(words[0], 2) if words else 0
    given = parser_of(__doc__).parse_args([*words[commands:commands + 2], *(["--jobs", *words[commands + 2:]] if words[commands + 2:] else [])])
    return judge_seeds(given, lambda seed: compared(words[:commands], seed))


if __name__ == "__main__":
    sys.exit(main())
