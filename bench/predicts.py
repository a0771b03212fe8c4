#!/usr/bin/env python3
"""Checks two predictions of the program on random rings.

Each seed makes a ring document, by the generator of compare.py. Two in three are plain ones, most of which have a plan; the
third is a tight one with requests and a script, and about half of these have none. Whatever its script does to the ring, if
the trace of `run` ends with `unseen 0`, then

- `check` finds the trace clean; one that is longer than `check` reads is divided into captures that share a cycle;
- each plan that the trace reports, and each chain of a stop at which no plan fits, is what `plan` prints.

Prints each document of which this isn't so, with its seed, and at the end how many documents had what. Ends with 0 if it is so of
all.
"""
import pathlib
import re
import subprocess
import sys
from collections.abc import Iterator

from random_captures import parts
from random_rings import Rings, TightRings
from seeds import Judgement, judge_seeds, parser_of

PROGRAM = pathlib.Path(__file__).resolve().parent.parent / "crates/sercos/out/sercos"
# The most bytes that `check` reads, and the most seconds of a run.
LONGEST = 1 << 20
SECONDS = 120


class ScriptedTightRings(TightRings):
    """Tight rings with requests and a script."""
    requests_and_script = Rings.requests_and_script


def document_of(seed: int) -> str:
    rings = ScriptedTightRings if seed % 3 == 0 else Rings
    return rings(seed).document()


def output_of(program: str, word: str, text: str) -> str:
    """What the program writes. Its status says no more than its output does."""
    run = subprocess.run([program, word], input=text.encode(), stdout=subprocess.PIPE, stderr=subprocess.DEVNULL, timeout=SECONDS)
    return run.stdout.decode()


def captures_of(trace: str) -> list[str]:
    """The trace, in captures of at most LONGEST bytes. Each begins with the head, and after the first with the cycle before too, so
    that each two cycles in a row are in one of them."""
    if len(trace) <= LONGEST:
        return [trace]
    head_lines, cycles = parts(trace)
    head = capture = "".join(f"{line}\n" for line in head_lines)
    captures, before = [], ""
    for lines in cycles:
        cycle = "".join(f"{line}\n" for line in lines)
        if len(capture) + len(cycle) > LONGEST:
            captures.append(capture)
            capture = head + before
        capture += cycle
        before = cycle
    return [*captures, capture]


def reports_of(trace: str) -> list[str]:
    """Each plan and each chain that the trace reports, as `plan` prints it, which is without the cycle."""
    reports: list[str] = []
    for line in trace.splitlines():
        if re.match(r"plan |stop \d+ nofit$", line):
            reports.append("")
        if re.match(r"(plan|slot|rule) |stop \d+ nofit$", line):
            reports[-1] += "no plan\n" if line.startswith("stop") else re.sub(r" \d+", "", line, count=1) + "\n"
    return reports


def wrong_in(program: str, trace: str, plan: str) -> Iterator[str]:
    """What is wrong of a trace in which nothing was unseen, and of the answer of `plan`."""
    for capture in captures_of(trace):
        verdict, wanted = output_of(program, "check", capture), f"clean {len(capture.splitlines())}\n"
        if verdict != wanted:
            yield f"check answers {verdict!r}, not {wanted!r}"
    for report in reports_of(trace):
        if report != plan:
            yield f"the run reports {report!r}, and plan prints {plan!r}"


def script_of(document: str) -> set[str]:
    """The kinds of faults in the script of a document."""
    kinds = set()
    for fault in document.split("[[fault]]")[1:]:
        kind = re.search(r'(?m)^kind = "(.*)"', fault)[1]
        station = "" if kind != "restart" else " of the master" if re.search("(?m)^station = 0$", fault) else " of a drive"
        kinds.add(f"script: {kind}{station}")
    return kinds or {"script: empty"}


def occurred_in(document: str, trace: str, plan: str) -> set[str]:
    """What a document and its run have, each named once."""
    reports = reports_of(trace)
    found = script_of(document) | {"plan: none fits" if plan.startswith("no plan") else "plan: one fits"}
    found.update("run: reports a chain" if report.startswith("no plan") else "run: reports a plan" for report in reports)
    found.update(f"run: {word} {kind}" for word, kind in re.findall(r"(?m)^(stop|fall) \d+ (\w+)", trace))
    more = {"run: reports neither": not reports, "run: reports more than once": len(reports) > 1,
            "run: something unseen": not trace.endswith(" unseen 0\n"), "run: more than `check` reads": len(trace) > LONGEST}
    return found | {name for name, holds in more.items() if holds}


def checked(program: str, seed: int) -> Judgement:
    """What is wrong of the document of a seed, and what occurred."""
    document = document_of(seed)
    trace, plan = output_of(program, "run", document), output_of(program, "plan", document)
    if not re.search(r"\nend .* unseen \d+\n\Z", trace):
        return [f"run ends with {trace[-200:]!r}"], set()
    occurred = occurred_in(document, trace, plan)
    wrong = [] if "run: something unseen" in occurred else list(wrong_in(program, trace, plan))
    return wrong + [document] * bool(wrong), occurred


def main() -> int:
    words = parser_of(__doc__, program=str(PROGRAM)).parse_args()
    return judge_seeds(words, lambda seed: checked(words.program, seed))


if __name__ == "__main__":
    sys.exit(main())
