"""The one loop of the comparisons on random inputs: each seed is judged, what is wrong is printed as it is found, and at the end what
occurred, and how often."""
from __future__ import annotations

import argparse
import collections
import concurrent.futures
import time
from collections.abc import Callable, Iterable

# What is wrong of the input of a seed, lines to print; and what occurred, each named once.
Judgement = tuple[list[str], Iterable[str]]


def parser_of(doc: str | None, **options: str) -> argparse.ArgumentParser:
    """The words that all take: the first seed, the number of seeds, and how many at a time."""
    parser = argparse.ArgumentParser(description=doc, formatter_class=argparse.RawDescriptionHelpFormatter)
    parser.add_argument("seed", type=int, help="the first seed")
    parser.add_argument("count", type=int, help="the number of seeds")
    parser.add_argument("--jobs", type=int, default=2, help="how many seeds at a time (%(default)s)")
    for name, default in options.items():
        parser.add_argument(f"--{name}", default=default, help="the built program (%(default)s)")
    return parser


def judge_seeds(words: argparse.Namespace, judge: Callable[[int], Judgement], more: Callable[[], Iterable[str]] = tuple) -> int:
    """Judges the seeds, prints what was found and the lines of `more`, and returns the status: 0 if nothing is wrong."""
    counts: collections.Counter[str] = collections.Counter()
    wrong, start = 0, time.monotonic()
    with concurrent.futures.ThreadPoolExecutor(words.jobs) as pool:
        seeds = range(words.seed, words.seed + words.count)
        for seed, (faults, occurred) in zip(seeds, pool.map(judge, seeds)):
            counts.update(occurred)
            if faults:
                wrong += 1
                print(f"seed {seed}:", *faults, sep="\n", flush=True)
    for name in sorted(counts):
        print(f"{counts[name]:6} {name}")
    print(*more(), f"{words.count} seeds in {time.monotonic() - start:.0f} s, {wrong} wrong", sep="\n")
    return 1 if wrong else 0
