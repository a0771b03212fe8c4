#!/usr/bin/env python3
"""Random inputs of `sercos_rings`, each made from a seed: random_several.py SEED

An input has mostly 2 to 4 random ring documents, now and then up to 8, with one cycle time, between lines `next`. In a few
the number of documents, a cycle time, a line of a document or a line `next` is wrong.
"""
import random
import re
import sys

from random_rings import document

CYCLE_TIMES = [125, 250, 500, 500, 1000, 1000]


def with_cycle(text, cycle):
    """A document with this cycle time, which is then that of the control unit too."""
    return re.sub(r"^control = .*\n", "", re.sub(r"^cycle = .*", f"cycle = {cycle}", text, count=1, flags=re.M), flags=re.M)


def with_cycles(text, cycles):
    """A document whose ring runs for so many cycles."""
    return re.sub(r"^cycles = .*", f"cycles = {cycles}", text, count=1, flags=re.M)


def without_line(rng, text):
    lines = text.splitlines(keepends=True)
    del lines[rng.randrange(len(lines))]
    return "".join(lines)


def part(rng, seed, cycle):
    """The document of a seed, as it is, or with a shorter or a longer run."""
    text = with_cycle(document(seed), cycle)
    cycles = rng.choice([None, rng.randint(1, 300), rng.randint(500, 3000), rng.randint(500, 3000)])
    return with_cycles(text, cycles) if cycles else text


def several(seed):
    """The text of the input of a seed."""
    rng = random.Random(f"several {seed}")
    cycle = rng.choice(CYCLE_TIMES) if rng.random() < 0.95 else rng.choice([750, 1250, 2000])
    count = rng.choice([2, 2, 2, 2, 3, 3, 4, rng.randint(5, 8)])
    if rng.random() < 0.04:
        count = rng.choice([1, 9])
    # In half of them the rings are the same, so that they come to phase 3 at the same moment, unless they fall before.
    seeds = [rng.randrange(10**6) for _ in range(rng.choice([1, count]))]
    texts = [part(rng, seeds[k % len(seeds)], cycle) for k in range(count)]
    place = rng.randrange(count)
    if rng.random() < 0.04:
        texts[place] = with_cycle(texts[place], rng.choice(CYCLE_TIMES))
    if rng.random() < 0.08:
        texts[place] = without_line(rng, texts[place])
    if rng.random() < 0.03:
        texts[place] = ""
    line = rng.choice(["next\r\n", " next\n", "next \n", "Next\n"]) if rng.random() < 0.04 else "next\n"
    text = "next\n".join(texts[:place + 1]) + (line + "next\n".join(texts[place + 1:]) if place + 1 < count else "")
    return text + (rng.choice(["next", "next\n", "\n"]) if rng.random() < 0.04 else "")


if __name__ == "__main__":
    sys.stdout.write(several(int(sys.argv[1])))
