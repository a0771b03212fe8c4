#!/usr/bin/env python3
"""Random captures, each made from a trace and a seed: random_captures.py SEED < TRACE

A capture has the head of the trace and some of its cycles, one after the other, with up to three changes: another number,
a start moved by a few bits or put where a rule has its edge, another digit, a line left out, written twice, moved or cut,
another byte. Some captures have none.
"""
import random
import sys

from frames import frame_bits

MOST_CYCLES = 25


def parts(trace):
    """The head of a trace, and the lines of its cycles by their cycle."""
    lines = trace.splitlines()
    head = 0
    while head < len(lines) and not lines[head].startswith("order"):
        head += 1
    cycles = []
    for line in lines[head + 1:]:
        if line.startswith("m ") or not cycles:
            cycles.append([])
        cycles[-1].append(line)
    return lines[:head + 1], cycles


def window(rng, cycles):
    """Some cycles of a trace, more often those in which a phase begins or the ring is in phases 3 and 4."""
    late = [k for k, lines in enumerate(cycles) if lines[0].startswith("m ") and lines[0][-1] in "34"]
    turns = [k for k, lines in enumerate(cycles) if any(line.startswith("p ") for line in lines)]
    first = rng.choice(rng.choice([places for places in (late, turns, range(len(cycles))) if places]))
    first = max(0, first - rng.randint(0, 2))
    return [line for lines in cycles[first:first + rng.randint(1, MOST_CYCLES)] for line in lines]


def numbers(line):
    """The places of the words of a line that are numbers."""
    return [k for k, word in enumerate(line.split(" ")) if is_number(word)]


def with_word(line, place, word):
    words = line.split(" ")
    words[place] = word
    return " ".join(words)


def is_number(word):
    return word.lstrip("-").isdigit() and len(word) < 12


def is_telegram(line):
    words = line.split(" ")
    return words[0] in ("m", "a", "d") and len(words) == 5 and is_number(words[2]) and is_number(words[3])


def other_number(rng, lines, at):
    places = numbers(lines[at])
    if places:
        place = rng.choice(places)
        number = int(lines[at].split(" ")[place])
        number += rng.choice([-1000, -256, -8, -3, -2, -1, 1, 2, 3, 8, 256, 70000, 5000000000])
        if rng.random() < 0.2:
            number = rng.choice([0, 1, 2, 4, 8, 16, 125, 250, 255, 256, 65535, 65536, 4294967295, 4294967296])
        lines[at] = with_word(lines[at], place, str(number))


def moved_start(rng, lines, at):
    if is_telegram(lines[at]):
        words = lines[at].split(" ")
        lines[at] = with_word(lines[at], 2, str(int(words[2]) + rng.choice([-40, -5, -2, -1, 1, 2, 5, 40])))


def start_at_an_edge(rng, lines, at):
    """Puts an AT or an MDT a number of microseconds after an earlier telegram of its cycle, or at a time of its own."""
    times = [int(word) for line in lines if line.startswith("drive ") for word in line.split(" ")[3:9] if is_number(word)]
    ring = [int(word) for line in lines if line.startswith("ring ") for word in line.split(" ") if is_number(word)]
    if lines[at][:1] not in ("a", "d") or not is_telegram(lines[at]) or not times or len(ring) != 5:
        return
    ends = [0]
    for line in reversed(lines[:at]):
        if line.startswith("m"):
            break
        if is_telegram(line):
            before = line.split(" ")
            ends.append(int(before[2]) + int(before[3]))
    wait = rng.choice(times + [ring[3], 0, 300, 650])
    lines[at] = with_word(lines[at], 2, str(rng.choice(ends) + ring[0] * wait + rng.choice([-1, 0, 0, 1])))


def other_digit(rng, lines, at):
    places = [k for k, byte in enumerate(lines[at]) if byte in "0123456789abcdef"]
    if places:
        place = rng.choice(places)
        lines[at] = lines[at][:place] + rng.choice("0123456789abcdef") + lines[at][place + 1:]


def other_byte(rng, lines, at):
    place = rng.randint(0, len(lines[at]))
    byte = rng.choice(["", " ", "-", "0", "9", "f", "g", "F", "\r", "\t", "m", "a", "d"])
    lines[at] = lines[at][:place] + byte + lines[at][place + rng.randint(0, 1):]


def left_out(_rng, lines, at):
    del lines[at]


def written_twice(_rng, lines, at):
    lines.insert(at, lines[at])


def moved(rng, lines, at):
    line = lines.pop(at)
    lines.insert(max(0, min(len(lines), at + rng.choice([-3, -2, -1, 1, 2, 3]))), line)


def cut(rng, lines, at):
    lines[at] = lines[at][:rng.randint(0, len(lines[at]))]


CHANGES = [other_number, moved_start, start_at_an_edge, start_at_an_edge, other_digit, other_byte, left_out, written_twice, moved, cut]


def capture(seed, trace):
    """The capture of a seed, made from a trace."""
    rng = random.Random(seed)
    head, cycles = parts(trace)
    lines = list(head)
    if cycles:
        lines += window(rng, cycles)
    for _ in range(rng.choice([0, 1, 1, 1, 2, 3])):
        if lines:
            in_head = rng.random() < 0.15
            at = rng.randrange(min(len(head), len(lines)) if in_head else len(lines))
            rng.choice(CHANGES)(rng, lines, at)
    text = "\n".join(lines)
    return text + "\n" if rng.random() < 0.9 else text


# The changes of one telegram in a capture for `replay`.

def other_content(rng, lines, at):
    """Another digit in the content of a telegram, with the length of its frame."""
    words = lines[at].split(" ")
    place = rng.randrange(1 if words[0] == "m" else 2, len(words[4]))
    words[4] = words[4][:place] + rng.choice("0123456789abcdef") + words[4][place + 1:]
    bits = len(frame_bits(bytes.fromhex(words[4])))
    if words[0] == "m":
        words[2] = str(-bits)
    words[3] = str(bits)
    lines[at] = " ".join(words)


def at_or_mdt_left_out(rng, lines, at):
    if lines[at][0] != "m":
        del lines[at]


def later_start(rng, lines, at):
    if lines[at][0] != "m":
        lines[at] = with_word(lines[at], 2, str(int(lines[at].split(" ")[2]) + rng.choice([1, 1, 2, 4])))


def replayed(seed, document, trace):
    """The address and the input of a seed for `replay`: a document, the line that divides, and the first cycles of a trace of it, in
    which up to two telegrams are other ones, missing, or elsewhere."""
    rng = random.Random(f"replay {seed}")
    head, cycles = parts(trace)
    addresses = [line.split(" ")[1] for line in head if line.startswith("drive ")]
    address = rng.choice(["0"] + addresses + (["254"] if rng.random() < 0.05 else []))
    last = rng.randint(1, max(1, len(cycles)))
    lines = [line for cycle in cycles[:last] for line in cycle]
    for _ in range(rng.choice([0, 1, 1, 1, 2])):
        places = [k for k, line in enumerate(lines) if is_telegram(line)]
        change = rng.choice([other_content] * 6 + [at_or_mdt_left_out] * 6 + [later_start] * 3 + [left_out, written_twice, moved, moved_start])
        if places:
            change(rng, lines, rng.choice(places[-60:] if rng.random() < 0.5 else places))
    text = "\n".join(head + lines)
    return address, document.rstrip("\n") + "\ncapture\n" + text + ("\n" if rng.random() < 0.9 else "")


if __name__ == "__main__":
    sys.stdout.write(capture(int(sys.argv[1]), sys.stdin.read()))
