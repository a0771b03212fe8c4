#!/usr/bin/env python3
"""Random inputs of `show`, each made from a seed: random_lines.py SEED

Most are lines of frames, many of them damaged: bits changed, left out or put in, a zero missing behind five ones, a wrong
check sequence, too few or too many bytes, a flag too many or none. In some a line has another form, as with another digit,
blank or number, and so refuses the input; some are bytes of any kind, some are empty. The last line feed may be missing. A
few are as long as an input may be, or a byte longer.
"""
import random
import sys

from frames import FLAG, bits_line, check_sequence, frame_bits

KINDS = [b"raw", b"mst", b"single", b"at"]
MOST_BITS = 19696
MOST_INPUT = 1 << 20
# What stands at the edge of some rule.
COUNTS = [0, 1, 7, 8, 9, 15, 16, 17, MOST_BITS - 1, MOST_BITS, MOST_BITS + 1, 99999, 10**9, 2**32 + 8, 2**64 + 8, 10**30]
LENGTHS = [1, 2, 3, 4, 5, 6, 7, 8, 9, 2047, 2048, 2049, 2050, 2051]


def some_bytes(rng, length):
    """Bytes, often such that they have many ones in a row."""
    return rng.choice([
        lambda: rng.randbytes(length),
        lambda: rng.randbytes(length),
        lambda: bytes([rng.randrange(256)]) * length,
        lambda: bytes(rng.choice([0xff, 0xff, 0x1f, 0xf8, 0x7e, 0x7c, 0x00]) for _ in range(length)),
    ])()


def content(rng):
    """A content, mostly one that some kind of telegram could have."""
    address = bytes([rng.choice([0, 1, 254, 255, 255, rng.randrange(256)])])
    kind = rng.randrange(10)
    if kind < 2:
        return address + bytes([rng.choice([0, 1, 2, 3, 4, 5, 8, rng.randrange(256)])])
    if kind < 4:
        return address + some_bytes(rng, 4)
    if kind < 6:
        return address + some_bytes(rng, rng.randint(4, 40))
    if kind < 9:
        return address + some_bytes(rng, rng.randint(0, 12))
    return address + some_bytes(rng, (rng.choice(LENGTHS) if rng.random() < 0.3 else rng.randint(1, 200)) - 1)


def stuffed(plain):
    """Bits with a zero behind each five ones."""
    bits, ones = [], 0
    for bit in plain:
        bits.append(bit)
        ones = ones + 1 if bit else 0
        if ones == 5:
            bits.append(0)
            ones = 0
    return bits


def ends_in_ones(rng):
    """A content whose check sequence ends in five ones."""
    while True:
        made = content(rng)[:60]
        if check_sequence(made) >= 0xf800:
            return made


def body(rng):
    """Bits between two flags that are hardly those of a frame."""
    plain = [rng.choice([0, 1, 1]) for _ in range(rng.choice([0, 1, 7, 8, 15, 16, 17, 23, 24, 32, 40, rng.randrange(200)]))]
    return FLAG + stuffed(plain) + FLAG


def change(rng, bits):
    for _ in range(rng.choice([1, 1, 2, 3, 6])):
        bits[rng.randrange(len(bits))] ^= 1
    return bits


def leave_out(rng, bits):
    at = rng.randrange(len(bits))
    return bits[:at] + bits[at + rng.choice([1, 1, 2, 8]):]


def put_in(rng, bits):
    at = rng.randrange(len(bits) + 1)
    return bits[:at] + rng.choice([[0], [1], [1] * 5, [1] * 6, [1] * 7, FLAG, [0] * 8]) + bits[at:]


def cut(rng, bits):
    return bits[:rng.randrange(len(bits))] if rng.random() < 0.8 else bits[rng.randrange(len(bits)):]


def go_on(rng, bits):
    return bits + rng.choice([[0], [1], FLAG, FLAG[1:], [rng.randrange(2) for _ in range(rng.randint(1, 80))], [1] * 9])


def next_frame(rng, bits):
    return bits + frame_bits(content(rng))[rng.choice([0, 8]):]


def zero_missing(rng, bits):
    bits = frame_bits(ends_in_ones(rng))
    return bits[:-9] + bits[-8:]


def only_noise(rng, bits):
    return FLAG + [rng.randrange(2) for _ in range(rng.randint(0, 400))]


DAMAGES = [change, change, leave_out, put_in, cut, go_on, next_frame, zero_missing, only_noise, lambda rng, bits: body(rng)]


def bits_of(rng):
    if rng.random() < 0.03:
        return [rng.randrange(2) for _ in range(rng.randrange(30))]
    if rng.random() < 0.003:
        return (FLAG + stuffed([1] * MOST_BITS))[:MOST_BITS - rng.choice([0, 0, 1, 7, 8, 9])]
    bits = frame_bits(ends_in_ones(rng) if rng.random() < 0.05 else content(rng))
    while bits and rng.random() < 0.45:
        bits = rng.choice(DAMAGES)(rng, bits)
    return bits[:MOST_BITS]


def line(rng):
    """A line of the right form."""
    words = bits_line(rng.choice(KINDS), bits_of(rng)).split(b" ")
    case = rng.randrange(3)
    if case == 1:
        words[2] = words[2].upper()
    elif case == 2:
        words[2] = bytes(rng.choice([byte, byte ^ 0x20]) if 0x61 <= byte <= 0x66 else byte for byte in words[2])
    return b" ".join(words)


def put_byte(rng, text, dropped):
    """Another byte, or one more, mostly one that stands in some lines."""
    at = rng.randrange(len(text) + 1)
    byte = rng.randrange(256) if rng.random() < 0.2 else rng.choice(b"0189afAFgG/:@` -\r\t\nrmsx")
    return text[:at] + bytes([byte]) + text[at + dropped:]


def other_count(rng, text):
    words = text.split(b" ")
    if len(words) > 1:
        count = int(words[1]) if words[1].isdigit() and len(words[1]) < 9 else 0
        near = [count + step for step in (-9, -8, -1, 1, 7, 8, 9) if count + step >= 0]
        words[1] = b"%d" % rng.choice(rng.choice([near, COUNTS]))
        if rng.random() < 0.3:
            words[1] = rng.choice([b"0", b"0", b"00", b"+", b"-", b" ", b"0x"]) + words[1]
    return b" ".join(words)


def other_end(rng, text):
    return rng.choice([
        lambda: text[:-1], lambda: text[:-2],
        lambda: text + b"\r", lambda: text + b"0", lambda: text + b"00", lambda: text + b" ",
        lambda: text[:-1] + b"%x" % rng.randrange(16), lambda: text[:-2] + b"%02x" % rng.randrange(256),
        lambda: text[:-2] + b"%xg" % rng.randrange(16), lambda: text[:-2] + b"%x" % rng.randrange(16),
    ])()


def other_line(rng, text):
    return rng.choice([
        lambda: b"", lambda: text[:rng.randrange(len(text))], lambda: text[rng.randrange(len(text)):], lambda: text.upper(),
        lambda: text.replace(b" ", b"  ", 1), lambda: text.replace(b" ", b"\t"), lambda: rng.choice(KINDS) + b" 0 ",
        lambda: rng.choice(KINDS) + b" %d -" % rng.choice(COUNTS),
        lambda: rng.choice(KINDS) + b" 0 -" + rng.choice([b"-", b"0", b""]),
        lambda: rng.choice([b"sing ", b"ms ", b"a ", b"att ", b"raw", b"r", b"s", b"Raw ", b"joint "]) + text,
    ])()


def other_spare(rng, text):
    """Other bits past the last one, with or without something behind them."""
    words = text.split(b" ")
    if len(words) == 3 and words[1].isdigit():
        words[1] = b"%d" % max(1, int(words[1]) - rng.randrange(8))
        words[2] = words[2][:2 * ((int(words[1]) + 7) // 8) - 2] + rng.choice([b"0", b"0", b"8"])
        words[2] += rng.choice([b"%x" % rng.randrange(16), b"g", b""]) + rng.choice([b"", b"0", b"g", b" "])
    return b" ".join(words)


def wrong_line(rng):
    """A line that had the right form and mostly has none any more."""
    text = bits_line(rng.choice(KINDS), bits_of(rng)[:rng.choice([12, 60, 100, MOST_BITS])])
    for _ in range(rng.choice([1, 1, 1, 2])):
        text = rng.choice([
            lambda: put_byte(rng, text, 0), lambda: put_byte(rng, text, 1), lambda: put_byte(rng, text, 2),
            lambda: other_count(rng, text), lambda: other_spare(rng, text), lambda: other_end(rng, text),
            lambda: other_line(rng, text or b"raw"),
        ])()
    return text


def longest(rng):
    """Some line again and again, up to the longest input or one byte more."""
    some = line(rng) + rng.choice([b"\n", b"\nraw 0 -\n"])
    text = some * (MOST_INPUT // len(some) + 2)
    good = b"raw 0 -\n" * (MOST_INPUT // 8)
    return rng.choice([text[:MOST_INPUT], text[:MOST_INPUT + 1], good, good + b"\n", good[:-1], good[:-8] + b"raw 0 -0"])


def source(seed):
    """The input of a seed."""
    rng = random.Random(seed)
    kind = rng.random()
    if kind < 0.005:
        return longest(rng)
    if kind < 0.03:
        noise = rng.randbytes(rng.randrange(40))
        return rng.choice([b"", b"\n", b"\n\n", noise, bytes(rng.randrange(3)), b"\xef\xbb\xbf" + line(rng)])
    lines = [line(rng) for _ in range(rng.choice([1, 2, 3, rng.randint(1, 40)]))]
    if kind < 0.5:
        for _ in range(rng.choice([1, 1, 2])):
            lines.insert(rng.randint(0, min(len(lines), 4)), wrong_line(rng))
    return b"\n".join(lines) + rng.choice([b"\n", b"\n", b"", b"\n\n" if kind < 0.1 else b"\n"])


if __name__ == "__main__":
    sys.stdout.buffer.write(source(int(sys.argv[1])))
