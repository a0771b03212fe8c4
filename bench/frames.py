"""Frames, bit by bit: what the benchmark and the random rings need of them."""

FLAG = [0, 1, 1, 1, 1, 1, 1, 0]


def check_sequence(content):
    register = 0xFFFF
    for byte in content:
        for place in range(8):
            bit = (register ^ byte >> place) & 1
            register = register >> 1 ^ (0x8408 if bit else 0)
    return register ^ 0xFFFF


def frame_bits(content):
    """The bits of the frame of a content, as a list of 0 and 1."""
    check = check_sequence(content)
    bits, ones = [], 0
    for byte in content + bytes([check & 255, check >> 8]):
        for place in range(8):
            bit = byte >> place & 1
            bits.append(bit)
            ones = ones + 1 if bit else 0
            if ones == 5:
                bits.append(0)
                ones = 0
    return FLAG + bits + FLAG


def bits_line(kind, bits):
    """The line of `show` for some bits."""
    spelled = bytearray((len(bits) + 7) // 8)
    for place, bit in enumerate(bits):
        spelled[place // 8] |= bit << place % 8
    return b"%s %d %s" % (kind, len(bits), spelled.hex().encode() or b"-")
