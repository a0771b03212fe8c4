"""How many bits a telegram has on the ring. docs/PROTOCOL.md, section 'Frames', has the rules."""

FLAGS = 16


def most_bits(content_bytes: int) -> int:
    """The most bits that a frame of a content of so many bytes has: one inserted zero for each five plain bits."""
    plain = 8 * (content_bytes + 2)
    return FLAGS + plain + plain // 5


def after_bits(rest: int) -> int:
    """The check sequence's rest after eight zeros."""
    for _ in range(8):
        rest = rest >> 1 ^ (0x8408 if rest & 1 else 0)
    return rest


def stuffed(ones: int, byte: int) -> tuple[int, int]:
    """How many zeros are inserted in a byte after so many ones, and how many ones are at its end."""
    zeros = 0
    for place in range(8):
        ones = ones + 1 if byte >> place & 1 else 0
        if ones == 5:
            zeros, ones = zeros + 1, 0
    return zeros, ones


RESTS = [after_bits(byte) for byte in range(256)]
STUFFED = [[stuffed(ones, byte) for byte in range(256)] for ones in range(5)]


def check_sequence(content: bytes) -> int:
    """The check sequence of ISO/IEC 3309."""
    rest = 0xFFFF
    for byte in content:
        rest = rest >> 8 ^ RESTS[(rest ^ byte) & 0xFF]
    return rest ^ 0xFFFF


def frame_bits(content: bytes) -> int:
    """The bits of the frame of a content: flags, content, check sequence, and a zero after each five ones in a row."""
    plain = content + check_sequence(content).to_bytes(2, "little")
    bits, ones = FLAGS + 8 * len(plain), 0
    for byte in plain:
        zeros, ones = STUFFED[ones][byte]
        bits += zeros
    return bits
