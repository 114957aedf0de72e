#!/usr/bin/env python3
"""The positions of the offsets of a mixed text, as the numbers in tests/text_positions.rs: units, lines, surrogate pairs, and a checksum
of the position of each offset, the text's end too."""
PIECES = ["a", "é", "😀", "\n", "\r", "\r\n", "\u2028", "\u2029", "日本", "let x = 1;"]


def mixed():
    seed, pieces = 1, []
    for _ in range(5000):
        seed = (seed * 1103515245 + 12345) % 2**31
        pieces.append(PIECES[(seed >> 16) % len(PIECES)])
    return "".join(pieces)


data = mixed().encode("utf-16-le")
units = [data[i] | data[i + 1] << 8 for i in range(0, len(data), 2)]
line = col = pairs = checksum = 0
for i, unit in enumerate(units + [0]):
    inside = 0xDC00 <= unit < 0xE000
    pairs += inside
    checksum = (checksum * 31 + (7 if inside else line * 65537 + col)) % 2**32
    col += 1
    if unit in (0x0A, 0x2028, 0x2029) or unit == 0x0D and units[i + 1:i + 2] != [0x0A]:
        line, col = line + 1, 0
print(f"{len(units)} units, {line + 1} lines, {pairs} pairs, checksum {checksum}")
