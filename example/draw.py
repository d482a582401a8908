#!/usr/bin/env python3
"""draw.py FOLDER: draws the example's art and writes its job: symbols.rgba, wording.rgba, pump.job. Standard library only.

crates/pack/data and crates/verify/data have the three files as this script writes them.
"""
import os
import sys

FINE = 4  # samples a side of a pixel, for alpha at the edges


def picture(w, h, colour, inside):
    """w by h pixels of a colour, as opaque as much of each lies inside."""
    out = bytearray()
    for y in range(h):
        for x in range(w):
            hits = sum(
                inside(x + (i + 0.5) / FINE, y + (j + 0.5) / FINE) for i in range(FINE) for j in range(FINE)
            )
            alpha = 255 * hits // (FINE * FINE)
            out += bytes(colour) + bytes([alpha]) if alpha else bytes(4)
    return w, h, bytes(out)


def disc(cx, cy, r):
    return lambda x, y: (x - cx) ** 2 + (y - cy) ** 2 <= r * r


def box(x0, y0, x1, y1):
    return lambda x, y: x0 <= x <= x1 and y0 <= y <= y1


def under(x0, y0, x1, y1):
    """Below the line through two points."""
    return lambda x, y: (x1 - x0) * (y - y0) - (y1 - y0) * (x - x0) >= 0


def either(*shapes):
    return lambda x, y: any(s(x, y) for s in shapes)


def both(*shapes):
    return lambda x, y: all(s(x, y) for s in shapes)


def but(shape, *holes):
    return lambda x, y: shape(x, y) and not any(s(x, y) for s in holes)


def triangle(x0, y0, x1, y1, x2, y2):
    return both(under(x0, y0, x1, y1), under(x1, y1, x2, y2), under(x2, y2, x0, y0))


AMBER, RED, GREEN, BLUE, INK = (255, 176, 0), (224, 32, 48), (32, 176, 80), (64, 144, 255), (24, 40, 88)

bell = but(either(disc(16, 13, 8), box(8, 13, 24, 22), box(5, 22, 27, 25), disc(16, 27, 2.5), disc(16, 4, 2)), box(0, 31, 32, 32))
drop = either(disc(12, 22, 8), triangle(12, 2, 19.2, 18.4, 4.8, 18.4))
warning = but(triangle(16, 3, 30, 28, 2, 28), box(14.6, 11, 17.4, 20), disc(16, 24, 1.8))
battery = but(either(box(2, 8, 36, 24), box(36, 13, 39, 19)), box(5, 11, 33, 21))
level = box(6, 12, 22, 20)
heart = either(disc(9.5, 10.5, 6.5), disc(20.5, 10.5, 6.5), triangle(3.6, 13.4, 26.4, 13.4, 15, 27))
play = triangle(6, 4, 26, 16, 6, 28)
pause = either(box(6, 5, 12, 27), box(18, 5, 24, 27))
stop = box(5, 5, 25, 25)
lock = either(but(disc(12, 10, 7), disc(12, 10, 4.2), box(0, 10, 24, 24)), box(4, 11, 20, 25))
up = either(triangle(10, 2, 19, 14, 1, 14), box(7, 14, 13, 30))
ring = but(disc(18, 18, 16), disc(18, 18, 13))
clock = either(ring, box(17, 8, 19, 19), box(17, 17, 26, 19))
bar = box(1, 1, 11, 59)  # a tall bar: the packer turns it
fill = but(bar, box(3, 3, 9, 30))

SYMBOLS = [
    picture(32, 32, AMBER, bell),
    picture(24, 32, BLUE, drop),
    picture(32, 32, AMBER, warning),
    picture(40, 32, INK, either(battery, level)),
    picture(30, 30, RED, heart),
    picture(32, 32, GREEN, play),
    picture(30, 32, AMBER, pause),
    picture(30, 30, RED, stop),
    picture(24, 28, INK, lock),
    picture(20, 32, BLUE, up),
    picture(36, 36, INK, clock),
    picture(12, 60, GREEN, fill),
]

LETTERS = {
    "A": "01110 10001 10001 11111 10001 10001 10001",
    "B": "11110 10001 10001 11110 10001 10001 11110",
    "D": "11110 10001 10001 10001 10001 10001 11110",
    "E": "11111 10000 10000 11110 10000 10000 11111",
    "L": "10000 10000 10000 10000 10000 10000 11111",
    "M": "10001 11011 10101 10101 10001 10001 10001",
    "O": "01110 10001 10001 10001 10001 10001 01110",
    "P": "11110 10001 10001 11110 10000 10000 10000",
    "R": "11110 10001 10001 11110 10100 10010 10001",
    "S": "01111 10000 10000 01110 00001 00001 11110",
    "T": "11111 00100 00100 00100 00100 00100 00100",
    "U": "10001 10001 10001 10001 10001 10001 01110",
    "h": "10000 10000 10110 11001 10001 10001 10001",
    "m": "00000 00000 11010 10101 10101 10101 10101",
    "/": "00001 00001 00010 00100 01000 10000 10000",
}


def word(text, colour, scale):
    """A word in letters of 5 by 7 squares, one square of clear margin around it."""
    rows = [LETTERS[c].split() for c in text]
    w, h = (6 * len(text) + 1) * scale, 9 * scale
    def inside(x, y):
        column, row = int(x) // scale - 1, int(y) // scale - 1
        letter, across = divmod(column, 6)
        return 0 <= row < 7 and 0 <= letter < len(text) and across < 5 and rows[letter][row][across] == "1"
    return picture(w, h, colour, inside)


WORDING = [
    word("ALARM", RED, 2),
    word("BOLUS", INK, 2),
    word("STOP", INK, 2),
    word("mL/h", BLUE, 2),
    word("DOSE", GREEN, 2),
]

HEAD = """# An infusion pump's symbols and wording, on pages of 128 by 96.
#      maxw maxh padding border extrusion pages images rotation trim outlines forced
config 128  96   2       1      1         4     64     on       on   off      off
#          r  g  b  a   threshold discard
background 16 24 32 255 none      off
#     key store   offset width height
"""


def main():
    if len(sys.argv) != 2:
        sys.exit(__doc__)
    folder = sys.argv[1]
    lines, key = [], 1
    for store, pictures in (("symbols", SYMBOLS), ("wording", WORDING)):
        data = b""
        for w, h, pixels in pictures:
            lines.append(f"image {key:<3} {store} {len(data):<6} {w:<5} {h}")
            data += pixels
            key += 1
        with open(os.path.join(folder, store + ".rgba"), "wb") as f:
            f.write(data)
    with open(os.path.join(folder, "pump.job"), "w") as f:
        f.write(HEAD + "\n".join(lines) + "\n")


if __name__ == "__main__":
    main()
