#!/usr/bin/env python3
"""page_to_png.py PAGE WIDTH HEIGHT OUT.png [SCALE [checks]]

Turns a page file (raw RGBA8 rows, as `pack` writes them) into a PNG picture, each pixel SCALE pixels wide and high. With `checks` what is clear
shows a grey checkerboard; without it the picture is as clear as the page. Standard library only.
"""
import struct
import sys
import zlib


def chunk(kind, data):
    return struct.pack(">I", len(data)) + kind + data + struct.pack(">I", zlib.crc32(kind + data))


def png(width, height, rows):
    head = struct.pack(">IIBBBBB", width, height, 8, 6, 0, 0, 0)  # 8 bits a part, RGBA
    data = b"".join(b"\0" + row for row in rows)  # 0: the row as it is
    return b"\x89PNG\r\n\x1a\n" + chunk(b"IHDR", head) + chunk(b"IDAT", zlib.compress(data, 9)) + chunk(b"IEND", b"")


def on_checks(pixel, x, y):
    grey = 255 if (x // 2 + y // 2) % 2 else 216
    alpha = pixel[3]
    return bytes((part * alpha + grey * (255 - alpha)) // 255 for part in pixel[:3]) + b"\xff"


def main():
    if len(sys.argv) not in (5, 6, 7):
        sys.exit(__doc__)
    width, height = int(sys.argv[2]), int(sys.argv[3])
    scale = int(sys.argv[5]) if len(sys.argv) > 5 else 1
    checks = len(sys.argv) > 6
    with open(sys.argv[1], "rb") as f:
        page = f.read()
    if len(page) != 4 * width * height:
        sys.exit(f"{sys.argv[1]} has {len(page)} bytes, not {4 * width * height}")
    rows = []
    for y in range(height):
        pixels = [page[4 * (width * y + x) :][:4] for x in range(width)]
        if checks:
            pixels = [on_checks(p, x, y) for x, p in enumerate(pixels)]
        rows += [b"".join(p * scale for p in pixels)] * scale
    with open(sys.argv[4], "wb") as f:
        f.write(png(width * scale, height * scale, rows))


if __name__ == "__main__":
    main()
