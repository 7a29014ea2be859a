#!/usr/bin/env python3
"""Turns a PPM (P6, 255), as `tinladle picture` writes it, into a PNG: ppm_to_png.py IN.ppm OUT.png [SCALE]

SCALE (default 1) draws each sample as a square of that many pixels.
"""

import re
import struct
import sys
import zlib
from pathlib import Path

HEAD = re.compile(rb"P6\s+(\d+)\s+(\d+)\s+255\s")


def read(data):
    """Width and rows of bytes, three to a sample."""
    head = HEAD.match(data)
    if not head:
        sys.exit("no PPM of 8 bits")
    width, height = int(head[1]), int(head[2])
    samples = data[head.end():]
    if len(samples) != 3 * width * height:
        sys.exit("not of the length that its head says")
    return width, [samples[3 * width * y:3 * width * (y + 1)] for y in range(height)]


def enlarged(row, scale):
    return b"".join(row[i:i + 3] * scale for i in range(0, len(row), 3))


def chunk(kind, data):
    return struct.pack(">I", len(data)) + kind + data + struct.pack(">I", zlib.crc32(kind + data))


def png(width, rows, scale):
    # Each row begins with its filter: 2, the difference from the row above, which packs well.
    lines, above = [], bytes(3 * width * scale)
    for row in rows:
        wide = enlarged(row, scale)
        for _ in range(scale):
            lines.append(b"\2" + bytes((a - b) % 256 for a, b in zip(wide, above)))
            above = wide
    head = struct.pack(">IIBBBBB", width * scale, len(rows) * scale, 8, 2, 0, 0, 0)
    return (b"\x89PNG\r\n\x1a\n" + chunk(b"IHDR", head) + chunk(b"IDAT", zlib.compress(b"".join(lines), 9))
            + chunk(b"IEND", b""))


def main():
    if len(sys.argv) not in (3, 4):
        sys.exit(__doc__)
    width, rows = read(Path(sys.argv[1]).read_bytes())
    Path(sys.argv[2]).write_bytes(png(width, rows, int(sys.argv[3]) if sys.argv[3:] else 1))


if __name__ == "__main__":
    main()
