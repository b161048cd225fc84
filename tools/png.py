#!/usr/bin/env python3
"""png.py OUT.png: the PPM picture on standard input, as a PNG. Only Python's library is used."""
import re
import sys

from sheet import Sheet


def main():
    if len(sys.argv) != 2:
        sys.exit(__doc__)
    data = sys.stdin.buffer.read()
    head = re.match(rb"P6\s+(\d+)\s+(\d+)\s+255\s", data)
    if not head:
        sys.exit("png: not a PPM picture")
    width, height, at = int(head[1]), int(head[2]), head.end()
    if len(data) != at + 3 * width * height:
        sys.exit("png: the picture has another length than it says")
    sheet = Sheet(width, height)
    pixels = [tuple(data[i:i + 3]) for i in range(at, len(data), 3)]
    sheet.rows = [pixels[y * width:(y + 1) * width] for y in range(height)]
    sheet.save(sys.argv[1])


if __name__ == "__main__":
    main()
