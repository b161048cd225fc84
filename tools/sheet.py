#!/usr/bin/env python3
"""A sheet of a picture, as a PNG.

    sheet.py CHAIN PICTURE.txr OUT.png                     each level in its own size, and enlarged to the size of level 0
    sheet.py CHAIN PICTURE.txr OUT.png --accident          what a station showed as the picture after each reopening, beside it
    sheet.py CHAIN PICTURE.txr OUT.png --saturated RANGES  level 0, and beside it the same with its saturated tiles framed

CHAIN and RANGES are the programs made of tools/chain.c and tools/ranges.c, each behind the words that run it: levels and ranges are
the unit's own, nothing is reduced here. Only Python's library is used.
"""
import itertools
import struct
import subprocess
import sys
import zlib
from pathlib import Path

BACK, INK, GAP, LABEL = (24, 26, 28), (214, 214, 208), 12, 16
BRIGHT, DARK, KEY = (255, 196, 0), (255, 64, 129), 164  # the two frames, and how wide the key to each is
FONT = {  # five rows of three dots, from the top
    "0": (7, 5, 5, 5, 7), "1": (2, 6, 2, 2, 7), "2": (7, 1, 7, 4, 7), "3": (7, 1, 7, 1, 7), "4": (5, 5, 7, 1, 1),
    "5": (7, 4, 7, 1, 7), "6": (7, 4, 7, 5, 7), "7": (7, 1, 1, 2, 2), "8": (7, 5, 7, 5, 7), "9": (7, 5, 7, 1, 7),
    "x": (0, 5, 2, 5, 0), " ": (0, 0, 0, 0, 0), ":": (0, 2, 0, 2, 0), "L": (4, 4, 4, 4, 7), "E": (7, 4, 7, 4, 7),
    "V": (5, 5, 5, 5, 2), "O": (7, 5, 5, 5, 7), "P": (7, 5, 7, 4, 4), "N": (7, 5, 5, 5, 5), "D": (6, 5, 5, 5, 6),
    "T": (7, 2, 2, 2, 2), "R": (6, 5, 6, 5, 5), "U": (5, 5, 5, 5, 7), "S": (7, 4, 7, 1, 7), "H": (5, 5, 7, 5, 5),
    "W": (5, 5, 7, 7, 5), "A": (7, 5, 7, 5, 5), "I": (7, 2, 2, 2, 7), "G": (7, 4, 5, 5, 7), "F": (7, 4, 7, 4, 4),
    "C": (7, 4, 4, 4, 7),
}


def header(data):
    mark, version, kind, width, height = struct.unpack_from("<3sHBHH", data)
    if mark != b"TXR" or version != 1:
        sys.exit("sheet: not a TXR picture of version 1")
    return kind, width, height


def asked(program, picture):
    """What the program writes for the picture."""
    run = subprocess.run(program.split(), input=Path(picture).read_bytes(), capture_output=True)
    if run.returncode:
        sys.exit(f"sheet: {picture}: {run.stderr.decode().strip()}")
    return run.stdout


def levels(chain, picture):
    """Each level as (width, height, rows of (r, g, b)); a cubemap's faces stand below each other."""
    kind, width, height = header(Path(picture).read_bytes())
    written = asked(chain, picture)
    faces, at, found = (6 if kind == 3 else 1), 0, []
    for m in range(max(width, height).bit_length()):
        w, h = max(1, width >> m), faces * max(1, height >> m)
        texels = [tuple(written[i:i + 3]) for i in range(at, at + 4 * w * h, 4)]
        found.append((w, h, [texels[y * w:(y + 1) * w] for y in range(h)]))
        at += 4 * w * h
    return found


class Sheet:
    def __init__(self, width, height):
        self.width, self.height = width, height
        self.rows = [[BACK] * width for _ in range(height)]

    def picture(self, left, top, level, width, height):
        """The level enlarged to width by height, each texel a plain rectangle."""
        w, h, rows = level
        for y in range(height):
            row = rows[y * h // height]
            self.rows[top + y][left:left + width] = [row[x * w // width] for x in range(width)]

    def text(self, left, top, words):
        for i, letter in enumerate(words.upper().replace("X", "x")):
            for y, bits in enumerate(FONT.get(letter, FONT[" "])):
                for x in range(3):
                    if bits >> (2 - x) & 1:
                        for dy in (0, 1):
                            for dx in (0, 1):
                                self.rows[top + 2 * y + dy][left + 8 * i + 2 * x + dx] = INK

    def frame(self, left, top, right, bottom, colour, thick=2):
        for y in range(top, bottom):
            for x in range(left, right):
                if min(x - left, right - 1 - x, y - top, bottom - 1 - y) < thick:
                    self.rows[y][x] = colour

    def save(self, path):
        raw = b"".join(b"\0" + bytes(c for pixel in row for c in pixel) for row in self.rows)

        def chunk(name, body):
            return struct.pack(">I", len(body)) + name + body + struct.pack(">I", zlib.crc32(name + body))

        head = struct.pack(">IIBBBBB", self.width, self.height, 8, 2, 0, 0, 0)
        Path(path).write_bytes(b"\x89PNG\r\n\x1a\n" + chunk(b"IHDR", head) + chunk(b"IDAT", zlib.compress(raw, 9)) + chunk(b"IEND", b""))


def contact(found):
    """Two rows: every level texel for texel at one scale, and every level enlarged to the size of level 0."""
    w, h = found[0][:2]
    scale = max(1, 128 // w)
    cell = max(w * scale, 8 * len("level 00"))
    high = h * scale
    sheet = Sheet(GAP + len(found) * (cell + GAP), 2 * (high + GAP) + 3 * LABEL + GAP)
    for m, level in enumerate(found):
        left = GAP + m * (cell + GAP)
        sheet.text(left, GAP, f"level {m}")
        sheet.text(left, GAP + LABEL, f"{level[0]}x{level[1]}")
        sheet.picture(left, GAP + 2 * LABEL, level, level[0] * scale, level[1] * scale)
        sheet.picture(left, 2 * GAP + 2 * LABEL + high, level, w * scale, h * scale)
    return sheet


def accident(found, openings=5):
    """Above, the picture as it is at each opening; below, what is shown as it once each opening saved level 1 over it."""
    w, h = found[0][:2]
    scale = max(1, 192 // w)
    width, high = w * scale, h * scale
    shown = found[:openings + 1]
    sheet = Sheet(GAP + len(shown) * (width + GAP), 2 * (high + GAP) + 3 * LABEL + GAP)
    for n, level in enumerate(shown):
        left = GAP + n * (width + GAP)
        sheet.text(left, GAP, f"opening {n}: level 0")
        sheet.picture(left, GAP + LABEL, found[0], width, high)
        sheet.text(left, 2 * GAP + LABEL + high, f"shown: level {n}")
        sheet.picture(left, 2 * GAP + 2 * LABEL + high, level, width, high)
    return sheet


def framed(level, ranges):
    """Each tile's corners in texels, and its frames: one if a colour in it reaches 255, one if one reaches 0; alpha makes none."""
    w, h = level[:2]
    for n, (y, x) in enumerate(itertools.product(range(0, h, 16), range(0, w, 16))):
        smallest, largest = ranges[8 * n:8 * n + 6:2], ranges[8 * n + 1:8 * n + 6:2]
        yield (x, y, min(x + 16, w), min(y + 16, h)), [BRIGHT] * (255 in largest) + [DARK] * (0 in smallest)


def saturated(level, ranges):
    """Left, level 0; right, the same with its saturated tiles framed, one frame inside the other where there are two."""
    w, h = level[:2]
    scale = max(1, 512 // max(w, h))
    cell, high, tiles = max(w * scale, 2 * KEY), h * scale, list(framed(level, ranges))
    right, top, below = 2 * GAP + cell, GAP + LABEL, 2 * GAP + LABEL + high
    sheet = Sheet(right + cell + GAP, below + LABEL + GAP)
    sheet.text(GAP, GAP, f"level 0: {w}x{h}")
    sheet.text(right, GAP, f"saturated tiles: {sum(bool(frames) for _, frames in tiles)} of {len(tiles)}")
    for left in (GAP, right):
        sheet.picture(left, top, level, w * scale, high)
    for corners, frames in tiles:
        x0, y0, x1, y1 = (scale * c for c in corners)
        for inset, colour in zip((0, 4), frames):
            sheet.frame(right + x0 + inset, top + y0 + inset, right + x1 - inset, top + y1 - inset, colour)
    for left, colour, words in ((right, BRIGHT, "a colour at 255"), (right + KEY, DARK, "a colour at 0")):
        sheet.frame(left, below, left + 12, below + 12, colour)
        sheet.text(left + 18, below + 1, words)
    return sheet


def main():
    if len(sys.argv) < 4:
        sys.exit(__doc__)
    chain, picture, out, *how = sys.argv[1:]
    found = levels(chain, picture)
    if not how:
        sheet = contact(found)
    elif how == ["--accident"]:
        sheet = accident(found)
    elif how[0] == "--saturated" and len(how) == 2:
        sheet = saturated(found[0], asked(how[1], picture))
    else:
        sys.exit(__doc__)
    sheet.save(out)
    print(f"{out}: {picture}")


if __name__ == "__main__":
    main()
