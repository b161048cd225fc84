#!/usr/bin/env python3
"""Makes the sample pictures, as TXR files, in the folder given (default: samples). The same bytes each time.

TXR version 1: the mark 'TXR', version 1, the kind, the width and the height (16-bit, little-endian), then level 0 as RGBA bytes,
row by row; a cubemap's six faces one behind the other, +X -X +Y -Y +Z -Z.
"""
import math
import struct
import sys
from pathlib import Path

SRGB, NORMAL, METALLIC_ROUGHNESS, CUBEMAP, LINEAR = range(5)


def grain(x, y, seed):
    """A number in 0 to 1 for each whole place: a hash, so that no library's generator decides the samples."""
    n = (x * 374761393 + y * 668265263 + seed * 2147483647) & 0xFFFFFFFF
    n = ((n ^ (n >> 13)) * 1274126177) & 0xFFFFFFFF
    return ((n ^ (n >> 16)) & 0xFFFF) / 65535.0


def dimple(x, y, size, seed):
    """The height of a hammered surface: the nearest of one dimple a cell, as a bowl; the picture wraps around."""
    cell, best = 6, 9.0
    cells = size // cell
    for cy in range(y // cell - 1, y // cell + 2):
        for cx in range(x // cell - 1, x // cell + 2):
            px = (cx + 0.15 + 0.7 * grain(cx % cells, cy % cells, seed)) * cell
            py = (cy + 0.15 + 0.7 * grain(cx % cells, cy % cells, seed + 1)) * cell
            best = min(best, math.hypot(x + 0.5 - px, y + 0.5 - py) / cell)
    return min(best, 1.0)


def byte(value):
    return max(0, min(255, round(value)))


def hammered_grey(size=96):
    rows = []
    for y in range(size):
        for x in range(size):
            slope = dimple((x + 1) % size, y, size, 7) - dimple(x, y, size, 7)
            value = byte(126 + 260 * slope + 22 * (grain(x, y, 3) - 0.5))
            rows.append((value, value, byte(value + 2), 255))
    return SRGB, size, size, rows


def flat_card(size=64):
    return SRGB, size, size, [(187, 63, 127, 255)] * (size * size)


def normal_map(size=64):
    rows = []
    for y in range(size):
        for x in range(size):
            here = dimple(x, y, size - size % 6, 11)
            dx = dimple(x + 1, y, size - size % 6, 11) - here
            dy = dimple(x, y + 1, size - size % 6, 11) - here
            length = math.sqrt(dx * dx + dy * dy + 0.25)
            rows.append(tuple(byte(127.5 + 127.5 * n / length) for n in (-dx, -dy, 0.5)) + (255,))
    return NORMAL, size, size, rows


def metallic_roughness(width=64, height=48):
    rows = []
    for y in range(height):
        for x in range(width):
            flake = 255 if grain(x, y, 21) > 0.9 else 0
            rows.append((255, byte(60 + 160 * x / (width - 1) + 30 * (grain(x, y, 22) - 0.5)), flake, 255))
    return METALLIC_ROUGHNESS, width, height, rows


def studio(size=32):
    """A booth: grey walls, two lamps on the ceiling (+Y), a dark floor (-Y), a window on +Z."""
    rows = []
    for face in range(6):
        for y in range(size):
            for x in range(size):
                u, v = (x + 0.5) / size * 2 - 1, (y + 0.5) / size * 2 - 1
                value = 90 + 25 * -v if face not in (2, 3) else (70 if face == 2 else 35)
                if face == 2 and abs(abs(u) - 0.45) < 0.16 and abs(v) < 0.75:
                    value = 250
                if face == 4 and abs(u) < 0.5 and -0.6 < v < 0.1:
                    value = 215
                rows.append((byte(value), byte(value), byte(value * 1.02), 255))
    return CUBEMAP, size, size, rows


def spot(x, y, wide, high):
    """1 at (0, 0), and less around it."""
    return math.exp(-(x / wide) ** 2 - (y / high) ** 2)


def sprayed_sheet(width=124, height=86):
    """A coat with faults: a lamp's glare and a glint in the corner, too bright; a scorched patch, too dark; a crater that is both.
    Elsewhere no colour reaches 0 or 255."""
    rows = []
    for y in range(height):
        for x in range(width):
            peel = dimple(x + 1, y, 126, 31) - dimple(x, y, 126, 31)
            coat = 1.08 - 0.25 * y / height + 0.45 * peel + 0.16 * (grain(x, y, 32) - 0.5)
            light = 240 * spot(x - 38, y - 22 - 0.32 * (x - 38), 24, 6.5) + 185 * spot(x - 117, y - 79, 6, 5)
            scorch = spot(x - 86, y - 50 + 0.2 * (x - 86), 17, 10) * (1 + 0.45 * grain(x, y, 33))
            pit = 1.3 * spot(x - 24.5, y - 66.5, 3, 3)
            rim = 520 * spot(x - 25.5, y - 67.5, 4.4, 4.4) * (1 - spot(x - 23.5, y - 65.5, 5.5, 5.5))
            shade = coat * (1 - scorch) * (1 - pit)
            rows.append(tuple(byte(paint * shade + light + rim) for paint in (44, 122, 138)) + (255,))
    return SRGB, width, height, rows


def txr(picture):
    kind, width, height, rows = picture
    return b"TXR" + struct.pack("<HBHH", 1, kind, width, height) + bytes(c for row in rows for c in row)


def main():
    folder = Path(sys.argv[1] if len(sys.argv) > 1 else "samples")
    folder.mkdir(parents=True, exist_ok=True)
    for make in (hammered_grey, flat_card, normal_map, metallic_roughness, studio, sprayed_sheet):
        (folder / f"{make.__name__}.txr").write_bytes(txr(make()))


if __name__ == "__main__":
    main()
