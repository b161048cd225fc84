#!/usr/bin/env python3
"""listing_runs.py: writes crates/listing_runs/stdin, the inputs, and crates/listing_runs/stdout, the lines they must give.

The answers are worked out here from document 01's text alone, in Python, and from nothing that Rattle proves or runs.
An input stands in stdin behind its length, two bytes little-endian. Each f32 operation is done in double and rounded to f32:
for + - * / and the square root that is the operation rounded once. Each T(k) is found by exact fractions."""
import math
import pathlib
import struct
from fractions import Fraction

SRGB, NORMAL, METALLIC_ROUGHNESS, CUBEMAP, LINEAR = range(5)


def f32(x):
    return struct.unpack("<f", struct.pack("<f", x))[0]


def float_of(pattern):
    return struct.unpack("<f", struct.pack("<I", pattern))[0]


# ---- reducing


def unpack(byte):
    return f32(byte / 255.0)


def pack(value):
    return int(f32(value * 255.0))


def mean(values):
    a, b, c, d = values
    return f32(f32(f32(f32(a + b) + c) + d) / 4.0)


def mean_byte(k):
    return pack(mean([unpack(b) for b in k]))


def normal_byte(k):
    m = mean([f32(f32(unpack(b) * 2.0) - 1.0) for b in k])
    return pack(f32(f32(m + 1.0) / 2.0))


def rough_byte(k):
    return pack(f32(math.sqrt(mean([f32(unpack(b) * unpack(b)) for b in k]))))


def below_curve(x, k):
    """Whether the fraction x is below the exact curve at k; None where it is the curve."""
    if k <= 10:
        power, curve = 1, Fraction(100 * k, 329460)
    else:
        power, curve = 5, Fraction(1000 * k + 14025, 269025) ** 12
    return None if x ** power == curve else x ** power < curve


def curve_at(k):
    """T(k): the f32 nearest the exact curve at k. The greatest pattern whose float is not above the curve, or the next one."""
    low, high = 0, 0x3F800001
    while high - low > 1:
        middle = (low + high) // 2
        if below_curve(Fraction(float_of(middle)), k) is False:
            high = middle
        else:
            low = middle
    half = (Fraction(float_of(low)) + Fraction(float_of(low + 1))) / 2
    side = below_curve(half, k)
    return float_of(low + (low % 2 if side is None else side))


CURVE = [curve_at(k) for k in range(256)]


def srgb_byte(k):
    m = mean([CURVE[b] for b in k])
    return max(t for t in range(256) if CURVE[t] <= m)


def first_byte(k):
    return k[0]


CHANNELS = {
    SRGB: [srgb_byte, srgb_byte, srgb_byte, mean_byte],
    NORMAL: [normal_byte] * 4,
    METALLIC_ROUGHNESS: [first_byte, rough_byte, mean_byte, first_byte],
    CUBEMAP: [mean_byte] * 4,
    LINEAR: [mean_byte] * 4,
}


def reduce(kind, texels):
    channels = CHANNELS[kind]
    return tuple(channels[i]([t[i] for t in texels]) for i in range(4))


def next_face(kind, face, w, h):
    made = []
    for y in range(max(1, h // 2)):
        for x in range(max(1, w // 2)):
            x0, y0 = 2 * x, 2 * y
            x1, y1 = min(x0 + 1, w - 1), min(y0 + 1, h - 1)
            made.append(reduce(kind, [face[y0 * w + x0], face[y0 * w + x1], face[y1 * w + x0], face[y1 * w + x1]]))
    return made


# ---- sizes and the listing


def sizes(w, h):
    levels = max(w, h).bit_length()
    return [(max(1, w >> m), max(1, h >> m)) for m in range(levels)]


def chain_count(kind, w, h):
    return (6 if kind == CUBEMAP else 1) * sum(a * b for a, b in sizes(w, h))


def refusal(data):
    if len(data) < 10 or data[:3] != b"TXR" or data[3] + 256 * data[4] != 1:
        return 12
    kind, w, h = data[5], data[6] + 256 * data[7], data[8] + 256 * data[9]
    if kind > 4:
        return 1
    if not (1 <= w <= 4096 and 1 <= h <= 4096):
        return 2
    if chain_count(kind, w, h) > 16384:
        return 3
    if len(data) != 10 + 4 * (6 if kind == CUBEMAP else 1) * w * h:
        return 12
    return 0


def listing(data):
    number = refusal(data)
    if number:
        return f"refused {number}\n"
    kind, w, h = data[5], data[6] + 256 * data[7], data[8] + 256 * data[9]
    texels = [tuple(data[i:i + 4]) for i in range(10, len(data), 4)]
    faces = [texels[i:i + w * h] for i in range(0, len(texels), w * h)]
    lines = []
    for m, (a, b) in enumerate(sizes(w, h)):
        lines.append(f"{m} {a} {b} " + "".join(f"{byte:02X}" for byte in faces[0][0]) + "\n")
        faces = [next_face(kind, face, a, b) for face in faces]
    return "".join(lines)


# ---- the inputs


def header(kind, w, h, mark=b"TXR", version=1):
    return mark + struct.pack("<HBHH", version, kind, w, h)


def some_bytes(n, seed):
    made = bytearray()
    for _ in range(n):
        seed = (seed * 1103515245 + 12345) % 2 ** 31
        made.append(seed >> 16 & 255)
    return bytes(made)


def picture(kind, w, h, seed):
    return header(kind, w, h) + some_bytes(4 * (6 if kind == CUBEMAP else 1) * w * h, seed)


def inputs():
    one = picture(LINEAR, 1, 1, 1)
    # document 01's example, and its reference items 5 to 8
    yield header(LINEAR, 2, 1) + bytes.fromhex("00FF00FF FF0000FF")
    yield header(NORMAL, 2, 1) + bytes.fromhex("01FF80FF 01FF80FF")
    yield header(METALLIC_ROUGHNESS, 2, 1) + bytes.fromhex("11FF0022 3300FF44")
    yield header(SRGB, 2, 1) + bytes.fromhex("FF0000FF 000000FF")
    # one picture of each kind, an odd picture of each, the longest row and column, the smallest picture
    for kind in range(5):
        yield picture(kind, 8, 8, 10 + kind)
        yield picture(kind, 5, 3, 20 + kind)
    yield picture(SRGB, 4096, 1, 30)
    yield picture(NORMAL, 1, 300, 31)
    yield picture(CUBEMAP, 1, 1, 32)
    yield one
    # 12: fewer than 10 bytes, mark or version wrong
    yield b""
    yield one[:9]
    yield header(LINEAR, 1, 1, mark=b"UXR") + one[10:]
    yield header(LINEAR, 1, 1, mark=b"TYR") + one[10:]
    yield header(LINEAR, 1, 1, mark=b"TXS") + one[10:]
    yield header(LINEAR, 1, 1, mark=b"txr") + one[10:]
    for version in (0, 2, 256, 257):
        yield header(LINEAR, 1, 1, version=version) + one[10:]
    # 1, before 2 and 12
    yield header(5, 1, 1) + one[10:]
    yield header(255, 0, 0)
    # 2, before 12
    yield header(LINEAR, 0, 1) + one[10:]
    yield header(LINEAR, 1, 0)
    yield header(LINEAR, 4097, 1)
    yield header(CUBEMAP, 1, 65535)
    # 3, before 12: a chain of 16,385 texels, and six faces of one that alone would pass; then chains of 16,384 and fewer, 12
    for w, h in ((128, 128), (4096, 4096), *counted(16385)[:1]):
        yield header(LINEAR, w, h)
    yield header(CUBEMAP, 64, 64)
    for w, h in counted(16384)[:1]:
        yield header(LINEAR, w, h)
    yield header(LINEAR, 64, 64)
    # 12: length not exact
    yield one[:10]
    yield one[:13]
    yield one + b"\0"
    yield picture(CUBEMAP, 1, 1, 33)[:14]


def counted(texels):
    """Sides whose chain has so many texels."""
    return [(w, h) for w in range(1, 4097) for h in range(1, 20000 // w + 1) if h <= 4096 and chain_count(LINEAR, w, h) == texels]


def main():
    runs = list(inputs())
    folder = pathlib.Path(__file__).parent.parent / "crates" / "listing_runs"
    (folder / "stdin").write_bytes(b"".join(struct.pack("<H", len(run)) + run for run in runs))
    (folder / "stdout").write_text("".join(listing(run) for run in runs))


if __name__ == "__main__":
    main()
