"""The sRGB table T and the index of its inverse, worked out by whole numbers.

    python3 tools/curve.py curve    prints the constant CURVE of crates/texel/src/curve.rt
    python3 tools/curve.py index    prints the constant INDEX of crates/texel/src/index.rt

Nothing relies on this script: the check proves that both tables keep their rules.
"""
import struct
import sys

UNIT = 149  # a value is counted in units of 2^-149, the smallest f32


def value(pattern):
    """The value of a bit pattern, in units."""
    if pattern < 1 << 23:
        return pattern
    return ((1 << 23) + pattern % (1 << 23)) << (pattern // (1 << 23) - 1)


def side(k, units):
    """Where a number of half units lies beside the curve at byte k: below 0 under it, 0 on it, above 0 over it."""
    if k <= 10:
        return units * 329460 - (100 * k << UNIT + 1)
    return units**5 * 269025**12 - ((1000 * k + 14025) ** 12 << 5 * (UNIT + 1))


def nearest(k):
    """The pattern of the f32 nearest the curve at byte k; a tie goes to the even one."""
    low, high = 0, 0x3F800000
    while low < high:
        middle = (low + high) // 2
        half_way = side(k, value(middle) + value(middle + 1))
        if half_way < 0 or half_way == 0 and middle % 2 == 1:
            low = middle + 1
        else:
            high = middle
    return low


def literal(pattern):
    """The shortest decimal that reads back as the pattern's value."""
    wanted = struct.unpack("<f", struct.pack("<I", pattern))[0]
    for digits in range(1, 20):
        text = f"{wanted:.{digits}f}".rstrip("0")
        if struct.unpack("<f", struct.pack("<f", float(text + "0")))[0] == wanted:
            return text + "0" if text.endswith(".") else text


def constant(name, kind, entries):
    print(f"const {name}: [{kind}; {len(entries)}] = [")
    for entry in entries:
        print(f"    {entry},")
    print("];")


patterns = [nearest(k) for k in range(256)]
if sys.argv[1:] == ["curve"]:
    constant("CURVE", "f32", [literal(p) for p in patterns])
elif sys.argv[1:] == ["index"]:
    # Bucket i holds the patterns whose upper half is base + i, and at most one value of the table past its first pattern. Entry i is
    # the last byte whose value lies below the bucket's end: for a mean in the bucket the answer is that byte or the one before it.
    base = patterns[1] >> 16
    ends = [(base + i + 1) << 16 for i in range((patterns[255] >> 16) - base + 1)]
    constant("INDEX", "u8", [max(k for k in range(256) if patterns[k] < end) for end in ends])
else:
    sys.exit(__doc__)
