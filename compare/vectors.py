#!/usr/bin/env python3
"""Writes the test vectors of crates/float_vectors/stdin. The same lines come at every run."""

import random
import struct

NAN, INF = float("nan"), float("inf")


def bits32(x):
    return struct.unpack("<I", struct.pack("<f", x))[0]


def bits64(x):
    return struct.unpack("<Q", struct.pack("<d", x))[0]


def single(bits):
    return struct.unpack("<f", struct.pack("<I", bits))[0]


def double(bits):
    return struct.unpack("<d", struct.pack("<Q", bits))[0]


def word32(x):
    if x != x:
        return "nan"
    assert single(bits32(x)) == x, f"{x!r} is no f32"
    return f"{bits32(x):08x}"


def word64(x):
    return "nan" if x != x else f"{bits64(x):016x}"


def around32(x):
    """x between its two neighbours, the one nearer to zero first."""
    return [single(bits32(x) - 1), x, single(bits32(x) + 1)]


def around64(x):
    return [double(bits64(x) - 1), x, double(bits64(x) + 1)]


def both(numbers):
    return [sign * x for x in numbers for sign in (1.0, -1.0)]


SMALL32 = [0.0, 2.0**-149, 2.0**-126 - 2.0**-149, 2.0**-126]
SMALL64 = [0.0, 2.0**-1074, 2.0**-1022 - 2.0**-1074, 2.0**-1022]
MOST32 = 2.0**128 - 2.0**104
MOST64 = double(0x7FEFFFFFFFFFFFFF)
EDGES32 = [NAN] + both([INF, MOST32] + SMALL32 + around32(1.0))
EDGES64 = [NAN] + both([INF, MOST64] + SMALL64 + around64(1.0))


def in_groups(numbers, size=4):
    """The last group is filled up with zeros."""
    numbers = numbers + [0.0] * (-len(numbers) % size)
    return [numbers[i : i + size] for i in range(0, len(numbers), size)]


def say(text):
    print(f"# {text}")


def bucket(x):
    print("bucket", word32(x))


def narrow(size, numbers):
    """For an outline's key and for a bitmap's."""
    for kind in "ob":
        print("narrow", kind, word32(size), *map(word64, numbers))


def metrics(box, scale=1.0):
    print("metrics", *map(word64, box), word64(scale))


def bitmap(width, height):
    print("bitmap", width, height)


def supports(kind, linear):
    print("supports", kind, *map(word64, linear))


def finite(shape, numbers):
    print("finite", shape, *map(word32 if shape == "color" else word64, numbers))


def replaced(numbers, place, x):
    return numbers[:place] + [x] + numbers[place + 1 :]


def buckets():
    say("bucket: NaN, infinities, the largest numbers, zeros, subnormals, the smallest normal number, 1 and its neighbours")
    for x in EDGES32:
        bucket(x)
    say("bucket: the thresholds 1/8, 3/8, 5/8, 7/8 and their neighbours")
    eighths = [0.125, 0.375, 0.625, 0.875]
    for t in eighths:
        for x in both(around32(t)):
            bucket(x)
    say("bucket: quarters")
    for x in both([0.25, 0.5, 0.75]):
        bucket(x)
    say("bucket: -(3/8 + 2^-25) and -(3/8 + 2^-24), whose sums with 1 are a tie and exact")
    bucket(-(0.375 + 2.0**-25))
    bucket(-(0.375 + 2.0**-24))
    say("bucket: small negative fractions, whose sums with 1 round to 1 or just below")
    for x in around32(2.0**-25) + [2.0**-24, 3 * 2.0**-26]:
        bucket(-x)
    say("bucket: the thresholds after a whole number")
    for t in eighths:
        for x in both(around32(1.0 + t)):
            bucket(x)
    for x in both([2.0**20 + t for t in eighths]):
        bucket(x)
    say("bucket: where fractions end")
    for x in both([2.0**21 + 0.25, 2.0**21 + 0.75, 2.0**22 + 0.5, 8388607.5, 2.0**23, 2.0**23 + 1, 2.0**24]):
        bucket(x)


def narrowings():
    say("narrow: sizes as they are")
    for size in EDGES32:
        narrow(size, [0.0, 0.0, 4.0, 0.1])
    say("narrow: infinities, the largest numbers, zeros, subnormals, the smallest normal number, 1 and its neighbours")
    for four in in_groups(EDGES64[1:]):
        narrow(16.0, four)
    say("narrow: half way between two f32, to the even one, down and up")
    for tie in (1 + 2.0**-24, 1 + 3 * 2.0**-24):
        for four in in_groups(both(around64(tie))):
            narrow(16.0, four)
    say("narrow: at the largest f32; half way past it comes infinity")
    for x in (MOST32, 2.0**128 - 2.0**103, 2.0**128):
        for four in in_groups(both(around64(x))):
            narrow(16.0, four)
    say("narrow: subnormal f32, half way between two, and below the smallest")
    for x in (2.0**-126, 2.0**-126 - 2.0**-150, 5 * 2.0**-150, 3 * 2.0**-150, 2.0**-149, 2.0**-150, 2.0**-151):
        for four in in_groups(both(around64(x))):
            narrow(16.0, four)
    say("narrow: a NaN in one place, and in all")
    for place in range(4):
        narrow(16.0, replaced([1.0, INF, 4.0, 0.1], place, NAN))
    narrow(NAN, [NAN] * 4)


BOX = [0.5, -2.0, 6.25, 7.5]


def outlines():
    say("metrics: a box, and the same scaled")
    for scale in (1.0, 2.0, 0.5, 1 / 3):
        metrics(BOX, scale)
    for place, name in enumerate(("x0", "y0", "x1", "y1")):
        say(f"metrics: {name} is NaN, an infinity, a largest number, zero, the smallest number or the smallest normal one")
        for x in [NAN] + both([INF, MOST64, 0.0, 2.0**-1074, 2.0**-1022]):
            metrics(replaced(BOX, place, x))
    say("metrics: scales NaN, infinities, the largest numbers, zeros, subnormals, the smallest normal number, 1 and its neighbours")
    for x in EDGES64:
        metrics(BOX, x)
    say("metrics: width 65533 and 65534")
    for x1 in around64(65532.0) + [65533.0]:
        metrics([0.0, 0.0, x1, 1.0])
    for x1 in around64(32764.0) + [32765.0]:
        metrics([-32768.0, 0.0, x1, 1.0])
    say("metrics: widths 1 and 2")
    for x in (5.0, 5.5, -5.0, -5.5):
        metrics([x, 0.0, x, 1.0])
    say("metrics: heights 0 and 1")
    for y in (3.0, 3.5, -3.0, -3.5):
        metrics([0.0, y, 1.0, y])
    say("metrics: height 65533 and 65534")
    for y0 in around64(-32765.0) + [-32766.0]:
        metrics([0.0, y0, 1.0, 32768.0])
    metrics([0.0, -65533.0, 1.0, 0.0])
    metrics([0.0, -65534.0, 1.0, 0.0])
    say("metrics: left bearings -32768, -32769, 32767 and 32768")
    for x0 in around64(-32768.0) + [-32769.0]:
        metrics([x0, 0.0, 0.0, 1.0])
    for x0 in around64(32767.0) + [32767.5] + around64(32768.0):
        metrics([x0, 0.0, 32769.0, 1.0])
    say("metrics: top bearings -32768, -32769, 32767 and 32768")
    for y1 in around64(32768.0) + [32769.0]:
        metrics([0.0, 0.0, 1.0, y1])
    for y1 in around64(-32767.0) + [-32767.5] + around64(-32768.0):
        metrics([0.0, -32769.0, 1.0, y1])
    say("metrics: edges at whole numbers and next to them")
    for place, n in enumerate((-3.0, -9.0, 7.0, 8.0)):
        for x in around64(n):
            metrics(replaced(BOX, place, x))
    say("metrics: inverted boxes, by much and by little; zeros of two signs are in order")
    for box in (
        [6.25, -2.0, 0.5, 7.5],
        [0.5, 7.5, 6.25, -2.0],
        [0.75, 0.0, 0.25, 1.0],
        [0.0, 0.75, 1.0, 0.25],
        [1.0, 0.0, double(bits64(1.0) - 1), 1.0],
        [2.0**-1074, 0.0, 0.0, 1.0],
        [0.0, 2.0**-1074, 1.0, 0.0],
        [0.0, 0.0, -0.0, -0.0],
        [-0.0, -0.0, 0.0, 0.0],
    ):
        metrics(box)
    say("metrics: an inverted box whose products are in order")
    metrics([2.0**-1074, 2.0**-1074, 0.0, 0.0], 0.5)
    say("metrics: negative scales invert a box, unless it has no size or is inverted")
    for box in (BOX, [2.5, 3.5, 2.5, 3.5], [2.0, 3.0, 2.0, 3.0], [0.0, 3.0, 1.0, 3.0], [6.25, 7.5, 0.5, -2.0]):
        metrics(box, -1.0)
    say("metrics: scales 0 and -0, also of infinities")
    for scale in (0.0, -0.0):
        metrics(BOX, scale)
        metrics([-1.0, -1.0, 1.0, 1.0], scale)
        metrics([MOST64, MOST64, -MOST64, -MOST64], scale)
        metrics([0.0, 0.0, INF, 1.0], scale)
    say("metrics: products that overflow, or are just finite")
    for place in range(4):
        metrics(replaced([-1.0, -1.0, 1.0, 1.0], place, (-1.0 if place < 2 else 1.0) * 2.0**1023), 2.0)
    metrics([0.0, 0.0, 2.0**1023, 1.0], double(bits64(2.0) - 1))
    say("metrics: products past 16, 32 and 64 bits")
    for power in (16, 31, 32, 64):
        x = 2.0**power
        metrics([0.0, 0.0, x + 4.0, 5.0])
        metrics([0.0, -x - 5.0, 4.0, 0.0])
        metrics([x, x, x, x])
    say("metrics: subnormal products; half of the smallest number is 0")
    for scale in (0.5, double(bits64(0.5) + 1), -0.5):
        metrics([-(2.0**-1074), -(2.0**-1074), 2.0**-1074, 2.0**-1074], scale)
        metrics([2.0**-1074] * 4, scale)
    metrics([2.0**-1000] * 4, 2.0**-74)
    metrics([2.0**-1000] * 4, 2.0**-75)
    say("metrics: products that are rounded to a whole number or across it, from below and from above")
    for x, scale in ((1 / 3, 3.0), (1 / 49, 49.0), (0.7, 10.0), (0.1, 10.0), (4.35, 100.0), (double(bits64(1.0) - 1), double(bits64(1.0) + 1))):
        metrics([x] * 4, scale)
        metrics([-x] * 4, scale)


def bitmaps():
    say("bitmap: sizes up to 65533, and past it")
    for size in (0, 1, 12, 65533, 65534, 65535):
        bitmap(size, 34)
        bitmap(34, size)
    bitmap(0, 0)
    bitmap(65533, 65533)
    bitmap(65534, 65534)


def transforms():
    upright = {"o": [1.0, 0.0, 0.0, -1.0], "b": [1.0, 0.0, 0.0, 1.0]}
    for kind, linear in upright.items():
        for place, name in ((0, "a"), (3, "d")):
            say(f"supports {kind}: {name} is NaN, an infinity, a largest number, zero, subnormal, the smallest normal number, 1 or next to it")
            for x in EDGES64:
                supports(kind, replaced(linear, place, x))
        say(f"supports {kind}: b and c are NaN, an infinity, a largest number, zero or the smallest number")
        for place in (1, 2):
            for x in [NAN] + both([INF, MOST64, 0.0, 2.0**-1074]):
                supports(kind, replaced(linear, place, x))
    say("supports: skew of 1/4096 and its neighbours")
    for kind, linear in upright.items():
        for place in (1, 2):
            for x in both(around64(1 / 4096)):
                supports(kind, replaced(linear, place, x))
    say("supports o: a and d at 1 - 1/4096 and 1 + 1/4096 and their neighbours, of both signs")
    for place in (0, 3):
        for x in both(around64(1 - 1 / 4096) + around64(1 + 1 / 4096)):
            supports("o", replaced(upright["o"], place, x))
    say("supports o: all at their limits together")
    supports("o", [1 - 1 / 4096, 1 / 4096, -1 / 4096, -1 - 1 / 4096])
    supports("o", [1 + 1 / 4096, -1 / 4096, 1 / 4096, -1 + 1 / 4096])
    say("supports: mirrored, upside down, turned by a right angle, turned by a little, scaled")
    for kind in upright:
        for linear in (
            [-1.0, 0.0, 0.0, -1.0],
            [-1.0, 0.0, 0.0, 1.0],
            [1.0, 0.0, 0.0, -1.0],
            [1.0, 0.0, 0.0, 1.0],
            [0.0, 1.0, -1.0, 0.0],
            [0.9999, 0.01, -0.01, -0.9999],
            [2.0, 0.0, 0.0, -2.0],
            [0.5, 0.0, 0.0, 1000.0],
            [-0.0, 0.0, 0.0, -0.0],
        ):
            supports(kind, linear)


def shapes():
    for shape, size, edges in (("affine", 6, EDGES64), ("rect", 4, EDGES64), ("path", 4, EDGES64), ("color", 4, EDGES32)):
        say(f"finite {shape}: the largest numbers, zeros, subnormals, the smallest normal number, 1 and its neighbours")
        groups = in_groups(edges[3:], size)
        for numbers in groups:
            finite(shape, numbers)
        say(f"finite {shape}: a NaN and an infinity in each place")
        for place in range(size):
            for x in (NAN, INF if place % 2 else -INF):
                finite(shape, replaced(groups[0], place, x))


def unreadable():
    say("lines that cannot be read: a NaN by its bits, digits too few, too many or not hexadecimal, words missing or left over")
    for line in (
        "bucket 7fc00000",
        "bucket 3f80000",
        "bucket 3f8000000",
        "bucket 3f80000g",
        "bucket +3f80000",
        "bucket",
        "bucket 3f800000 3f800000",
        "bitmap 65536 1",
        "bitmap -1 1",
        "supports c 3ff0000000000000 0000000000000000 0000000000000000 bff0000000000000",
        "metrics 3ff0000000000000 3ff0000000000000 3ff0000000000000 3ff0000000000000",
        "finite point 3ff0000000000000 3ff0000000000000",
        "glyph 3f800000",
    ):
        print(line)


def at_random():
    source = random.Random(4)

    def below(n):
        return source.getrandbits(64) % n

    def chosen(low, high, step):
        """A multiple of `step` from low to high."""
        return low + below(int((high - low) / step) + 1) * step

    def any64():
        x = double(source.getrandbits(64))
        return 0.0 if x != x else x

    def of_size(low, high):
        """Of either sign, with its power of two from low to high."""
        sign, power, fraction = source.getrandbits(1), low + below(high - low + 1), source.getrandbits(52)
        return double(sign << 63 | (power + 1023) << 52 | fraction)

    say("at random: fractions")
    for _ in range(30):
        bucket(single(source.getrandbits(1) << 31 | (100 + below(52)) << 23 | source.getrandbits(23)))
    say("at random: numbers of a key, of any size and about the range of an f32")
    for _ in range(10):
        narrow(single(below(0x7F800000)), [any64() for _ in range(4)])
    for _ in range(10):
        narrow(single(below(0x7F800000)), [of_size(-152, 128) for _ in range(4)])
    say("at random: boxes, small and about the largest")
    for most in (40, 33000):
        for _ in range(15):
            x, y = sorted(chosen(-most, most, 1 / 64) for _ in range(2)), sorted(chosen(-most, most, 1 / 64) for _ in range(2))
            metrics([x[0], y[0], x[1], y[1]], chosen(0.5, 2, 2.0**-20) if most == 40 else 1.0)
    say("at random: transforms near their limits")
    for _ in range(20):
        kind = "ob"[source.getrandbits(1)]
        near = [1 + of_size(-14, -12), of_size(-16, -12), of_size(-16, -12), 1 + of_size(-14, -12)]
        supports(kind, near[:3] + [-near[3] if kind == "o" else near[3]])


if __name__ == "__main__":
    for group in (buckets, narrowings, outlines, bitmaps, transforms, shapes, unreadable, at_random):
        group()
        print()
