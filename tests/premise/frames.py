"""The frames: tuples of eighteen bit patterns, world points and bearings. What is random follows
from SEED, and is the same on every machine."""
import math
import os
import random
import struct
import subprocess

import named

SEED = 20180527
QUIET = 0x0008000000000000


def bits(x):
    return struct.unpack(">Q", struct.pack(">d", x))[0]


def of_word(word):
    return struct.unpack(">d", struct.pack(">Q", word))[0]


def doubles(frame):
    return struct.unpack(">18d", struct.pack(">18Q", *frame))


def of_doubles(xs):
    return tuple(bits(x) for x in xs)


def quieted(frame):
    """A signalling NaN raises invalid wherever it is compared; the frames hold quiet ones."""
    is_nan = lambda w: w & 0x7FFFFFFFFFFFFFFF > 0x7FF0000000000000
    return tuple(w | QUIET if is_nan(w) else w for w in frame)


def of_kinds(reference, sources, count, path):
    """So many random frames of each kind that the reference makes."""
    subprocess.run([reference, sources, "frames", str(count), path], check=True)
    with open(path, "rb") as file:
        return list(struct.iter_unpack(">18Q", file.read()))


def stored(root):
    """The frames of the stored vectors: records of 83 words, the frame first."""
    with open(os.path.join(root, "crates/replay/data/rust/frame.bin"), "rb") as file:
        return [record[:18] for record in struct.iter_unpack(">83Q", file.read())]


def stored_about(root):
    """Those of the solve about the first target: records of 79 words."""
    with open(os.path.join(root, "crates/replay/data/rust/about.bin"), "rb") as file:
        return [record[:18] for record in struct.iter_unpack(">79Q", file.read())]


def whole(r, most):
    """Small whole numbers: points and bearings coincide, lie in a line, or are zero."""
    return of_doubles(float(r.randint(-most, most)) for _ in range(18))


def scaled(frame, k, factor=1.0):
    """The world times 2^k and a factor from 1 to 2."""
    xs = doubles(frame)
    return of_doubles([math.ldexp(x * factor, k) for x in xs[:9]] + list(xs[9:]))


def swept(frame):
    """A plate times 2^k. The eighth power of a length is the highest that a solve comes to, so the
    premise gives out near 2^-127 and 2^127; squares vanish near 2^-511 and 2^-537."""
    for low, high in [(-145, -100), (-275, -250), (-545, -505), (100, 135), (250, 260), (508, 514)]:
        yield from (scaled(frame, k) for k in range(low, high + 1))


def brinks(frame, is_regular):
    """The plates next to the premise's edges: of two neighbouring factors of the world one is
    regular and one is not, and a few factors around them."""
    for inside, outside in [(-90, -145), (90, 135)]:
        if not is_regular(scaled(frame, inside)) or is_regular(scaled(frame, outside)):
            continue
        step = -1 if outside < inside else 1
        k = inside
        while is_regular(scaled(frame, k + step)):
            k += step
        yield from bisected(frame, min(k, k + step), is_regular)


def bisected(frame, k, is_regular):
    """Where the premise changes between the world times 2^k and times 2^(k + 1)."""
    at = lambda word: scaled(frame, k, of_word(word))
    low, high = bits(1.0), bits(2.0)
    first = is_regular(at(low))
    while high - low > 1:
        middle = (low + high) // 2
        if is_regular(at(middle)) == first:
            low = middle
        else:
            high = middle
    return [at(word) for word in range(low - 3, high + 4)]


def near_one(p):
    """Two factors whose product is 1 - p^2, exactly."""
    return 1 - p, 1 + p


def at_power(pair, low, high):
    return pair[0] * 2.0**low, pair[1] * 2.0**high


# Pairs of factors whose product lies at an edge. Rounded as if exponents had no end, 2^-1022 - x is
# 2^-1022 up to x = 2^-1076, and underflow is raised from there on; 2^1024 - x is 2^1024, which
# overflows, up to x = 2^970.
EDGES = {
    "2^-1022": at_power((1.0, 1.0), -511, -511),
    "the next value below, if exponents had no end": at_power((1 - 2.0**-53, 1.0), -511, -511),
    "an exact subnormal": at_power((1.0, 1.0), -511, -512),
    "rounds up to 2^-1022": at_power(near_one(2.0**-52), -511, -511),
    "the last that does": at_power(near_one(2.0**-27), -511, -511),
    "further below": at_power(near_one(1.25 * 2.0**-27), -511, -511),
    "vanishes": at_power((1.0, 1.0), -600, -600),
    "the largest double": at_power((1 - 2.0**-53, 1.0), 512, 512),
    "rounds down to it": at_power(near_one(1.25 * 2.0**-27), 512, 512),
    "the first that overflows": at_power(near_one(2.0**-27), 512, 512),
    "2^1024": at_power((1.0, 1.0), 512, 512),
}


def at_edges(frame):
    """In two bearings an entry is replaced, so that a product in their dot is at an edge."""
    for u, v in EDGES.values():
        for i, j in [(0, 1), (1, 2), (2, 0)]:
            for axis in range(3):
                xs = list(doubles(frame))
                xs[9 + 3 * i + axis], xs[9 + 3 * j + axis] = u, v
                yield of_doubles(xs)


def at_sums(frame, r):
    """Differences of coordinates at the edges: subnormal, or as large as a double can be."""
    for exponent in (-1022, 1023):
        for _ in range(3):
            xs = list(doubles(frame))
            axis = r.randrange(3)
            for point in range(3):
                factor = r.randint(-3, 3) / 2 + r.choice([0.0, 2.0**-52, -(2.0**-52)])
                if abs(factor) < 2:
                    xs[3 * point + axis] = math.ldexp(factor, exponent)
            yield of_doubles(xs)


def alike(r):
    """Two points alike, and bearings that are all but alike: many reach the division by the length
    of `eigenvector_from_row_crosses` with a length of zero, and meet the premise up to there."""
    points = [[float(r.randint(-3, 3)) for _ in range(3)] for _ in range(3)]
    one, other = r.sample(range(3), 2)
    points[one] = points[other]
    aside = lambda: r.randint(-16, 16) * 2.0 ** -r.randint(24, 30)
    bearings = [[1.0, aside(), aside()] for _ in range(3)]
    return of_doubles(x for vector in points + bearings for x in vector)


def with_zeros(frame, r):
    """Some coordinates and entries zero, of either sign."""
    return tuple(r.choice([0, 1 << 63]) if r.random() < 0.3 else w for w in frame)


def all_frames(root, reference, sources, folder, each, brinks_of):
    """Every frame of a run, with the sort it is of. `brinks_of` gives the brinks of each plate."""
    r = random.Random(SEED)
    kinds = of_kinds(reference, sources, each, os.path.join(folder, "kinds.bin"))
    # of the first nine kinds, which a camera could see
    plates = [kinds[each * kind + i] for kind in range(9) for i in range(min(each, 4))]
    sorts = {
        "named": named.frames(),
        "of the reference's kinds": kinds,
        "stored": stored(root),
        "whole numbers": [whole(r, most) for most in (1, 2, 3) for _ in range(6 * each)],
        "two points alike": [alike(r) for _ in range(3 * each)],
        "plates swept by 2^k": [f for plate in plates[::4] for f in swept(plate)],
        "plates at the brink": [f for found in brinks_of(plates) for f in found],
        "products at the edges": [f for plate in plates[::2] for f in at_edges(plate)],
        "sums at the edges": [f for plate in plates for f in at_sums(plate, r)],
        "plates with zeros": [with_zeros(plate, r) for plate in plates for _ in range(10)],
    }
    return [(sort, quieted(frame)) for sort, frames in sorts.items() for frame in frames]
