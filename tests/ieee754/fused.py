"""The arguments of the fused multiply-add, by what makes them hard."""

from exact import LARGEST, ONE, SIGN, SMALLEST_NORMAL, of_ratio, units
from values import LEADING, SMALL_GRID, neighbours, normal, whole


def inverse(x, digits):
    """The inverse of an odd number modulo 2^digits."""
    return pow(x, -1, 1 << digits)


def with_last_digits(r, rest, dropped):
    """Two significands whose product of 53 + dropped digits ends in the digits `rest`, which is
    odd."""
    while True:
        x = r.odd(53)
        y = rest * inverse(x, dropped) % (1 << dropped) | (LEADING if dropped == 52 else 0)
        if y >= LEADING and (x * y).bit_length() == 53 + dropped:
            return x, y


def products(r):
    """Exponents of two factors and of their product, all well inside the range."""
    d, e = r.below(1000) - 552, r.below(800) - 452
    return d, e, d + e


def ties(r, count):
    """A product of 54 digits that is odd is the middle of two doubles; a far addend of either sign
    settles it."""
    found = []
    while len(found) < count:
        x, y = r.odd(27), r.odd(27)
        if (x * y).bit_length() != 54:
            continue
        d, e, f = products(r)
        a, b = whole(x, d) | r.sign(), whole(y, e) | r.sign()
        z = r.bits(52) if r.below(2) else normal(r.significand(), max(f - 60 - r.below(300), -1074))
        found += [(a, b, 0), (a, b, SIGN), (a, b, z), (a, b, SIGN | z)]
    return found


def near_ties(r, count):
    """Products whose dropped digits are one more or one less than a half, by the last digit of the
    product alone."""
    found = []
    for i in range(count):
        dropped = 52 + i % 2
        x, y = with_last_digits(r, (1 << (dropped - 1)) + (1 if i % 4 < 2 else -1), dropped)
        d, e, _ = products(r)
        found.append((normal(x, d) | r.sign(), normal(y, e) | r.sign(), r.sign()))
    return found


def addend_ties(r, count):
    """A product that is half of the addend's last place, or beside that by the product's own last
    place."""
    found = []
    for _ in range(count):
        d, e, f = products(r)
        power = normal(LEADING, d), normal(LEADING, e)  # 2^(d + 52) and 2^(e + 52)
        z = normal(r.significand(), f + 105) | r.sign()  # its last place is 2^(f + 105)
        s = r.sign()
        found += [
            (power[0] | s, power[1], z),
            (power[0] + 1 | s, power[1], z),
            (power[0] - 1 | s, power[1], z),
        ]
    return found


def cancellations(r, count):
    """An addend that is minus the product: the whole of a short one, and the rounded product of a
    long one or its neighbour, which leaves only the product's low digits."""
    found = []
    for _ in range(count):
        d, e, f = products(r)
        x, y = r.odd(1 + r.below(26)), r.odd(1 + r.below(26))
        a, b = whole(x, d), whole(y, e)
        found += [(a, b, SIGN | whole(x * y, f)), (SIGN | a, b, whole(x * y, f))]
        a, b = normal(r.significand(), d), normal(r.significand(), e)
        z = of_ratio(units(a) * units(b), 1 << 2150)
        found += [(a, b, SIGN | n) for n in (z, z + 1 + r.below(3), z - 1 - r.below(3))]
    return found


def far_apart(r, count):
    """Product and addend that do not overlap, and powers of two from which something small is taken
    off."""
    found = []
    for i in range(count):
        d, e, f = products(r)
        a, b = normal(r.significand() if i % 2 else LEADING, d), normal(
            r.significand() if i % 2 else LEADING, e
        )
        gap = 50 + r.below(12) if i % 4 < 2 else 100 + r.below(500)
        low, high = max(f + 52 - gap, -1074), min(f + 52 + gap, 971)
        found += [
            (a, b, normal(r.significand(), low) | r.sign()),
            (a | r.sign(), b, normal(LEADING if i % 4 else r.significand(), high) | r.sign()),
        ]
    return found


def tiny(r, count):
    """Results below and around the smallest normal double, with addends that are zero, subnormal or
    normal."""
    found = []
    for _ in range(count):
        d = r.below(700) - 950
        e = -1127 - d + r.below(60) - 56  # the product is from about 2^-1078 to 2^-1018
        a, b = normal(r.significand(), d) | r.sign(), normal(r.significand(), e) | r.sign()
        found += [
            (a, b, r.sign()),
            (a, b, r.bits(1 + r.below(52)) | r.sign()),
            (a, b, SMALLEST_NORMAL - 2 + r.below(4) | r.sign()),
        ]
    half, one = normal(LEADING, -53), ONE
    for s in (0, SIGN):
        for m in (1, 2, 3, 5, SMALLEST_NORMAL - 1, SMALLEST_NORMAL, SMALLEST_NORMAL + 1):
            found += [(m | s, half, z) for z in (0, 1, SIGN | 1)]  # ties at the smallest double
            found += [(m | s, one - 1, z) for z in (0, 1, SIGN | 1)]  # just below a double
        # 2^-1022 less a half, a quarter of the smallest double, and less: to the smallest normal
        # double or not
        found += [(SMALLEST_NORMAL | s, one - k, z | s) for k in range(1, 5) for z in (0, 1)]
        found += [
            (SMALLEST_NORMAL + k | s, half, SMALLEST_NORMAL // 2 + j | s)
            for k in range(4)
            for j in range(-1, 1)
        ]
    return found


def subnormal_factors(r, count):
    """A subnormal number times a normal one, with an addend that is zero or of the size of the
    product."""
    found = []
    for _ in range(count):
        n = r.bits(1 + r.below(52)) | 1
        e = r.below(900)
        a, b = n | r.sign(), normal(r.significand(), e) | r.sign()
        size = n.bit_length() + e - 1074
        found += [
            (a, b, r.sign()),
            (b, a, normal(r.significand(), max(size + r.below(110) - 55, -1074)) | r.sign()),
        ]
    return found


def huge(r, count):
    """Both sides of the largest double and of 2^1024 - 2^970, also where the product alone
    overflows."""
    found = []
    for _ in range(count):
        d = r.below(900) + 19
        e = 919 - d - r.below(3)
        a, b = normal(r.significand(), d) | r.sign(), normal(r.significand(), e)
        found += [
            (a, b, normal(r.significand(), 971 - r.below(60)) | r.sign()),
            (a, b, LARGEST | r.sign()),
        ]
    half_place = normal(LEADING, 918)  # 2^970
    for s in (0, SIGN):
        found += [(LARGEST | s, ONE, z | t) for z in neighbours(half_place) for t in (0, SIGN)]
        found += [(LARGEST - 1 | s, ONE, z | s) for z in neighbours(half_place + LEADING)]
        found += [
            (LARGEST | s, normal(LEADING, -51), z | s ^ SIGN)
            for z in (LARGEST, LARGEST - 1, half_place)
        ]
        found += [
            (normal(LEADING, 459) | s, normal(LEADING, 461), z | s ^ SIGN)
            for z in neighbours(half_place) + [half_place + LEADING, 1, 0]
        ]
        found += [(LARGEST | s, ONE + k, SIGN ^ s | normal(LEADING, 919)) for k in range(3)]
    return found


def fma_arguments(r):
    tenth = of_ratio(1, 10**200)
    return {
        "special": [(x, y, z) for x in SMALL_GRID for y in SMALL_GRID for z in SMALL_GRID],
        "signed zero": [
            (tenth | s, tenth | t, z) for s in (0, SIGN) for t in (0, SIGN) for z in (0, SIGN)
        ],
        "tie": ties(r, 200),
        "near a tie": near_ties(r, 120),
        "tie by the addend": addend_ties(r, 60),
        "cancellation": cancellations(r, 60),
        "far apart": far_apart(r, 100),
        "subnormal result": tiny(r, 100),
        "subnormal factor": subnormal_factors(r, 60),
        "overflow edge": huge(r, 80),
        "random": [tuple(r.bits(64) for _ in range(3)) for _ in range(150)],
        "random, of like size": [
            (
                normal(r.significand(), d) | r.sign(),
                normal(r.significand(), e) | r.sign(),
                normal(r.significand(), f + 40 + r.below(80)) | r.sign(),
            )
            for d, e, f in (products(r) for _ in range(250))
        ],
    }
