"""The arguments of the square root and the cube root, by what makes them hard."""

from exact import INFINITY, SIGN, is_finite
from values import GRID, LEADING, NANS, neighbours, normal, whole

# The cube root of HARD_CUBE * 2^-51 is the middle MIDDLE * 2^-53 of two doubles but for less than
# 2^-54 of their distance.
HARD_CUBE, MIDDLE = 0x19b78223aa307c, 13293282978278199
assert abs(MIDDLE**3 - (HARD_CUBE << 108)) * 2**53 < 3 * (MIDDLE - 1) ** 2


def roots_modulo(c, digits):
    """The odd z below 2^digits whose square is c modulo 2^digits, for a c that is 1 modulo 8."""
    z = 1
    # z * z is c modulo 2^k; a change of z by 2^(k - 1) changes it by 2^k modulo 2^(k + 1)
    for k in range(3, digits):
        if (z * z - c) >> k & 1:
            z += 1 << (k - 1)
    half = 1 << (digits - 1)
    return sorted({w % (1 << digits) for r in (z, -z) for w in (r, r + half)})


def hard_squares(limit):
    """The arguments whose square roots are the nearest of all to the middle of two doubles: the
    root of n * 2^52, n of 53 or 54 digits, has the middle z / 2 beside it where z * z - n * 2^54 =
    c is small. For c above 0 the root is below the middle."""
    found = []
    for c in range(1 - 8 * limit, 8 * limit, 8):
        for z in roots_modulo(c, 54):
            n = (z * z - c) >> 54
            if z >= 1 << 53 and n >= LEADING and (n < 2 * LEADING or n % 2 == 0):
                found.append(normal(n, -52) if n < 2 * LEADING else normal(n // 2, -51))
    return found


def near_cubes(r, count, tries):
    """Arguments whose cube root is near the middle of two doubles: of `tries` middles z / 2 the one
    whose cube comes nearest to a whole number of 2^104, and that number, where it is a double. Both
    sides come up."""
    found = []
    while len(found) < count:
        best = min(
            (r.odd(54) for _ in range(tries)),
            key=lambda z: min(z**3 % 2**107, -(z**3) % 2**107),
        )
        n = (best**3 + 2**106) >> 107
        t = n.bit_length() - 53
        if n % (1 << t) == 0:
            found.append(normal(n >> t, t - 52))
    return found


def middle_cubes(r, count):
    """The two doubles on either side of the cube of the middle of two doubles."""
    found = []
    for _ in range(count):
        n = r.odd(54) ** 3
        t = n.bit_length() - 53
        found += [normal(n >> t, t - 54 * 3), normal(n >> t, t - 54 * 3) + 1]
    return found


def moved(r, bits, step):
    """The same significand at an exponent that differs by a multiple of `step`, so that its root
    has the same digits."""
    field = bits // LEADING
    fields = range(field % step or step, 2047, step)
    return fields[r.below(len(fields))] * LEADING + bits % LEADING


def subnormals(r, count):
    return [r.bits(1 + r.below(52)) | 1 for _ in range(count)] + [1 << k for k in range(52)]


def powers(r, degree, count):
    """Exact powers of whole numbers, of few and of as many digits as fit, at many exponents."""
    found = []
    for _ in range(count):
        base = 1 + r.bits(1 + r.below(53 // degree))
        found.append(whole(base**degree, degree * (r.below(1900 // degree) - 950 // degree)))
    return found


def ends_of_binades(r, count):
    found = []
    for _ in range(count):
        edge = (1 + r.below(2046)) * LEADING
        found += neighbours(edge)
    return found


def sqrt_arguments(r):
    exact = powers(r, 2, 250)
    return {
        "special": [(b,) for b in GRID + NANS],
        "exact": [(b,) for b in exact],
        "beside exact": [(n,) for b in exact[:150] for n in (b - 1, b + 1)],
        "nearest to a middle": [(b,) for b in hard_squares(100)]
        + [(moved(r, b, 2),) for b in hard_squares(100)],
        "ends of binades": [(b,) for b in ends_of_binades(r, 100)],
        "subnormal": [(b,) for b in subnormals(r, 250)],
        "negative": [(SIGN | r.bits(63) % INFINITY,) for _ in range(50)],
        "random": [(r.bits(63) % INFINITY,) for _ in range(600)],
    }


def cbrt_arguments(r):
    exact, near = powers(r, 3, 250), near_cubes(r, 150, 300)
    near += neighbours(normal(HARD_CUBE, -51))
    return {
        "special": [(b,) for b in GRID + NANS],
        "exact": [(b | r.sign(),) for b in exact],
        "beside exact": [(n | r.sign(),) for b in exact[:150] for n in (b - 1, b + 1)],
        "near a middle": [(b,) for b in near] + [(moved(r, b, 3) | r.sign(),) for b in near],
        "around a middle": [(moved(r, b, 3) | r.sign(),) for b in middle_cubes(r, 150)],
        "ends of binades": [(b | r.sign(),) for b in ends_of_binades(r, 100)],
        "subnormal": [(b | r.sign(),) for b in subnormals(r, 250)],
        "random": [(b,) for b in (r.bits(64) for _ in range(600)) if is_finite(b)],
    }
