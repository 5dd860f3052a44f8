"""What the arguments of the vectors are made from: special values, a random generator of a fixed
seed, and patterns by their parts."""

from exact import INFINITY, LARGEST, NAN, ONE, SIGN, SMALLEST_NORMAL, of_ratio, units

LEADING = 1 << 52
SEED = 0x9e3779b97f4a7c15

# zeros, the ends of the subnormal and of the normal range, the neighbours of 1, infinities, each in
# both signs; and a NaN
MAGNITUDES = [0, 1, SMALLEST_NORMAL - 1, SMALLEST_NORMAL, ONE - 1, ONE, ONE + 1, LARGEST, INFINITY]
GRID = MAGNITUDES + [SIGN | m for m in MAGNITUDES] + [NAN]
# for three arguments, with fewer values
GRID_OF_THREE = [b for b in GRID if b % SIGN != ONE - 1]
SMALL_GRID = [b for b in GRID if b % SIGN in (0, 1, ONE, LARGEST, INFINITY, NAN)]
# quiet and signalling, of either sign: they are read as one value
NANS = [NAN, NAN | SIGN, INFINITY | 1, INFINITY | SIGN | 1, (1 << 63) - 1, (1 << 64) - 1]


class Random:
    """Marsaglia's xorshift generator with a multiplication, 64 bits at a time."""

    def __init__(self, seed):
        self.state = seed

    def bits(self, n):
        s = self.state
        s ^= (s << 13) & (2**64 - 1)
        s ^= s >> 7
        s ^= (s << 17) & (2**64 - 1)
        self.state = s
        return (s * 2685821657736338717 & (2**64 - 1)) >> (64 - n)

    def below(self, n):
        return self.bits(60) % n

    def sign(self):
        return self.bits(1) << 63

    def significand(self):
        return LEADING + self.bits(52)

    def odd(self, digits):
        """An odd number of so many binary digits."""
        return (1 << (digits - 1)) + self.bits(digits - 1) | 1


def whole(n, e=0):
    """The pattern of n * 2^e, which has to be a double."""
    bits = of_ratio(n << max(e, 0), 1 << max(-e, 0))
    assert units(bits) << 1075 == n << (e + 2150), "not a double"
    return bits


def normal(significand, e):
    """The pattern of a significand of 53 digits times 2^e."""
    assert LEADING <= significand < 2 * LEADING and -1074 <= e <= 971
    return (e + 1074) * LEADING + significand


def neighbours(bits):
    return [bits - 1, bits, bits + 1]
