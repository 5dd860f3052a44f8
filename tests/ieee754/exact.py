"""The single operations of IEEE 754 binary64 on bit patterns, by exact whole numbers.

No floating-point operation takes part. A finite double is a whole multiple of 2^-1074, and the
middle of two neighbours is one of 2^-1075, so every nonnegative value and every middle is a whole
number of units of 2^-1075. The patterns of the nonnegative doubles, read as numbers, are in the
order of their values. So the result of an operation is found among all 2^63 patterns by halving:
the last pattern whose value is not above the exact result, and then that one or its successor by
which side of their middle the exact result lies on, the even pattern at a tie. A root is never
computed: v is at most the p-th root of a where v^p is at most a."""

SIGN = 1 << 63
INFINITY = 0x7ff0000000000000
NAN = 0x7ff8000000000000
ONE = 0x3ff0000000000000
LARGEST = 0x7fefffffffffffff
SMALLEST_NORMAL = 0x0010000000000000


def is_nan(bits):
    return bits % SIGN > INFINITY


def is_finite(bits):
    return bits % SIGN < INFINITY


def is_zero(bits):
    return bits % SIGN == 0


def negative(bits):
    return bits >= SIGN


def units(bits):
    """The magnitude of a finite double in units of 2^-1075; of the infinity, 2^1024, where the next
    binade would start."""
    field, digits = divmod(bits % SIGN, 1 << 52)
    return 2 * digits if field == 0 else (2**52 + digits) << field


def signed_units(bits):
    return -units(bits) if negative(bits) else units(bits)


def nearest(compare):
    """The pattern of the double nearest to a positive number x, where compare(n) is the sign of n *
    2^-1075 - x."""
    low, high = 0, INFINITY
    while high - low > 1:
        middle = (low + high) // 2
        if compare(units(middle)) <= 0:
            low = middle
        else:
            high = middle
    side = compare((units(low) + units(high)) // 2)
    if side == 0:
        return low if low % 2 == 0 else high
    return high if side < 0 else low


def sign_of(n):
    return (n > 0) - (n < 0)


def of_ratio(numerator, denominator):
    """The double nearest to a positive fraction."""
    return nearest(lambda n: sign_of(n * denominator - (numerator << 1075)))


def root(degree, bits):
    """The double nearest to the root of a positive finite double."""
    power = units(bits) << (1075 * (degree - 1))
    return nearest(lambda n: sign_of(n**degree - power))


def sqrt(x):
    if is_nan(x) or (negative(x) and not is_zero(x)):
        return NAN
    return x if is_zero(x) or x == INFINITY else root(2, x)


def cbrt(x):
    if is_nan(x):
        return NAN
    return x if is_zero(x) or not is_finite(x) else root(3, x % SIGN) | (x & SIGN)


def fma(x, y, z):
    """x * y + z with one rounding, every NaN as one value."""
    if is_nan(x) or is_nan(y) or is_nan(z):
        return NAN
    product_sign = (x ^ y) & SIGN
    if not (is_finite(x) and is_finite(y)):
        if is_zero(x) or is_zero(y) or (not is_finite(z) and z & SIGN != product_sign):
            return NAN
        return product_sign | INFINITY
    if not is_finite(z):
        return z
    exact = signed_units(x) * signed_units(y) + (signed_units(z) << 1075)  # in units of 2^-2150
    if exact == 0:
        # terms of one sign are two zeros of that sign; any other sum of zero is plus zero
        return product_sign if product_sign == z & SIGN else 0
    magnitude = nearest(lambda n: sign_of((n << 1075) - abs(exact)))
    return magnitude | (SIGN if exact < 0 else 0)


def key(bits):
    """The place of a number or an infinity among the others, minus zero below plus zero."""
    return -(bits % SIGN) - 1 if negative(bits) else bits


def less(x, y):
    """x < y, false where one is a NaN; the two zeros are equal."""
    if is_nan(x) or is_nan(y) or (is_zero(x) and is_zero(y)):
        return False
    return key(x) < key(y)


def absolute(x):
    return NAN if is_nan(x) else x % SIGN


def copysign(x, y):
    """The magnitude of x with the sign of y; a NaN counts as positive."""
    if is_nan(x):
        return NAN
    return x % SIGN | (0 if is_nan(y) else y & SIGN)


def maximum(x, y):
    """A NaN beside a number is skipped; of two zeros of opposite sign it is plus zero."""
    if is_nan(x):
        return NAN if is_nan(y) else y
    return x if is_nan(y) or key(y) <= key(x) else y


def clamp(x, low, high):
    """Two comparisons, as in Rust: a NaN and the sign of a zero are kept, and an end that is a NaN
    bounds nothing."""
    raised = low if less(x, low) else x
    return high if less(high, raised) else raised


def total_order(x, y):
    """1 where x is at or below y by totalOrder, with NaN above every number; else 0."""
    if is_nan(y):
        return 1
    return 0 if is_nan(x) else int(key(x) <= key(y))


def total_cmp(x, y):
    """0, 1, 2: x is below y, equal to it, above it."""
    if total_order(x, y):
        return 1 if total_order(y, x) else 0
    return 2


def check():
    """Values worked by hand, with the reason above each."""
    two_to = lambda e: (e + 1023) << 52
    tenth_200 = of_ratio(1, 10**200)
    cases = [
        # 1.1 in binary
        (of_ratio(3, 2), 0x3ff8000000000000),
        # half of the smallest double: a tie, to zero
        (of_ratio(1, 2**1075), 0),
        # one and a half of it: a tie, to the even 2
        (of_ratio(3, 2**1075), 2),
        # half-way from the largest double to 2^1024
        (of_ratio(2**1024 - 2**970, 1), INFINITY),
        (of_ratio(2**1024 - 2**970 - 1, 1), LARGEST),
        (sqrt(two_to(2)), two_to(1)),
        # 1.6a09e667f3bcc9.. in hexadecimal
        (sqrt(two_to(1)), 0x3ff6a09e667f3bcd),
        # 1 + 2^-53 - 2^-107 .. lies below the middle 1 + 2^-53
        (sqrt(ONE + 1), ONE),
        # 1 + 3/2 ulp less a little: below the middle again
        (sqrt(ONE + 3), ONE + 1),
        (sqrt(1), two_to(-537)),
        (sqrt(SIGN), SIGN),
        (sqrt(SIGN | 1), NAN),
        # 27 and 3
        (cbrt(0x403b000000000000), 0x4008000000000000),
        (cbrt(SIGN | two_to(3)), SIGN | two_to(1)),
        # 1.428a2f98d728ae.. in hexadecimal
        (cbrt(two_to(1)), 0x3ff428a2f98d728b),
        # 1074 is 3 * 358
        (cbrt(1), two_to(-358)),
        # 2^-51 + 2^-104: a tie, to the even one
        (fma(ONE + 1, ONE + 1, SIGN | ONE), two_to(-51)),
        # (1 + u)(1 - u) - 1 = -u^2 for u = 2^-52
        (fma(ONE + 1, ONE - 2, SIGN | ONE), SIGN | two_to(-104)),
        # -10^-400 is not zero, and rounds to minus zero
        (fma(SIGN | tenth_200, tenth_200, 0), SIGN),
        (fma(LARGEST, ONE, two_to(970)), INFINITY),
        (fma(LARGEST, ONE, two_to(970) - 1), LARGEST),
        # 2 max - max, though 2 max overflows
        (fma(LARGEST, two_to(1), SIGN | LARGEST), LARGEST),
        # -0 + 0
        (fma(0, SIGN | ONE, 0), 0),
        # -0 + -0
        (fma(0, SIGN | ONE, SIGN), SIGN),
        # 1 - 1
        (fma(ONE, ONE, SIGN | ONE), 0),
        (maximum(SIGN, 0), 0),
        (maximum(NAN, SIGN), SIGN),
        (maximum(NAN, NAN), NAN),
        (clamp(NAN, 0, ONE), NAN),
        (clamp(SIGN, 0, ONE), SIGN),
        (clamp(two_to(1), 0, ONE), ONE),
        (total_cmp(SIGN, 0), 0),
        (total_cmp(NAN, INFINITY), 2),
        (total_cmp(NAN, NAN), 1),
        (total_cmp(SIGN | ONE, ONE), 0),
    ]
    for i, (got, hand) in enumerate(cases):
        assert got == hand, f"value {i} worked by hand: {got:016x}, not {hand:016x}"
    return len(cases)
