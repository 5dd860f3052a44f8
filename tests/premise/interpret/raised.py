"""What the processor raises at one operation, worked out exactly, and truth values that remember
it. The definitions' tests `add_regular`, `mul_regular` and so on are read from their text; what
they say of an operation is handed on as a `Mark` with what the operation raises, so that the
`regular` of a whole solve tells which flags its operations raise together, whichever way they were
joined.

x86-64 raises underflow where a result is inexact and, rounded as if exponents had no end, below
2 ^ -1022. So two operations fail the premise and raise none of the flags that tell of it: one whose
exact result is itself a subnormal double, and one whose exact result rounds up to 2 ^ -1022."""
import math
from fractions import Fraction

# as in MXCSR
INVALID, DENORMAL, DIVISION, OVERFLOW, UNDERFLOW, INEXACT = 1, 2, 4, 8, 16, 32
# what raises no flag, or of invalid what the premise does not ask: an exact subnormal result, one
# that rounds up to 2 ^ -1022, an infinity or NaN divided by zero, a negative number's square root
EXACT, ROUNDED_UP, ENDLESS, NEGATIVE_ROOT = 64, 128, 256, 512
NAMES = {
    INVALID: "invalid", DENORMAL: "denormal operand", DIVISION: "division by zero",
    OVERFLOW: "overflow", UNDERFLOW: "underflow", EXACT: "exact subnormal result",
    ROUNDED_UP: "rounds up to 2^-1022", ENDLESS: "infinity or NaN divided by zero",
    NEGATIVE_ROOT: "square root of a negative number",
}  # fmt: skip
LEAST = 2.0**-1022


class Mark:
    """A truth value, with what was raised on the way to it."""

    __slots__ = ("truth", "raised")

    def __init__(self, truth, raised):
        self.truth, self.raised = truth, raised

    def __bool__(self):
        return self.truth


def raised_by(truth):
    return truth.raised if isinstance(truth, Mark) else 0


def both(a, b):
    """`◌&&◌`: where both are plain, as it is; else with what either raised."""
    if a is True:
        return b
    if b is True or (a is False and b is False):
        return a
    return Mark(bool(a) and bool(b), raised_by(a) | raised_by(b))


def tiny(exact, result):
    """Of a nonzero exact result and the double it rounds to, which is at most 2 ^ -1022."""
    size = abs(exact)
    if size >= Fraction(LEAST):
        return 0
    if size == Fraction(abs(result)):
        return EXACT
    # 2 ^ -1076 below 2 ^ -1022 is the middle of the last gap, if exponents had no end
    return UNDERFLOW if size < Fraction(LEAST) - Fraction(1, 1 << 1076) else ROUNDED_UP


def of_add(x, y):
    z = x + y
    if math.isfinite(z):
        return EXACT if 0 < abs(z) < LEAST else 0
    if math.isfinite(x) and math.isfinite(y):
        return OVERFLOW
    return INVALID if z != z and x == x and y == y else 0


def of_mul(x, y):
    z = x * y
    if math.isfinite(z):
        if abs(z) > LEAST or x == 0 or y == 0:
            return 0
        return tiny(Fraction(x) * Fraction(y), z)
    if math.isfinite(x) and math.isfinite(y):
        return OVERFLOW
    return INVALID if z != z and x == x and y == y else 0


def of_div(x, y):
    if y == 0:
        if not math.isfinite(x):
            return ENDLESS
        return INVALID if x == 0 else DIVISION
    z = x / y
    if math.isfinite(z):
        if abs(z) > LEAST or x == 0 or math.isinf(y):
            return 0
        return tiny(Fraction(x) / Fraction(y), z)
    if math.isfinite(x) and math.isfinite(y):
        return OVERFLOW
    return INVALID if math.isinf(x) and math.isinf(y) else 0


def of_fma(x, y, z, result):
    if not (math.isfinite(x) and math.isfinite(y)):
        return INVALID if x == x and y == y and z == z and result != result else 0
    if not math.isfinite(z):
        return 0
    if math.isinf(result):
        return OVERFLOW
    if abs(result) > LEAST:
        return 0
    exact = Fraction(x) * Fraction(y) + Fraction(z)
    return tiny(exact, result) if exact else 0


def of_sqrt(x):
    return INVALID | NEGATIVE_ROOT if x < 0 else 0


def marked(test, raises):
    """A test of an operation's operands, and what the operation raises."""

    def asked(*operands):
        truth, raised = test(*operands), raises(*operands)
        return True if truth and not raised else Mark(bool(truth), raised)

    return asked
