"""What the names of the library stand for, and three definitions of ours that are given natively:
the roots and the fused multiply-add. A double is Python's own float, whose `+ - * /` and square
root are IEEE 754's; the cube root and the fused multiply-add go by whole numbers. A list is a
tuple, a whole number an int, a truth value a bool or a `Mark` (raised.py).

`lib.Ieee` writes a finite double `fin s m e`, ±m * 2 ^ e with an odd m or m = e = 0, e a whole
number. `up e` and `down e` are whole numbers, and 2 ^ e = up e / down e."""
import math
import struct

from .raised import both

MASK = (1 << 64) - 1
POWERS = {}


def of_bits(_, word):
    return struct.unpack(">d", struct.pack(">Q", word & MASK))[0]


def to_bits(_, x):
    return 0x7FF8000000000000 if x != x else struct.unpack(">Q", struct.pack(">d", x))[0]


def parts(x):
    """s, m and e of a finite double."""
    n, d = abs(x).as_integer_ratio()
    if n == 0:
        return math.copysign(1.0, x) < 0, 0, 0
    e = (n & -n).bit_length() - d.bit_length()
    return x < 0, n >> max(e, 0), e


def finite_of(s, m, e):
    """The double of its parts; it is there, since a definition only moves parts about."""
    x = math.ldexp(m, e)
    if x.as_integer_ratio() != (m << max(e, 0), 1 << max(-e, 0)):
        raise ValueError(f"no double is {m} * 2 ^ {e}")
    return -x if s else x


def infinity_of(s):
    return -math.inf if s else math.inf


def divide(_, x, y):
    if y != 0:
        return x / y
    if x == 0 or x != x:
        return math.nan
    return math.inf * math.copysign(1.0, x) * math.copysign(1.0, y)


def square_root(x):
    return math.nan if x < 0 else math.sqrt(x)


def whole_root(n):
    """The largest whole number whose cube is at most n."""
    q = 1 << -(-n.bit_length() // 3)
    while q**3 > n:
        q = (2 * q + n // (q * q)) // 3
    return q


def cube_root(x):
    if x == 0 or not math.isfinite(x):
        return x
    n, d = abs(x).as_integer_ratio()
    # x = n * 2 ^ e; n times 2 ^ k, with e - k a multiple of three, has a root of 55 digits or more
    e = 1 - d.bit_length()
    k = max(0, 165 - n.bit_length())
    k += (e - k) % 3
    q = whole_root(n << k)
    # the digits beyond the 53 kept decide; a root that is cut short is never a tie
    return math.copysign(math.ldexp(float(2 * q + (q**3 != n << k)), (e - k) // 3 - 1), x)


def fused(x, y, z):
    if not (math.isfinite(x) and math.isfinite(y) and math.isfinite(z)):
        return z if math.isinf(z) and math.isfinite(x) and math.isfinite(y) else x * y + z
    (a, b), (c, d), (e, f) = (v.as_integer_ratio() for v in (x, y, z))
    n = a * c * f + e * b * d
    if n == 0:
        return x * y + z if a * c == 0 else 0.0
    return quotient(n < 0, abs(n), b * d * f)


def power(a, k):
    if a != 2:
        return a**k
    if k not in POWERS:
        POWERS[k] = 1 << k
    return POWERS[k]


def quotient(s, n, d):
    """The double nearest to ±n / d: Python divides whole numbers with one rounding."""
    try:
        x = n / d
    except OverflowError:
        x = math.inf
    return -x if s else x


def summed(_, s, a, t, b, c):
    """±a / c + ±b / c; an exact zero is -0 where both signs are set, and else +0."""
    total = (-a if s else a) + (-b if t else b)
    return quotient(total < 0 or (total == 0 and s and t), abs(total), c)


def nearest(q, order):
    """q or q + 1, by how what is left compares with a half."""
    return q + 1 if order > 0 or (order == 0 and q % 2) else q


def put_at(xs, at, x):
    return xs[:at] + (x,) + xs[at + 1 :] if at < len(xs) else xs


NATURAL = {
    "zero": (0, 0), "suc": (1, lambda a: a + 1), "◌+◌": (2, lambda a, b: a + b),
    "◌-◌": (2, lambda a, b: max(a - b, 0)), "◌*◌": (2, lambda a, b: a * b),
    "◌/◌": (2, lambda a, b: a // b if b else 0), "◌^◌": (2, power),
    "compare": (2, lambda a, b: (a > b) - (a < b)),
}  # fmt: skip
# by module and name: the number of arguments, and the function or value
NAMES = {
    "Rattle.std.specs.Float": {
        "binary64": (0, "binary64"), "nan": (0, math.nan),
        "inf": (1, infinity_of), "fin": (3, finite_of),
    },
    "Rattle.std.specs.Float.Ieee": {
        "add": (3, lambda f, x, y: x + y), "sub": (3, lambda f, x, y: x - y),
        "mul": (3, lambda f, x, y: x * y), "div": (3, divide), "neg": (1, lambda x: -x),
        "lt": (2, lambda x, y: x < y), "le": (2, lambda x, y: x <= y),
        "eq": (2, lambda x, y: x == y), "is_nan": (1, lambda x: x != x),
        "of_bits": (2, of_bits), "to_bits": (2, to_bits),
        "up": (1, lambda e: 1 << e if e > 0 else 1), "down": (1, lambda e: 1 << -e if e < 0 else 1),
        "unlike": (2, lambda s, t: bool(s) != bool(t)),
        "prec": (1, lambda f: 53), "low": (1, lambda f: 1074), "size": (1, int.bit_length),
        "nearest": (2, nearest), "sum": (6, summed),
        "units": (4, lambda f, s, q, k: quotient(s, q << k, 1 << 1074)),
    },
    "Rattle.std.specs.Float.Ieee.Scale": {"finite": (1, math.isfinite)},
    "Rattle.std.specs.Bool": {"beq": (2, lambda a, b: bool(a) == bool(b))},
    "Rattle.std.specs.Prelude": {
        "leb": (2, lambda a, b: a <= b), "ltb": (2, lambda a, b: a < b),
        "nat_lt": (2, lambda a, b: a < b),
        "eqb": (2, lambda a, b: a == b), "◌==◌": (2, lambda a, b: a == b),
        "set": (3, put_at), "slice_set": (3, put_at), "take": (2, lambda n, xs: xs[:n]),
        "true": (0, True), "false": (0, False), "not": (1, lambda a: not a),
        "◌&&◌": (2, both), "◌||◌": (2, lambda a, b: bool(a) or bool(b)),
        "[]": (0, ()), "◌∷◌": (2, lambda x, xs: (x, *xs)),
        "Some": (1, lambda x: ("Some", x)), "None": (0, ("None",)),
        "Ok": (1, lambda x: ("Ok", x)), "Err": (1, lambda e: ("Err", e)),
        **NATURAL,
    },
    "Rattle.std.specs.declared.cmp.Ordering.TheVariants": {
        "Less": (0, -1), "Equal": (0, 0), "Greater": (0, 1),
    },
    "Prim.Native.Nat": NATURAL,
}  # fmt: skip

# definitions that are not read from their text, by the file and the name
NATIVE = {
    ("crates/ieee754/specs/Root.antt", "sqrt"): square_root,
    ("crates/ieee754/specs/Root.antt", "cbrt"): cube_root,
    ("crates/ieee754/specs/Fma.antt", "fma"): fused,
}
