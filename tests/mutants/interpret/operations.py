"""The operations of the interpreter: binary operators, casts, and the functions that are built
in."""
import math
import struct

from interpret.values import NONE, RESULT, Bounded, Outside, Trap, Variant, some

NAN = float("nan")


def operate(op, x, y):
    if op in ("<", "<=", ">", ">=", "==", "!="):
        return {"<": x < y, "<=": x <= y, ">": x > y, ">=": x >= y, "==": x == y, "!=": x != y}[op]
    if isinstance(x, bool):
        return {"&": x & y, "|": x | y, "^": x ^ y}[op]
    if isinstance(x, float):
        return divide(x, y) if op == "/" else {"+": x + y, "-": x - y, "*": x * y}[op]
    return operate_whole(op, x, y)


def divide(x, y):
    if y == 0.0:
        return NAN if x == 0.0 or x != x else math.copysign(math.inf, x) * math.copysign(1.0, y)
    return x / y


def operate_whole(op, x, y):
    """Whole numbers of 64 bits with no sign."""
    if op in ("/", "%") and y == 0 or op in ("<<", ">>") and not 0 <= y < 64:
        raise Trap(op)
    out = {
        "+": lambda: x + y,
        "-": lambda: x - y,
        "*": lambda: x * y,
        "/": lambda: x // y,
        "%": lambda: x % y,
        "&": lambda: x & y,
        "|": lambda: x | y,
        "^": lambda: x ^ y,
        "<<": lambda: (x << y) % (1 << 64),
        ">>": lambda: x >> y,
    }[op]()
    if not 0 <= out < 1 << 64:
        raise Trap("overflow")
    return out


def cast(value, kind):
    if kind == "f64":
        return float(value)
    bits = {"u8": 8, "u16": 16, "u32": 32, "i32": 32}.get(kind, 64)
    if not 0 <= int(value) < 1 << bits:
        raise Trap("cast")
    return int(value)


def from_bits(n):
    if n % (1 << 63) > 0x7ff << 52:
        raise Trap("the pattern of a NaN")
    return struct.unpack(">d", struct.pack(">Q", n))[0]


def to_bits(x):
    if x != x:
        raise Trap("the pattern of a NaN")
    return struct.unpack(">Q", struct.pack(">d", x))[0]


def root(x):
    return NAN if x != x or x < 0.0 else math.sqrt(x) if x != 0.0 else x


def narrowed(bits):
    def try_from(n):
        fits = 0 <= n < 1 << bits
        return Variant(RESULT, "Ok", [n]) if fits else Variant(RESULT, "Err", [NONE])

    return try_from


def extended(own, more):
    if len(own) + len(more) > own.capacity:
        return Variant(RESULT, "Err", [NONE])
    own.extend(more)
    return Variant(RESULT, "Ok", [NONE])


def signed(n):
    return n - (1 << 64) if n >= 1 << 63 else n


def is_nan(x):
    return x != x


# The functions of the library, by their paths, and the methods, by their names. Whole numbers have
# 64 bits where a method asks for a width.
BUILT_IN = {
    "f64::from_bits": from_bits,
    "f64::to_bits": to_bits,
    "u64::leading_zeros": lambda n: 64 - n.bit_length(),
    "u64::from_be_bytes": lambda s: int.from_bytes(bytes(s), "big"),
    "u16::from_be_bytes": lambda s: int.from_bytes(bytes(s), "big"),
    "u32::from_be_bytes": lambda s: int.from_bytes(bytes(s), "big"),
    "BigEndian::read_u64": lambda s: int.from_bytes(bytes(s[:8]), "big"),
    "BigEndian::read_u16": lambda s: int.from_bytes(bytes(s[:2]), "big"),
    "itoa::Buffer::new": list,
    "ArrayVec::new": Bounded,
    "u8::try_from": narrowed(8),
    "u32::try_from": narrowed(32),
    "i32::try_from": lambda n: Variant(RESULT, "Ok", [n])
    if -(1 << 31) <= n < 1 << 31
    else Variant(RESULT, "Err", [NONE]),
    "f64::from": float,
    "wrapping_add_u64": lambda a, b: (a + b) % (1 << 64),
    "wrapping_sub_u64": lambda a, b: (a - b) % (1 << 64),
}
METHODS = {
    # of doubles
    "is_nan": is_nan,
    "is_finite": math.isfinite,
    "to_bits": to_bits,
    "sqrt": root,
    # of whole numbers
    "min": min,
    "wrapping_add": lambda a, b: (a + b) % (1 << 64),
    "wrapping_sub": lambda a, b: (a - b) % (1 << 64),
    "wrapping_mul": lambda a, b: (a * b) % (1 << 64),
    "saturating_sub": lambda a, b: max(a - b, 0),
    "checked_add": lambda a, b: some(a + b) if a + b < 1 << 64 else NONE,
    "leading_zeros": lambda n: 64 - n.bit_length(),
    "cast_signed": signed,
    "to_be_bytes": lambda n: list(n.to_bytes(8, "big")),
    # of truth values, options and results
    "then_some": lambda b, v: some(v) if b else NONE,
    "is_some": lambda o: o.name == "Some",
    "is_none": lambda o: o.name == "None",
    "is_ok": lambda o: o.name == "Ok",
    "is_err": lambda o: o.name == "Err",
    "map": lambda o, f: mapped(o, f),
    "map_or": lambda o, d, f: f(o.parts[0]) if o.name in ("Some", "Ok") else d,
    "unwrap_or": lambda o, d: o.parts[0] if o.name in ("Some", "Ok") else d,
    "and_then": lambda o, f: f(o.parts[0]) if o.name in ("Some", "Ok") else o,
    "ok_or": lambda o, e: Variant(RESULT, "Ok", o.parts) if o.name == "Some"
    else Variant(RESULT, "Err", [e]),
    "ok": lambda o: some(o.parts[0]) if o.name == "Ok" else NONE,
    # of arrays with a capacity, and of texts
    "push": lambda s, x: s.append(x),
    "clear": lambda s: s.clear(),
    "remaining_capacity": lambda s: s.capacity - len(s),
    "try_extend_from_slice": extended,
    "as_bytes": lambda t: list(t.encode()),
    "format": lambda _, n: str(n),
    # of slices and of what goes through them
    "len": len,
    "is_empty": lambda s: not s,
    "first": lambda s: some(s[0]) if s else NONE,
    "as_slice": lambda s: s,
    "iter": lambda s: s,
    "into_iter": lambda s: s,
    "copied": lambda s: s,
    "enumerate": lambda s: list(enumerate(s)),
    "zip": lambda s, t: list(zip(s, t)),
    "take": lambda s, n: s[:n],
    "skip": lambda s, n: s[n:],
    "rev": lambda s: list(s)[::-1],
    "all": lambda s, f: all(f(x) for x in s),
    "any": lambda s, f: any(f(x) for x in s),
    "fold": lambda s, v, f: folded(s, v, f),
}


def mapped(own, f):
    if isinstance(own, Variant):
        return some(f(own.parts[0])) if own.name == "Some" else own
    return [f(x) for x in own]


def folded(s, value, f):
    for x in s:
        value = f(value, x)
    return value


def built_in(path):
    if path[-1] == "from" and path[0] in ("u16", "u32", "u64", "usize", "i64"):
        return int
    return BUILT_IN.get("::".join(path)) or BUILT_IN.get(path[-1])


def method(name, own, values):
    """A method of the library."""
    if name not in METHODS:
        raise Outside()
    return METHODS[name](own, *values)
