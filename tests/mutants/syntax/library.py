"""What the crates use of the language's library: constants, and the types that a function or a
method of it takes and gives, as far as they are told."""
import math
import sys

CONSTANTS = {
    "f64::EPSILON": 2.0**-52,
    "f64::MIN_POSITIVE": sys.float_info.min,
    "f64::NAN": math.nan,
    "f64::INFINITY": math.inf,
    "f64::NEG_INFINITY": -math.inf,
    "u32::MAX": (1 << 32) - 1,
    "u64::MAX": (1 << 64) - 1,
    "usize::MAX": (1 << 64) - 1,
}
FUNCTIONS = {
    "f64::from_bits": (["u64"], "f64"),
    "f64::to_bits": (["f64"], "u64"),
    "u64::leading_zeros": (["u64"], "u32"),
    "u64::trailing_zeros": (["u64"], "u32"),
    "u64::count_ones": (["u64"], "u32"),
    "BigEndian::read_u64": ([("ref", ("array", "u8", None))], "u64"),
    "BigEndian::read_u16": ([("ref", ("array", "u8", None))], "u16"),
}
# The result of a method; "own" is the type of what it is called of.
METHODS = {
    "len": "usize",
    "is_nan": "bool",
    "is_finite": "bool",
    "is_empty": "bool",
    "is_some": "bool",
    "is_none": "bool",
    "is_ok": "bool",
    "is_err": "bool",
    "all": "bool",
    "any": "bool",
    "to_bits": "u64",
    "leading_zeros": "u32",
    "sqrt": "own",
    "min": "own",
    "wrapping_add": "own",
    "wrapping_sub": "own",
    "wrapping_mul": "own",
    "saturating_sub": "own",
    "iter": "own",
    "copied": "own",
    "rev": "own",
    "take": "own",
    "skip": "own",
}
OPERATORS = {"+": "add", "-": "sub", "*": "mul", "/": "div"}
