"""Numbers as text and as the bit patterns of doubles.

A pattern is a whole number of 64 bits, so that a NaN keeps all of its bits on the way."""

import math
import re
import struct

from tool import Fault

INFINITY, NAN, MINUS = 0x7FF0000000000000, 0x7FF8000000000000, 1 << 63
# in any case, as the printing of C, Rust and others has them
NAMED = re.compile(r"([+-]?)(inf|infinity|nan)", re.A | re.I)
# the digits before the exponent are the first group
DECIMAL = re.compile(r"[+-]?(\d+\.?\d*|\.\d+)(?:[eE][+-]?\d+)?", re.A)
HEXADECIMAL = re.compile(r"hex:[+-]?0x([\da-f]+\.?[\da-f]*|\.[\da-f]+)(?:p[+-]?\d+)?", re.A | re.I)
BITS = re.compile(r"bits:([\da-f]{16})", re.A)


def double(pattern):
    return struct.unpack(">d", pattern.to_bytes(8, "big"))[0]


def doubles(patterns):
    return [double(pattern) for pattern in patterns]


def from_hexadecimal(word):
    try:
        return float.fromhex(word.removeprefix("hex:"))
    except OverflowError:
        return math.inf


def rounded(word, digits, value):
    """The pattern of a number as read; one that no double is near to is a fault."""
    if math.isinf(value):
        raise Fault(f"{word!r} is too large for a double (an infinity is written inf)")
    if value == 0 and re.search("[1-9a-f]", digits, re.I):
        raise Fault(f"{word!r} is too small for a double (a zero is written 0)")
    return int.from_bytes(struct.pack(">d", value), "big")


def pattern(word):
    if found := NAMED.fullmatch(word):
        return MINUS * (found[1] == "-") | (NAN if found[2].lower() == "nan" else INFINITY)
    if found := BITS.fullmatch(word):
        return int(found[1], 16)
    for form, read in ((DECIMAL, float), (HEXADECIMAL, from_hexadecimal)):
        if found := form.fullmatch(word):
            return rounded(word, found[1], read(word))
    raise Fault(f"{word[:40]!r} is no number")


def is_negative(word):
    """Whether a word is a number with a minus, of whatever size."""
    return word[:1] == "-" and bool(DECIMAL.fullmatch(word) or NAMED.fullmatch(word))


def shown(pattern):
    """The shortest text that is read back to the same bits."""
    value = double(pattern)
    if math.isnan(value):
        return "nan" if pattern == NAN else f"bits:{pattern:016x}"
    return repr(value)


def misplaced(lines, size, what):
    """Where to look for a number that is missing or too many, by the line of each number: mostly
    before the first group that does not begin with a line."""
    for at in range(size, len(lines), size):
        if lines[at] == lines[at - 1]:
            return (
                f"{what} {at // size + 1} begins in the middle of line {lines[at]}: look in lines "
                f"{lines[at - size]} to {lines[at]} for a number that is missing or too many"
            )
    over = len(lines) % size
    last = f"the last {what} begins in line {lines[-over]} and has {over}"
    return f"{last}; look before it too for numbers that are missing or too many"


def groups(name, text, size, what):
    """The numbers of a text by so many: patterns, parted by blanks or line ends; '#' starts a
    comment."""
    patterns, lines = [], []
    for line, content in enumerate(text.split("\n"), 1):
        for word in content.split("#")[0].split():
            try:
                patterns.append(pattern(word))
            except Fault as fault:
                raise Fault(f"{name}, line {line}: {fault}") from None
            lines.append(line)
    if len(patterns) % size:
        where = misplaced(lines, size, what)
        raise Fault(f"{name}: {len(patterns)} numbers, and a {what} has {size}: {where}")
    return [patterns[i : i + size] for i in range(0, len(patterns), size)]
