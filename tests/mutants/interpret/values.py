"""The interpreter's values, and what ends a computation. Numbers and truth values are Python's,
arrays are lists."""
import copy
import struct


class Trap(Exception):
    """An overflow, an index out of range, a division by zero, or too many steps."""


class Outside(Exception):
    """A call that leaves the repository's crates: what is read and written is not interpreted."""


class Return(Exception):
    def __init__(self, value):
        self.value = value


class Break(Exception):
    pass


class Struct:
    def __init__(self, key, fields):
        self.key, self.fields = key, fields


class Variant:
    def __init__(self, key, name, parts):
        self.key, self.name, self.parts = key, name, parts


AMPLE = 1 << 14  # of a capacity that is a parameter, as much as an input needs


class Bounded(list):
    """An array with a capacity, and as many entries as it holds."""

    capacity = 0


class Cell:
    """What a `&mut` of a number or a struct refers to."""

    def __init__(self, value):
        self.value = value


def plain(v):
    """A value for comparison: doubles by their bits, and one NaN."""
    if isinstance(v, bool):
        return v
    if isinstance(v, float):
        return "nan" if v != v else struct.pack(">d", v)
    if isinstance(v, (list, tuple)):
        return [plain(x) for x in v]
    if isinstance(v, Struct):
        return {k: plain(x) for k, x in v.fields.items()}
    if isinstance(v, Variant):
        return (v.name, plain(list(v.parts.values()) if isinstance(v.parts, dict) else v.parts))
    if isinstance(v, Cell):
        return plain(v.value)
    return v


def held(v):
    """What a cell holds, or the value itself."""
    return v.value if isinstance(v, Cell) else v


def taken(v):
    """A copy of what has parts that can be stored to."""
    return copy.deepcopy(v) if isinstance(v, (Struct, Variant, list, tuple)) else v


def some(v):
    return Variant(OPTION, "Some", [v])


OPTION, RESULT = ("core", "option", "Option"), ("core", "result", "Result")
NONE = Variant(OPTION, "None", [])
