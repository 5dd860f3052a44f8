"""Values in a plain notation, read by their types, and answers to compare with.

  1.5, -0.0, inf, nan     a double; 0x7ff0000000000000 is one by its bits
  2^52 + 1, 1 - 2^-53     an exact number, for a double or a whole number
  (1, 2, 3)               a struct, its fields in the order in which they are declared
  [1, 2, 0; 46], b"ab"    an array or a slice; `0; 46` is a 0 46 times
  Made((1, 0, 0), zero)   a variant; Stop {refusal: 9}, where its parts have names; Some(1), None,
                          Ok(1), Err(7)
  zero                    a struct or an array of zeros
  frame[17]               what the stored frame 17 (from 0) has of this type

In an answer `_` stands for any value, {count: 2} for a struct by some of its fields, and two dots
after an array's entries for the rest of them. `trap` is the answer of a call that breaks a bound:
an index, a shift, a sum that does not fit."""
import itertools
import os
import struct
from fractions import Fraction

from interpret.operations import NAN
from interpret.values import AMPLE, OPTION, RESULT, Bounded, Cell, Struct, Variant
from interpret.values import held, plain, taken
from syntax.tokens import Cursor, literal, tokens
from syntax.types import settled

FRAMES, WORDS = os.path.join("crates", "replay", "data", "rust", "frame.bin"), 83


class Any:
    """Stands for any value."""


class Prefix(list):
    """Stands for an array that begins so."""


class Notation(Cursor):
    def __init__(self, world, text):
        super().__init__("an input", text, tokens(text), 0)
        self.world = world

    def whole(self, kind):
        """A value, and nothing after it."""
        value = self.value(kind)
        if self.kind() != "end":
            self.fail(f"{self.word()} after a value")
        return value

    def value(self, kind):
        kind = settled(kind)
        if self.passes("_"):
            return Any()
        if self.passes("zero"):
            return self.filled(kind, itertools.repeat(0))
        if self.passes("frame"):
            return self.stored(kind)
        if kind == "()":
            self.expect("(")
            self.expect(")")
            return None
        if isinstance(kind, str):
            return self.number(kind)
        if kind[0] == "ref":
            inner = self.value(kind[1])
            return inner if isinstance(inner, list) or len(kind) < 3 else Cell(inner)
        if kind[0] == "array":
            out = self.array(kind[1])
            if len(kind) > 3 and not isinstance(out, Prefix):
                out = Bounded(out)
                out.capacity = int(kind[3]) if kind[3].isdecimal() else AMPLE
            return out
        if kind[0] == "tuple":
            return tuple(self.fields(dict(enumerate(kind[1]))).values())
        if kind[0] in ("option", "result"):
            return self.library_variant(kind)
        if kind in self.world.enums:
            return self.variant(kind)
        return Struct(kind, self.fields(self.world.parts(kind)))

    def number(self, kind):
        if kind == "bool":
            return self.take() == "true"
        minus = self.passes("-")
        if kind != "f64":
            return int(self.exact(minus))
        if self.passes("nan"):
            return NAN
        if self.passes("inf"):
            return float("-inf" if minus else "inf")
        if self.word().startswith("0x"):
            return double(int(self.take(), 16))
        exact = self.exact(minus)
        return -0.0 if minus and exact == 0 else float(exact)

    def exact(self, minus):
        """A sum; minus: whether a minus stood before it."""
        total = self.term() * (-1 if minus else 1)
        while self.word() in ("+", "-"):
            total += self.term() if self.take() == "+" else -self.term()
        return total

    def term(self):
        base = self.take().replace("_", "")
        base = Fraction(int(base, 16) if base.startswith("0x") else base)
        if self.passes("^"):
            minus = self.passes("-")
            return base ** (int(self.take()) * (-1 if minus else 1))
        return base

    def array(self, kind):
        if self.kind() == "bytes":
            return self.rest(literal("bytes", self.take()))
        out = []
        self.expect("[")
        for _ in self.each("]"):
            if self.passes(".."):
                self.expect("]")
                return Prefix(out)
            out.append(self.value(kind))
            if self.passes(";"):
                out += [taken(out[-1]) for _ in range(int(self.take()) - 1)]
        return self.rest(out)

    def rest(self, out):
        return Prefix(out) if self.passes("..") else out

    def fields(self, kinds):
        """The parts of a struct or a variant, all in their order or some by their names."""
        out = {}
        if self.passes("{"):
            for _ in self.each("}"):
                name = self.take()
                self.expect(":")
                out[name] = self.value(kinds[name])
            return out
        self.expect("(")
        for name, kind in kinds.items():
            out[name] = self.value(kind)
            self.passes(",")
        self.expect(")")
        return out

    def library_variant(self, kind):
        """An Option or a Result."""
        name = self.take()
        key = OPTION if kind[0] == "option" else RESULT
        parts = {"Some": kind[1:2], "Ok": kind[1:2], "Err": kind[2:3], "None": ()}[name]
        return Variant(key, name, list(self.fields(dict(enumerate(parts))).values()) if parts else [])

    def variant(self, kind):
        name = self.take()
        parts = self.world.enums[kind][name]
        if not parts:
            return Variant(kind, name, parts)
        if isinstance(parts, dict):
            return Variant(kind, name, self.fields(parts))
        return Variant(kind, name, list(self.fields(dict(enumerate(parts))).values()))

    def stored(self, kind):
        """The points of a stored frame are its first nine words, and its bearings the next nine."""
        self.expect("[")
        at = 8 * WORDS * int(self.take())
        self.expect("]")
        with open(FRAMES, "rb") as f:
            words = [n for (n,) in struct.iter_unpack(">Q", f.read()[at : at + 8 * WORDS])]
        return self.filled(kind, iter(words[9:] if kind[-1] == "Bearings" else words))

    def filled(self, kind, words):
        if isinstance(kind, str):
            return double(next(words)) if kind == "f64" else next(words)
        if kind[0] == "ref":
            return self.filled(kind[1], words)
        if kind[0] == "array":
            return [self.filled(kind[1], words) for _ in range(int(kind[2]))]
        return Struct(kind, {f: self.filled(t, words) for f, t in self.world.parts(kind).items()})


def double(bits):
    return struct.unpack(">d", struct.pack(">Q", bits))[0]


def agrees(stated, value):
    """Whether a value is the stated one, so far as that says."""
    stated, value = held(stated), held(value)
    if isinstance(stated, Any):
        return True
    if isinstance(stated, Struct):
        return all(agrees(v, value.fields[f]) for f, v in stated.fields.items())
    if isinstance(stated, Variant):
        places = stated.parts if isinstance(stated.parts, dict) else range(len(stated.parts))
        return stated.name == value.name and all(
            agrees(stated.parts[i], value.parts[i]) for i in places
        )
    if isinstance(stated, tuple):
        return all(map(agrees, stated, value))
    if isinstance(stated, list):
        rest = len(value) - len(stated)
        fits = rest >= 0 if isinstance(stated, Prefix) else rest == 0
        return fits and all(map(agrees, stated, value))
    return plain(stated) == plain(value)
