"""Frame records: two bytes of length (193), one of version (1), 24 doubles, all big-endian."""

import math
from typing import NamedTuple

from tool import Fault
from tool.numbers import doubles, shown

LENGTH, VERSION, NUMBERS = 193, 1, 24
SIZE = 2 + LENGTH
LABELS = (
    "P0",
    "P1",
    "P2",
    "bearing of P0",
    "bearing of P1",
    "bearing of P2",
    "checking target",
    "checking bearing",
)


class Record(NamedTuple):
    """A record by its number from 1. Of another version than 1 only that is known."""

    number: int
    version: int
    patterns: list

    def vectors(self):
        """Each of the eight vectors with its label."""
        return [(label, self.patterns[3 * i : 3 * i + 3]) for i, label in enumerate(LABELS)]

    def not_finite(self):
        """The labels of those that the solve reads and that hold an infinity or a NaN."""
        solved = [(label, doubles(vector)) for label, vector in self.vectors()[:6]]
        return [label for label, vector in solved if not all(map(math.isfinite, vector))]


class Stop(Fault):
    """A record at which a run of `poses` stops: its refusal number, and the records before it."""

    def __init__(self, refusal, name, before, reason):
        at = f"{name}, record {len(before) + 1}"
        super().__init__(f"{at}: {reason} (stop {refusal}); nothing is read after it")
        self.refusal, self.before = refusal, before


def encode(patterns):
    words = b"".join(pattern.to_bytes(8, "big") for pattern in patterns)
    return LENGTH.to_bytes(2, "big") + bytes([VERSION]) + words


def decode(name, data):
    """The records of an input, by the questions that `poses` asks, in their order."""
    found = []
    for at in range(0, len(data), SIZE):
        length, here = int.from_bytes(data[at : at + 2], "big"), data[at : at + SIZE]
        if len(here) >= 2 and length != LENGTH:
            raise Stop(7, name, found, f"its length is {length} and not {LENGTH}")
        if len(here) < SIZE:
            raise Stop(9, name, found, f"cut short, {len(here)} of {SIZE} bytes are there")
        words = [int.from_bytes(here[i : i + 8], "big") for i in range(3, SIZE, 8)]
        found.append(Record(len(found) + 1, here[2], words if here[2] == VERSION else []))
    return found


def text_lines(record):
    """A record as text that `make` reads back; one of another version as a comment alone."""
    if record.version != VERSION:
        return [f"# record {record.number}: version {record.version} and not {VERSION}, not read"]
    lines = [f"# record {record.number}"]
    for label, vector in record.vectors():
        lines.append("".join(f"{shown(pattern):<25}" for pattern in vector) + f"# {label}")
    return lines
