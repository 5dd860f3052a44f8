#!/usr/bin/env python3
"""Writes the test vectors of the single operations: crates/replay/data/exact, a file for each
operation.

    python3 tests/ieee754/make.py           write the files
    python3 tests/ieee754/make.py --check   say whether the files are those that this script makes

A file is a row of records of 64-bit words, most significant byte first: the arguments as bit
patterns, then the result. A NaN result is 7ff8000000000000; is_finite and total_order answer 1 or
0, total_cmp 0, 1 or 2 for below, equal and above. The arguments come from values.py, roots.py and
fused.py, by kinds that are hard for one way to compute or another, and the results from exact.py,
by whole numbers alone."""

import os
import sys

sys.dont_write_bytecode = True

import exact
from fused import fma_arguments
from roots import cbrt_arguments, sqrt_arguments
from values import GRID, GRID_OF_THREE, SEED, Random

DATA = os.path.join(
    os.path.dirname(os.path.abspath(__file__)), "..", "..", "crates", "replay", "data", "exact"
)


def on_grid(count, grid):
    """Every row of so many values of the grid."""
    rows = [()]
    for _ in range(count):
        rows = [row + (value,) for row in rows for value in grid]
    return {"grid": rows}


def files(r):
    return [
        ("abs", exact.absolute, on_grid(1, GRID)),
        ("copysign", exact.copysign, on_grid(2, GRID)),
        ("max", exact.maximum, on_grid(2, GRID)),
        ("clamp", exact.clamp, on_grid(3, GRID_OF_THREE)),
        ("is_finite", lambda x: int(exact.is_finite(x)), on_grid(1, GRID)),
        ("total_order", exact.total_order, on_grid(2, GRID)),
        ("total_cmp", exact.total_cmp, on_grid(2, GRID)),
        ("sqrt", exact.sqrt, sqrt_arguments(r)),
        ("cbrt", exact.cbrt, cbrt_arguments(r)),
        ("fma", exact.fma, fma_arguments(r)),
    ]


def encoded(operation, kinds):
    words = [word for rows in kinds.values() for row in rows for word in row + (operation(*row),)]
    return b"".join(word.to_bytes(8, "big") for word in words)


def main(checking):
    print(f"{exact.check()} values worked by hand agree; seed {SEED:016x}")
    total = 0
    for name, operation, kinds in files(Random(SEED)):
        content, path = encoded(operation, kinds), os.path.join(DATA, name + ".bin")
        total += len(content)
        counts = ", ".join(f"{kind} {len(rows)}" for kind, rows in kinds.items())
        print(f"{name} {sum(map(len, kinds.values()))}: {counts}")
        if not checking:
            os.makedirs(DATA, exist_ok=True)
            open(path, "wb").write(content)
        elif open(path, "rb").read() != content:
            sys.exit(f"{name} differs from what this script makes")
    print(f"{total} bytes")


if __name__ == "__main__":
    main(sys.argv[1:] == ["--check"])
