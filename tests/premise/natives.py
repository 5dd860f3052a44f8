"""The roots and the fused multiply-add, which the interpreter does natively, beside their text
(crates/ieee754/specs/Root.antt, Fma.antt), on random doubles and those at the edges."""
import itertools
import random

from frames import SEED, bits, of_word
from interpret import library
from interpret.compiled import Program

SPECIAL = [
    0, 1, 2, 0x000FFFFFFFFFFFFF, 0x0010000000000000, 0x3CB0000000000000, 0x3FEFFFFFFFFFFFFF,
    0x3FF0000000000000, 0x3FF0000000000001, 0x4008000000000000, 0x401C000000000000,
    0x7FEFFFFFFFFFFFFF, 0x7FF0000000000000, 0x7FF8000000000000,
]  # fmt: skip


def operands(r, many, count):
    signed = [of_word(w | s) for w in SPECIAL for s in (0, 1 << 63)]
    yield from itertools.product(signed, repeat=many)
    for _ in range(count):
        xs = [of_word(r.getrandbits(64)) for _ in range(many)]
        if many == 3 and r.random() < 0.7:
            # an addend that all but cancels the product
            xs[:2] = [r.uniform(-2, 2) * 2.0 ** r.randint(-520, 500) for _ in range(2)]
            xs[2] = of_word(max(bits(-xs[0] * xs[1]) + r.randint(-3, 3), 0) % (1 << 64))
        yield xs


def differences(root, count=2000):
    """How many arguments the texts were asked, and those at which the native answer differs."""
    text, r, asked, differ = Program(root, native={}), random.Random(SEED), 0, []
    for (path, name), native in library.NATIVE.items():
        by_text = text.function(path, name)
        for xs in operands(r, native.__code__.co_argcount, count):
            asked += 1
            a, b = native(*xs), by_text(*xs)
            if a != a and b != b:
                continue
            if bits(a) != bits(b):
                differ.append((name, xs, a, b))
    return asked, differ
