"""Random arguments of a function's types."""
import math
import random
import re

from interpret.values import NONE, RESULT, Cell, Outside, Struct, Variant, some
from syntax.types import settled

SPECIAL = [
    0.0,
    -0.0,
    1.0,
    -1.0,
    2.0,
    0.5,
    3.0,
    1e-14,
    1e-10,
    1e150,
    1e-150,
    1e308,
    5e-324,
    2.2250738585072014e-308,
    math.inf,
    -math.inf,
    math.nan,
]
MODES = ["special", "special", "zeros", "round", "normal", "normal", "frame", "frame", "frame"]


class Inputs:
    """Each run has one mode: some have small round doubles, so that comparisons meet their bounds,
    and some the parts of one camera frame. The seed is the function's path."""

    def __init__(self, world, function):
        self.world, self.rng = world, random.Random(function.path)
        numbers = [t for k, t, _, _ in function.file.tokens if k == "num"]
        floats = [
            float(t.replace("_", ""))
            for t in numbers
            if re.fullmatch(r"[\d_]+(\.\d+)?([eE][+-]?\d+)?", t) and re.search(r"[.e]", t)
        ]
        self.special = SPECIAL + [
            s * y
            for x in floats
            for y in (x, math.nextafter(x, math.inf), math.nextafter(x, 0.0))
            for s in (1, -1)
        ]
        whole = [int(t.replace("_", "")) for t in numbers if re.fullmatch(r"[\d_]+", t)]
        self.near = sorted({max(0, n + d) for n in whole if n < 1000 for d in (-1, 0, 1)}) or [0]

    def begin(self):
        self.mode = self.rng.choice(MODES)
        self.frame = self.camera_frame()

    def camera_frame(self):
        """Three points before a camera, and their unit bearings; the camera's axes are the world's
        but for a shift. With them the vectors and numbers that belong to them, so that a function
        of these meets a pose that holds, or nearly."""
        shift = [self.rng.uniform(-2, 2) for _ in range(3)]
        points = [
            [self.rng.uniform(-2, 2), self.rng.uniform(-2, 2), self.rng.uniform(2, 6)]
            for _ in range(3)
        ]
        norms = [math.sqrt(sum(x * x for x in p)) for p in points]
        world, bearings = [[x - s for x, s in zip(p, shift)] for p in points], [
            [x / n for x in p] for p, n in zip(points, norms)
        ]
        near = 1.0 + self.rng.choice([0.0, 1e-12, 1e-6, 1e-2])
        self.vectors = points + world + bearings + [shift] * 3 + [[n * near for n in norms]] * 3
        pairs = [(0, 1), (0, 2), (1, 2)]
        self.edges = [sum((x - y) ** 2 for x, y in zip(points[i], points[j])) for i, j in pairs]
        self.cosines = [sum(x * y for x, y in zip(bearings[i], bearings[j])) for i, j in pairs]
        scale = 1.0 + self.rng.choice([0.0, 0.0, 1e-11, 1e-10, 1e-7, 0.1])
        self.rotation = [scale * (i % 4 == 0) for i in range(9)]
        return world, bearings

    def arguments(self, function):
        return [self.make(t) for _, t in function.params]

    def make(self, kind):
        kind = settled(kind)
        if kind == "f64":
            return self.double()
        if kind == "bool":
            return self.rng.random() < 0.5
        if isinstance(kind, str):
            return self.whole(kind)
        if kind[0] == "ref":
            inner = self.make(kind[1])
            return inner if isinstance(inner, list) else Cell(inner) if len(kind) > 2 else inner
        if kind[0] == "array":
            return self.array(kind[1], kind[2])
        if kind[0] == "tuple":
            return tuple(self.make(t) for t in kind[1])
        if kind[0] == "option":
            return some(self.make(kind[1])) if self.rng.random() < 0.7 else NONE
        if kind[0] == "result":
            name = self.rng.choice(["Ok", "Err"])
            return Variant(RESULT, name, [self.make(kind[1 + (name == "Err")])])
        if kind in self.world.structs:
            return self.struct(kind)
        if kind not in self.world.enums:
            raise Outside()
        return self.variant(kind)

    def double(self):
        r = self.rng
        if self.mode == "special" and r.random() < 0.5:
            return r.choice(self.special)
        if self.mode == "zeros" and r.random() < 0.7:
            return r.choice([0.0, -0.0, 5e-324])
        if self.mode == "round":
            return float(r.randint(-3, 3))
        if self.mode == "normal" and r.random() < 0.1:
            return r.gauss(0, 1) * 10.0 ** r.randint(-200, 200)
        return r.gauss(0, 1)

    def whole(self, kind):
        r = self.rng
        if kind == "u8":
            return r.choice([0, 1, 10, 48, 193, r.randrange(256)])
        if kind in ("u32", "usize", "i32"):
            return r.choice([0, 0, 1, 2, 3, 4, 5, 10, r.randrange(20), r.randrange(400)])
        if kind == "u64":
            return r.choice(
                [
                    r.randrange(20),
                    r.randrange(1 << 12),
                    r.randrange(1 << 53),
                    r.randrange(1 << 64),
                    (1 << r.randrange(64)) - r.randrange(2),
                    (0x7ff << 52) + (r.randrange(2) << 63) + r.choice([0, 1, 1 << 51]),
                ]
            )
        raise KeyError(kind)

    def array(self, inner, length):
        r = self.rng
        n = (
            int(length)
            if length
            else r.choice([194, 195, 196, 400, 700, r.choice(self.near), r.choice(self.near)])
        )
        if inner == "f64" and n == 18 and self.mode == "frame":
            return [x for part in self.frame for v in part for x in v]
        if inner == "u8" and n > 3 and self.mode != "special":
            return [0, 193, r.choice([1, 1, 2])] + [r.randrange(256) for _ in range(n - 3)]
        return [self.make(inner) for _ in range(n)]

    def struct(self, kind):
        fields = self.world.parts(kind)
        if self.mode == "frame" and kind[2] in ("World", "Bearings"):
            part = self.frame[kind[2] == "Bearings"]
            return Struct(
                kind, {f: Struct(t, dict(zip("xyz", v))) for (f, t), v in zip(fields.items(), part)}
            )
        if self.mode == "frame":
            of_frame = {
                "Vector3": self.rng.choice(self.vectors),
                "Matrix3": self.rotation,
                "SquaredEdges": self.edges,
                "Cosines": self.cosines,
            }
            if kind[2] in of_frame:
                return Struct(kind, dict(zip(fields, of_frame[kind[2]])))
        return Struct(kind, {f: self.make(t) for f, t in fields.items()})

    def variant(self, kind):
        variants = self.world.enums[kind]
        chosen = self.rng.choice(sorted(variants))
        parts = variants[chosen]
        return Variant(
            kind,
            chosen,
            {f: self.make(t) for f, t in parts.items()}
            if isinstance(parts, dict)
            else [self.make(t) for t in parts],
        )
