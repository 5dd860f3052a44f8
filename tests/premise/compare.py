"""One frame: what the Rust raised and answered, beside what the definition says."""
import sys
from typing import Callable, NamedTuple

from frames import bits, doubles
from interpret import raised
from interpret.compiled import Program, record_class

sys.setrecursionlimit(20000)
VECTOR = record_class(("x", "y", "z"))
WORLD = record_class(("p0", "p1", "p2"))
BEARINGS = record_class(("f0", "f1", "f2"))
# the flags by which a run of the Rust tells that an operation failed the premise
TELLING = raised.INVALID | raised.DIVISION | raised.OVERFLOW | raised.UNDERFLOW
SILENT = raised.EXACT | raised.ROUNDED_UP


class Seen(NamedTuple):
    """What is kept of a frame: whether it is regular, the flags that the processor raised, what the
    definition's operations raise (raised.py), and whether the answers are the same."""

    regular: bool
    flags: int
    marks: int
    same: bool


class Definition:
    """The definition of a solver, as its text says or with other texts for some files."""

    def __init__(self, root, solver, changed=None):
        self.solver = solver
        self.solve = Program(root, changed).function(solver.path, solver.name)

    def of(self, frame):
        xs = doubles(frame)
        vectors = [VECTOR(*xs[i : i + 3]) for i in range(0, 18, 3)]
        return self.solve(WORLD(*vectors[:3]), BEARINGS(*vectors[3:]))

    def is_regular(self, frame):
        return bool(self.of(frame).regular)


def answer_text(answer, origin=()):
    """The answer as the reference's command `flags` writes it, or `flags-about` with the origin."""
    words = [str(answer.refusal), str(answer.count)] + [f"{bits(x):016x}" for x in origin]
    for pose, updates, lifted in zip(answer.poses[: answer.count], answer.updates, answer.lifted):
        m, t = pose.rotation, pose.translation
        entries = [
            m.m00, m.m10, m.m20, m.m01, m.m11, m.m21, m.m02, m.m12, m.m22, t.x, t.y, t.z,
        ]  # fmt: skip
        words += [str(updates), str(int(lifted))] + [f"{bits(x):016x}" for x in entries]
    return " ".join(words)


def about_text(about):
    return answer_text(about.answer, (about.origin.x, about.origin.y, about.origin.z))


class Solver(NamedTuple):
    """A definition, the reference's command for it, and how that writes its answer."""

    path: str
    name: str
    command: str
    text: Callable


SOLVE = Solver("crates/lambdatwist/specs/Solve.antt", "solve", "flags", answer_text)
ABOUT = Solver("crates/about/specs/SolveAbout.antt", "solve_about", "flags-about", about_text)


def see(definition, frame, line):
    traced = definition.of(frame)
    flags, answer = line.split(" ", 1)
    return Seen(
        bool(traced.regular),
        int(flags, 16),
        raised.raised_by(traced.regular),
        answer == definition.solver.text(traced.value),
    )


def raised_though_regular(seen):
    """Direction (a): the processor raised a telling flag, and the frame is regular. Invalid does
    not count where it is a negative number's square root, of which the premise asks nothing."""
    telling = seen.flags & TELLING
    if seen.marks & raised.NEGATIVE_ROOT:
        telling &= ~raised.INVALID
    return seen.regular and telling != 0


def silent_though_irregular(seen):
    """Direction (b): the frame is not regular, and the processor raised no telling flag; nor is
    there an operation that fails the premise without one."""
    return not seen.regular and not seen.flags & TELLING and not seen.marks & SILENT


def other_flags(seen):
    """The telling flags are not just those that the definition's operations raise."""
    return (seen.flags ^ seen.marks) & TELLING != 0
