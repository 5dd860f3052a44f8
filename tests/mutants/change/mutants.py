"""The mutants of a function, in the order in which they are tried."""
import random

SEED = 1


def squeeze(s):
    return " ".join(s.split())


class Mutant:
    """A place of a function and the text that stands there instead; verdict and said are what the
    prover makes of it."""

    def __init__(self, function, place, new):
        self.function, self.place, self.new = function, place, new
        text, start, end = function.file.text, place.start, place.end
        self.line = text.count("\n", 0, start) + 1
        first, last = text.rfind("\n", 0, start) + 1, text.find("\n", end)
        self.old_line = squeeze(text[first:last])
        self.new_line = squeeze(text[first:start] + new + text[end:last])
        self.verdict, self.said = None, ""
        self.where = f"{function.file.short}:{self.line}"
        self.key = (function.path, place.kind, self.old_line, self.new_line)

    def within(self, text):
        """The text of the function's file with this change; text may have other changes behind
        it."""
        return text[: self.place.start] + self.new + text[self.place.end :]


def mutants_of(function):
    """The function's mutants in the order in which they are tried, each once."""
    seen, out = set(), []
    for place, new in ordered(function):
        m = Mutant(function, place, new)
        if m.new_line != m.old_line and (place.start, place.end, new) not in seen:
            seen.add((place.start, place.end, new))
            out.append(m)
    return out


def ordered(function):
    """The places and their texts: a place is tried once before any is tried twice, and the kinds of
    change take turns. Late places come last."""
    draws = drawn(function)
    order = []
    for late in (False, True):
        for turn in range(max((p[1] for p in draws), default=-1) + 1):
            kinds = {}
            for p in sorted(
                (p for p in draws if p[0] == late and p[1] == turn), key=lambda p: p[2]
            ):
                kinds.setdefault(p[3].kind, []).append(p)
            queues = [kinds[k] for k in sorted(kinds)]
            while queues:
                for q in queues:
                    order.append(q.pop(0)[3:])
                queues = [q for q in queues if q]
    return order


def drawn(function):
    """Each place and text: whether it is late, its turn at the place, a random number, the place
    and the text."""
    rng = random.Random(f"{SEED} {function.path}")
    out = []
    for place in function.places:
        options = list(place.options)
        if place.kind == "operand":
            rng.shuffle(options)
        for turn, new in enumerate(options):
            out.append((place.late, turn, rng.random(), place, new))
    return out
