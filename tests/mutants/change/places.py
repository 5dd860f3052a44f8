"""The places of a body that a mutant changes, and what may stand there instead. An operand is
replaced only by another of its type."""
import re

from change.changes import OPERATORS, near_floats, near_numbers
from syntax import library
from syntax.grammar import Grammar
from syntax.types import INTEGERS, bare, of_type, settled


class Place:
    """A span of a body and the texts that may stand there instead. A late one is tried after the
    others: it changes which facts the prover asks for (an overflow for a zero divisor, another
    callee), so that the proof file seldom fits it."""

    def __init__(self, kind, start, end, options, late):
        self.kind, self.start, self.end, self.options, self.late = kind, start, end, options, late


def signature(f):
    """The types of a function's parameters, and that of its result."""
    return [t for _, t in f.params], f.result


class Marks(Grammar):
    """A cursor in a function's body that marks places. What may stand there is asked for at the
    end, when types are settled."""

    def __init__(self, file, f, body, owner):
        super().__init__(file, file.tokens, body)
        self.world, self.f, self.owner = file.world, f, owner
        self.scopes, self.raw = [dict(f.params)], []
        self.brought = {}  # the path of each name that a `use` within the body brings

    def mark(self, kind, start, end, options, late=lambda: False):
        self.raw.append(
            lambda: Place(kind, start, end, options() if callable(options) else options, late())
        )

    def marked(self):
        return [place for place in (make() for make in self.raw) if place.options]

    def source(self, start, end):
        return self.text[start:end]

    def visible(self):
        out = {}
        for scope in self.scopes:
            out.update(scope)
        return out

    def mark_operator(self, op, start, end, level, kind):
        whole = level > 2 and op not in "|&^"
        self.mark(
            "operator", start, end, list(OPERATORS[op]), lambda: whole and settled(kind) != "f64"
        )

    def overloads(self, owner, op):
        """The functions of an operator of a struct."""
        return self.world.overloads.get(of_type(owner, library.OPERATORS.get(op)), [])

    def mark_overloaded(self, f, owner, op, start, end):
        """An operator of a struct: those that take and give the same types."""
        same = [
            o
            for o in OPERATORS[op]
            if any(signature(g) == signature(f) for g in self.overloads(owner, o))
        ]
        self.mark("operator", start, end, same)

    def mark_assignment(self, op, kind):
        self.mark(
            "operator",
            self.start(),
            self.end(),
            list(OPERATORS.get(op, [])),
            lambda: settled(kind) != "f64",
        )

    def mark_operand(self, kind, name, start, end):
        """The other locals of a type; where there is none, a literal."""
        visible = self.visible()

        def others():
            return [] if self.assigned(end) else self.others(visible, name, settled(kind))

        self.mark("operand", start, end, others)

    def others(self, visible, name, own):
        """The other locals of a type; where there is none, a literal."""
        if own in (None, "integer", "()"):
            return []
        same = [n for n, t in visible.items() if n != name and settled(t) == own]
        if not same and isinstance(own, str):
            same = {"f64": ["0.0"], "bool": ["true", "false"]}.get(
                own, ["0", "1"] if own in INTEGERS else []
            )
        return same

    def assigned(self, end):
        return re.match(r"\s*[-+*/%|&^]?=[^=>]", self.text[end:]) is not None

    def mark_field(self, fields, name, start, at, end):
        """The other fields of a field's type; where there is none, a local."""
        kind = fields.get(name)
        same = [f for f, t in fields.items() if t == kind and f != name]
        self.mark("operand", at, end, same)
        if not same:
            self.mark_operand(kind, None, start, end)

    def mark_short_field(self, field, visible, start, end):
        """A field that is given by a local of its name: the other locals of its type; where there
        is none, a literal."""

        def others():
            return [f"{field}: {n}" for n in self.others(visible, field, settled(visible[field]))]

        self.mark("operand", start, end, others)

    def mark_given_fields(self, fields, given):
        """The fields that stand before the `..` of a struct: another of a field's type that is not
        given, with the same value. given: where each stands, and what has to follow it."""
        for field, (start, end, value) in given.items():
            same = [f for f, t in fields.items() if t == fields.get(field) and f not in given]
            self.mark("operand", start, end, [f + value for f in same])

    def mark_exchanges(self, spans, kinds):
        """Two arguments of one type exchanged."""
        for i in range(len(spans)):
            for j in range(i + 1, len(spans)):

                def swapped(i=i, j=j):
                    a, b = self.source(*spans[i]), self.source(*spans[j])
                    if (
                        settled(kinds[i]) is None
                        or settled(kinds[i]) != settled(kinds[j])
                        or a == b
                    ):
                        return []
                    return [b + self.source(spans[i][1], spans[j][0]) + a]

                self.mark("operand", spans[i][0], spans[j][1], swapped)

    def mark_receiver(self, owner, name, start, at, spans, kinds):
        """A receiver and its one argument of the same type exchanged."""
        if len(kinds) == 1 and bare(kinds[0]) == owner:
            first, second = self.source(start, at - 1), self.source(*spans[0])
            if (
                first != second
                and re.fullmatch(r"[\w.]+", first)
                and re.fullmatch(r"[\w.]+", second)
            ):
                self.mark("operand", start, spans[0][1], [second + "." + name + "(" + first])

    def mark_method(self, f, owner, name, at):
        """Another method of the same type."""
        crate, module, own = of_type(owner, name)
        same = [
            n
            for (c, m, n), g in self.world.functions.items()
            if (c, m) == (crate, module)
            and n.startswith(own.removesuffix(name))
            and g is not f
            and g is not self.f
            and signature(g) == signature(f)
        ]
        self.mark(
            "called function", at, at + len(name), [n.split("::")[1] for n in same], lambda: True
        )

    def mark_called(self, f, start, end):
        """Another function of the same type, of another crate."""
        uses = self.world.uses[self.file.crate]
        same = [
            "::".join((c, m, n))
            for (c, m, n), g in self.world.functions.items()
            if g.public
            and "::" not in n
            and c in uses
            and m
            and g is not f
            and signature(g) == signature(f)
        ]
        self.mark("called function", start, end, same, lambda: True)

    def mark_constant(self, target, start, end):
        """The other constants of a type, and the next number or double."""
        consts = self.world.consts
        kind, value = consts[target]
        if not isinstance(kind, str):
            return
        near = near_floats(value) if kind == "f64" else near_numbers(value)
        others = [
            n
            for n, k in self.file.names.items()
            if k != target and k in consts and consts[k][0] == kind
        ]
        self.mark("constant", start, end, others + near)

    def mark_variant(self, variants, name, start, end):
        """The other variants of the same parts."""
        self.mark(
            "constant",
            start,
            end,
            [v for v, p in variants.items() if v != name and p == variants.get(name)],
        )
