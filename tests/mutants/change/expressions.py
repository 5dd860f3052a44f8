"""The expressions of a body: their types, and the places in them."""
from change.changes import changed_bytes, near_floats, near_numbers
from change.places import Marks, signature
from syntax.library import CONSTANTS, FUNCTIONS, METHODS, OPERATORS
from syntax.tokens import LEVELS, number_parts
from syntax.types import INTEGERS, Number, bare, join, of_type


class Expressions(Marks):
    """Each function reads an expression and gives its type, or None where it is not known. structs:
    whether a brace after a name begins a struct, which it does not in the condition of an `if`.
    Blocks, `if` and `match` are read by Body (bodies.py)."""

    structs = True

    def expression(self, structs=True):
        kept, self.structs = self.structs, structs
        kind = self.binary(0)
        if self.passes("..") or self.passes("..="):
            self.binary(0)
        self.structs = kept
        return kind

    def binary(self, level):
        if level == len(LEVELS):
            return self.cast()
        first = self.start()
        kind = self.binary(level + 1)
        while self.kind() == "op" and self.word() in LEVELS[level]:
            op, start, end, left = self.word(), self.start(), self.end(), (first, self.done())
            self.next()
            second = self.start()
            other = self.binary(level + 1)
            if "<<" not in LEVELS[level]:
                join(kind, other)
            if bare(kind) in self.world.structs:
                self.mark_exchanges([left, (second, self.done())], [bare(kind), bare(other)])
                kind = self.operated(bare(kind), op, start, end, bare(other))
                continue
            self.mark_operator(op, start, end, level, kind)
            if "<" in LEVELS[level]:
                kind = "bool"
        return kind

    def operated(self, owner, op, start, end, other):
        """What an operator of a struct gives."""
        found = self.overloads(owner, op)
        own = [f for f in found if bare(f.params[1][1]) == other]
        if own:
            self.mark_overloaded(own[0], owner, op, start, end)
        return (own or found)[0].result if found else None

    def cast(self):
        kind = self.unary()
        while self.passes("as"):
            kind = self.type()
        return kind

    def unary(self):
        if self.sees("!") or self.sees("-"):
            start, end = self.start(), self.end()
            self.next()
            kind = self.unary()
            self.mark("operator", start, end, [""])
            return kind
        if self.passes("*"):
            return bare(self.unary())
        if self.passes("&"):
            if self.passes("mut"):
                kept, self.raw = self.raw, []
                kind = self.unary()
                self.raw = kept
                return ("ref", kind, "mut")
            return ("ref", self.unary())
        return self.postfix()

    def postfix(self):
        start = self.start()
        kind = self.primary()
        while True:
            if self.passes("."):
                at, end = self.start(), self.end()
                name = self.take()
                if self.passes("::"):
                    self.skip("<", ">")
                owner = bare(kind)
                if self.sees("("):
                    kind = self.method(owner, name, start, at)
                else:
                    fields = self.world.parts(owner) if owner in self.world.structs else {}
                    kind = fields.get(name)
                    self.mark_field(fields, name, start, at, end)
            elif self.sees("["):
                kind = self.index(bare(kind))
            elif self.passes("?"):
                kind = bare(kind)
                kind = kind[1] if isinstance(kind, tuple) and len(kind) > 1 else None
            else:
                return kind

    def index(self, owner):
        """An entry of an array, or, by a range, a part of it."""
        self.expect("[")
        kept, self.structs = self.structs, True
        part = False
        if not self.sees(".."):
            join(self.binary(0), "usize")
        if self.passes(".."):
            part = True
            if not self.sees("]"):
                join(self.binary(0), "usize")
        self.structs = kept
        self.expect("]")
        if part:
            return owner
        return owner[1] if isinstance(owner, tuple) and owner[0] == "array" else None

    def method(self, owner, name, start, at):
        world = self.world
        declared = isinstance(owner, str) or owner in world.structs or owner in world.enums
        f = world.functions.get(of_type(owner, name)) if declared else None
        spans, kinds = self.arguments([t for _, t in f.params[1:]] if f else [])
        if f:
            self.mark_method(f, owner, name, at)
            self.mark_receiver(owner, name, start, at, spans, kinds)
            return f.result
        known = METHODS.get(name)
        return owner if known == "own" else known

    def tuple(self, first):
        return ("tuple", [first] + [self.expression() for _ in self.each(")")])

    def closure(self):
        bound = {}
        if not self.passes("||"):
            self.expect("|")
            while not self.passes("|"):
                pattern = self.one_pattern()
                bound.update(self.bound(pattern, self.type() if self.passes(":") else None))
                self.passes(",")
        if self.passes("->"):
            self.type()
        self.within(bound, self.expression)
        return "closure"

    def arguments(self, params):
        """The spans and the types of a call's arguments; params are the types that the callee asks
        for."""
        self.expect("(")
        spans, kinds = [], []
        for _ in self.each(")"):
            start = self.start()
            kind = self.expression()
            if len(kinds) < len(params):
                join(kind, params[len(kinds)])
            spans.append((start, self.done()))
            kinds.append(kind)
        self.mark_exchanges(spans, kinds)
        return spans, kinds

    def returned(self):
        join(self.expression(), self.f.result)
        return "!"

    def value(self):
        """A number, a byte, a byte string or a truth value."""
        kind, word, start, end = self.tokens[self.at]
        self.next()
        if kind == "num":
            return self.number(word, start, end)
        if kind == "bytes":
            self.mark("constant", start, end, changed_bytes(word))
            return ("ref", ("array", "u8", None))
        if kind == "str":
            return None
        if kind == "byte":
            self.mark("constant", start, end, ["b' '"] if word != "b' '" else ["b','"])
            return "u8"
        self.mark("constant", start, end, ["false" if word == "true" else "true"])
        return "bool"

    def number(self, word, start, end):
        digits, suffix, double = number_parts(word)
        if double:
            self.mark("constant", start, end, near_floats(digits))
            return "f64"
        self.mark("constant", start, end, [t + (suffix or "") for t in near_numbers(digits)])
        return suffix or Number()

    def array(self):
        inner = None
        while not self.passes("]"):
            t = self.expression()
            inner = t if inner is None else inner
            if self.sees(";"):
                while not self.sees("]"):
                    self.next()
            else:
                self.passes(",")
        return ("array", inner, None)

    def path_expression(self):
        """A local, a constant, a call, a variant or a struct."""
        if self.kind() != "id" and not self.sees("<"):
            self.fail(f"an expression begins with {self.word()}")
        start = self.start()
        path = self.names()
        end = self.done()
        visible = self.visible()
        if len(path) == 1:
            path = self.brought.get(path[0], path)
        if self.passes("!"):  # a macro: a proof's or a test's
            self.skip("(", ")")
            return "()"
        if path == ["Some"]:
            return ("option", self.arguments([])[1][0])
        if "::".join(path) in CONSTANTS:
            return path[0]
        if path[-1] == "from" and path[0] in INTEGERS | {"f64"}:
            return self.given([], path[0]) if self.sees("(") else "closure"
        if len(path) == 1 and path[0] in visible and not self.sees("("):
            self.mark_operand(visible[path[0]], path[0], start, end)
            return visible[path[0]]
        if len(path) > 1:
            owner = self.file.named(path[:-1], self.owner)
            if path[-1] in self.world.enums.get(owner, ()):
                return self.variant(owner, path[-1], end)
            method = self.world.functions.get(of_type(owner, path[-1]))
            if method and not self.sees("("):
                return "closure"
            if method:
                return self.given(*signature(method))
            if "::".join(path) in FUNCTIONS:
                return self.given(*FUNCTIONS["::".join(path)])
        target = self.file.named(path, self.owner)
        if self.sees("("):
            return self.call(target, path[-1], start, end)
        if self.sees("{") and self.structs and target in self.world.structs:
            return self.literal(target, self.world.structs[target])
        if target in self.world.consts:
            self.mark_constant(target, start, end)
            return self.world.consts[target][0]
        return None

    def given(self, params, result):
        self.arguments(params)
        return result

    def call(self, target, name, start, end):
        f = self.world.functions.get(target)
        if target in self.world.tuples:
            return self.given(self.world.tuples[target], target)
        if f is None and name.startswith("wrapping_"):
            word = name.split("_")[-1]
            return self.given([word, word], word)
        if f is None:
            return self.given([], None)
        self.mark_called(f, start, end)
        return self.given(*signature(f))

    def variant(self, owner, name, end):
        variants = self.world.enums[owner]
        parts = variants.get(name)
        self.mark_variant(variants, name, end - len(name), end)
        if self.sees("("):
            self.arguments(parts)
        elif self.sees("{") and isinstance(parts, dict):
            self.literal(owner, parts)
        return owner

    def literal(self, owner, fields):
        """The fields of a struct, or of a variant."""
        self.expect("{")
        kept, self.structs = self.structs, True
        given = {}
        for _ in self.each("}"):
            if self.passes(".."):
                self.expression()
                self.mark_given_fields(fields, given)
                continue
            start, end = self.start(), self.end()
            field, visible = self.take(), self.visible()
            given[field] = (start, end, "" if self.sees(":") else f": {field}")
            if self.passes(":"):
                join(self.expression(), fields.get(field))
            elif field in visible:
                join(visible[field], fields.get(field))
                self.mark_short_field(field, visible, start, end)
        self.structs = kept
        return owner
