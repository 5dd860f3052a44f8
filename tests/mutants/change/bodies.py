"""The body of a function: its blocks, statements and patterns, with the locals that they bind."""
from change.expressions import Expressions
from syntax.tokens import ASSIGNMENTS
from syntax.types import bare, join


# Functions that read or write by forms of std which this reading does not know. They are left out.
LEFT_OUT = {
    "failures::say",
    "listing_program::command::is_given",
    "listing_program::command::put",
    "listing_program::stream::failed",
    "listing_program::stream::fill",
    "listing_program::stream::flush",
    "replay_words::report::put",
    "replay_words::report::report",
}


def functions_of(world, crate):
    """The functions of a crate but for those left out, each with its places in the order of the
    text."""
    out = []
    for file in world.files:
        for f, body, owner in file.bodies if file.crate == crate else []:
            if f.path in LEFT_OUT:
                continue
            f.places = sorted(Body(file, f, body, owner).places(), key=lambda p: (p.start, p.end))
            out.append(f)
    return out


class Body(Expressions):
    """Each function that reads a block or a statement gives its type; "!" is that of one that does
    not go on."""

    def places(self):
        self.block()
        return self.marked()

    def block(self):
        """A block in braces; its type is that of the last expression."""
        self.expect("{")
        self.scopes.append({})
        kind = "()"
        while not self.passes("}"):
            kind = self.statement()
        self.scopes.pop()
        return kind

    def statement(self):
        if self.passes("let"):
            return self.let()
        if self.passes("use"):
            self.brought.update({path[-1]: path for path in self.used()})
            return "()"
        if self.passes("return"):
            if not self.sees(";"):
                join(self.expression(), self.f.result)
            self.expect(";")
            return "!"
        if self.word() in ("break", "continue"):
            self.next()
            self.expect(";")
            return "!"
        if self.word() in ("while", "loop", "for"):
            return self.loop(self.take())
        first = self.word()
        # such a statement ends with its block, as in Rust
        kind = self.primary() if first in ("if", "match", "{") else self.expression()
        word = self.word()
        if word == "=":
            return self.assignment(kind)
        if self.kind() == "op" and word in ASSIGNMENTS:
            self.mark_assignment(word, kind)
            return self.assignment(kind)
        if self.passes(";"):
            return "()" if kind != "!" else "!"
        if self.sees("}"):
            join(kind, self.f.result)
            return kind
        if first in ("if", "match", "{"):
            return kind
        self.fail(f"a statement goes on with {word}")

    def assignment(self, kind):
        """The rest of an assignment. The places of its target are kept: an index or a field there
        is an operand too."""
        self.next()
        join(kind, self.expression())
        self.expect(";")
        return "()"

    def loop(self, word):
        bound = {}
        if word == "while":
            self.expression(False)
        elif word == "for":
            pattern = self.pattern()
            self.expect("in")
            kind = bare(self.expression(False))
            of_array = isinstance(kind, tuple) and kind[0] == "array"
            bound = self.bound(pattern, kind[1] if of_array else kind)
        self.within(bound, self.block)
        return "()"

    def within(self, bound, read):
        """What is read with these names bound."""
        self.scopes.append(bound if isinstance(bound, dict) else {})
        kind = read()
        self.scopes.pop()
        return kind

    def let(self):
        pattern = self.pattern()
        given = self.type() if self.passes(":") else None
        self.expect("=")
        kind = self.expression()
        if given is not None:
            join(kind, given)
        if self.passes("else"):
            self.block()
        self.expect(";")
        self.scopes[-1].update(self.bound(pattern, given if given is not None else kind))
        return "()"

    def bound(self, pattern, kind):
        """The names that a pattern binds in a value of this type, with their types."""
        if pattern[0] == "name":
            return {pattern[1]: kind} if pattern[1] != "_" else {}
        if pattern[0] == "literal":
            return {}
        kind = bare(kind)
        if pattern[0] == "either":
            return self.bound(pattern[1][0], kind)
        parts = pattern[1] if pattern[0] == "tuple" else pattern[2]
        kinds = self.kinds_of(pattern, kind)
        if isinstance(parts, dict):
            found = [(p, kinds.get(field)) for field, p in parts.items()]
        else:
            found = [(p, kinds[i] if i < len(kinds) else None) for i, p in enumerate(parts)]
        return {name: t for p, k in found for name, t in self.bound(p, k).items()}

    def kinds_of(self, pattern, kind):
        """The types of what a tuple, an array, a struct or a variant holds, as far as they are
        known."""
        if pattern[0] == "tuple":
            if isinstance(kind, tuple) and kind[0] == "array":
                return [kind[1]] * len(pattern[1])
            return kind[1] if isinstance(kind, tuple) and kind[0] == "tuple" else []
        name, parts, path = pattern[1:]
        if name in ("Some", "Ok", "Err"):
            given = kind[1:] if isinstance(kind, tuple) and kind[0] in ("option", "result") else ()
            return list(given[1:] if name == "Err" else given[:1])
        none = {} if isinstance(parts, dict) else []
        if len(path) > 1:
            above = self.file.named(path[:-1], self.owner)
            return self.world.enums.get(above, {}).get(name, none)
        declared = self.world.structs if isinstance(parts, dict) else self.world.tuples
        return declared.get(self.file.named(path, self.owner), none)

    def conditional(self):
        """The rest of an `if`."""
        pattern = None
        if self.passes("let"):
            pattern = self.pattern()
            self.expect("=")
        tested = self.expression(False)
        kind = self.within(self.bound(pattern, tested) if pattern else {}, self.block)
        if self.passes("else"):
            other = self.conditional() if self.passes("if") else self.block()
            if kind == "!":
                return other
            join(kind, other)
        return kind

    def match(self):
        """The rest of a `match`; its type is that of the first arm that goes on."""
        matched = self.expression(False)
        self.expect("{")
        kind = None
        for _ in self.each("}"):
            bound = self.bound(self.pattern(), matched)
            if self.passes("if"):
                self.within(bound, self.expression)
            self.expect("=>")
            arm = self.within(bound, self.expression)
            kind = arm if kind in (None, "!") else kind
        return kind
