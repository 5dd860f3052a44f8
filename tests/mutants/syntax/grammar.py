"""How an expression begins, the same for both readings of a body: that which marks what can be
changed (change/expressions.py) and that which makes a tree to be run (interpret/trees.py)."""
from syntax.tokens import literal
from syntax.types import Types


class Grammar(Types):
    """A reading has `value`, `expression`, `tuple`, `closure`, `array`, `block`, `conditional`,
    `match`, `returned` and `path_expression`."""

    def primary(self):
        kind, word = self.tokens[self.at][:2]
        if kind in ("num", "bytes", "byte", "str") or word in ("true", "false"):
            return self.value()
        if self.passes("("):
            inner = self.expression()
            if self.passes(","):
                return self.tuple(inner)
            self.expect(")")
            return inner
        if self.passes("move") or self.sees("|") or self.sees("||"):
            return self.closure()
        if self.passes("["):
            return self.array()
        if self.sees("{"):
            return self.block()
        if self.passes("if"):
            return self.conditional()
        if self.passes("match"):
            return self.match()
        if self.passes("return"):
            return self.returned()
        return self.path_expression()

    def used(self):
        """The paths that a `use` within a body brings, up to its end."""
        path, out = self.names_before("{"), []
        if self.passes("{"):
            out = [path + [self.take()] for _ in self.each("}")]
        self.expect(";")
        return out or [path]

    def names_before(self, bracket):
        """The names of a path up to a bracket or its end."""
        out = [self.take()]
        while self.passes("::") and not self.sees(bracket):
            out.append(self.take())
        return out

    def pattern(self):
        out = [self.one_pattern()]
        while self.passes("|"):
            out.append(self.one_pattern())
        return out[0] if len(out) == 1 else ("either", out)

    def one_pattern(self):
        """A name that is bound, a literal, a tuple, or a struct or a variant by its parts."""
        self.passes("&")
        self.passes("mut")
        kind, word = self.tokens[self.at][:2]
        if kind in ("num", "byte") or word in ("true", "false"):
            self.next()
            return ("literal", literal(kind, word))
        if self.passes("("):
            return ("tuple", [self.pattern() for _ in self.each(")")])
        if self.passes("["):
            return ("tuple", [self.pattern() for _ in self.each("]")])
        path = self.names()
        if self.passes("("):
            return ("variant", path[-1], [self.pattern() for _ in self.each(")")], path)
        if self.passes("{"):
            fields = {}
            for _ in self.each("}"):
                if not self.passes(".."):
                    field = self.take()
                    fields[field] = self.pattern() if self.passes(":") else ("name", field)
            return ("variant", path[-1], fields, path)
        if len(path) == 1 and not path[0][0].isupper():
            return ("name", path[0])
        return ("variant", path[-1], [], path)
