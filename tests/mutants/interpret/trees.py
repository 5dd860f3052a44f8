"""The body of a function as nested tuples, for the interpreter: the first entry says what it is,
and the rest are its parts."""
from syntax.grammar import Grammar
from syntax.tokens import ASSIGNMENTS, LEVELS, literal, tokens


class Parser(Grammar):
    """Reads a text that begins with a body; the names in it are those of the file. structs: whether
    a brace after a name begins a struct, which it does not in the condition of an `if`."""

    def __init__(self, file, text, owner):
        super().__init__(file, tokens(text), 0)
        self.owner, self.structs = owner, True

    def expect(self, w):
        if not self.passes(w):
            raise SyntaxError(f"expected {w}, found {self.word()}")

    def block(self):
        self.expect("{")
        kept, self.structs = self.structs, True
        out = []
        while not self.passes("}"):
            out.append(self.statement())
        self.structs = kept
        return ("block", out)

    def statement(self):
        if self.passes("let"):
            return self.let()
        if self.passes("use"):
            return ("use", self.used())
        if self.passes("return"):
            value = None if self.sees(";") else self.expression()
            self.passes(";")
            return ("return", value)
        if self.passes("while"):
            test = self.expression(False)
            return ("while", test, self.block())
        if self.passes("for"):
            pattern = self.pattern()
            self.expect("in")
            over = self.expression(False)
            if self.passes(".."):
                over = ("range", over, self.expression(False))
            return ("for", pattern, over, self.block())
        if self.passes("break"):
            self.expect(";")
            return ("break",)
        # such a statement ends with its block, as in Rust
        value = self.primary() if self.word() in ("if", "match", "{") else self.expression()
        if self.kind() == "op" and self.word() in ("=",) + ASSIGNMENTS:
            op = self.take()
            right = self.expression()
            self.expect(";")
            return ("assign", value, op[:-1], right)
        if self.passes(";"):
            return ("do", value)
        return ("give", value)

    def let(self):
        self.passes("mut")
        pattern = self.pattern()
        kind = self.type(self.owner) if self.passes(":") else None
        self.expect("=")
        value = self.expression()
        other = self.block() if self.passes("else") else None
        self.expect(";")
        return ("let", pattern, kind, value, other)

    def expression(self, structs=True):
        kept, self.structs = self.structs, structs
        out = self.binary(0)
        self.structs = kept
        return out

    def binary(self, level):
        if level == len(LEVELS):
            out = self.unary()
            while self.passes("as"):
                out = ("cast", out, self.type(self.owner))
            return out
        out = self.binary(level + 1)
        while self.kind() == "op" and self.word() in LEVELS[level]:
            op = self.take()
            out = ("binary", op, out, self.binary(level + 1))
        return out

    def unary(self):
        for op in ("!", "-", "*"):
            if self.passes(op):
                return ("unary", op, self.unary())
        if self.passes("&"):
            return ("lend", self.passes("mut"), self.unary())
        return self.postfix()

    def postfix(self):
        out = self.primary()
        while True:
            if self.passes("."):
                name = self.take()
                if self.passes("::"):
                    self.skip("<", ">")
                out = (
                    ("method", out, name, self.arguments())
                    if self.sees("(")
                    else ("field", out, name)
                )
            elif self.passes("["):
                low = None if self.sees("..") else self.expression()
                if self.passes(".."):
                    out = ("part", out, low, None if self.sees("]") else self.expression())
                else:
                    out = ("index", out, low)
                self.expect("]")
            elif self.passes("?"):
                out = ("try", out)
            else:
                return out

    def arguments(self):
        self.expect("(")
        return [self.expression() for _ in self.each(")")]

    def value(self):
        kind, word = self.tokens[self.at][:2]
        self.next()
        return ("value", literal(kind, word))

    def tuple(self, first):
        return ("tuple", [first] + [self.expression() for _ in self.each(")")])

    def closure(self):
        params = []
        if not self.passes("||"):
            self.expect("|")
            while not self.passes("|"):
                params.append(self.one_pattern())
                if self.passes(":"):
                    self.type(self.owner)
                self.passes(",")
        if self.passes("->"):
            self.type(self.owner)
        return ("closure", params, self.expression())

    def returned(self):
        return ("block", [("return", self.expression())])

    def array(self):
        out = []
        for _ in self.each("]"):
            out.append(self.expression())
            if self.passes(";"):
                n = self.expression()
                self.expect("]")
                return ("repeat", out[0], n)
        return ("array", out)

    def conditional(self):
        """The rest of an `if`."""
        pattern = None
        if self.passes("let"):
            pattern = self.pattern()
            self.expect("=")
        test = self.expression(False)
        then = self.block()
        other = None
        if self.passes("else"):
            other = self.conditional() if self.passes("if") else self.block()
        if pattern:
            empty = ("block", [])
            return ("match", test, [(pattern, None, then), (("name", "_"), None, other or empty)])
        return ("if", test, then, other)

    def match(self):
        """The rest of a `match`."""
        value = self.expression(False)
        self.expect("{")
        arms = []
        for _ in self.each("}"):
            pattern = self.pattern()
            guard = self.expression() if self.passes("if") else None
            self.expect("=>")
            arms.append((pattern, guard, self.expression()))
        return ("match", value, arms)

    def path_expression(self):
        path = self.names()
        if self.sees("!"):  # a macro: a proof's or a test's
            self.next()
            self.skip("(", ")")
            return ("tuple", [])
        if self.sees("("):
            return ("call", path, self.arguments())
        if self.sees("{") and self.structs and path[-1][0].isupper() and not path[-1].isupper():
            self.expect("{")
            fields, rest = {}, None
            for _ in self.each("}"):
                if self.passes(".."):
                    rest = self.expression()
                else:
                    field = self.take()
                    fields[field] = self.expression() if self.passes(":") else ("path", [field])
            return ("struct", path, fields, rest)
        return ("path", path)
