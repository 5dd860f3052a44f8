"""The grammar of the definitions: from tokens to terms. A term is a tuple, its first entry what it
is:

  ("name", n)  ("number", k)  ("apply", function, arguments)  ("field", term, name)
  ("record", ((name, term), ..))  ("lambda", names, body)  ("let", pattern, term, body)

An operator is applied by its name with the places of its operands, as `◌⊗◌`; `do` is written out by
`◌>>=◌`. A pattern is ("name", n), ("apply", constructor, patterns), ("number", k) or
("record", ((name, pattern), ..))."""

# binding strength and side, as the library declares them; the definitions' own are read from them
LIBRARY = {
    "◌^◌": (75, "l"), "◌*◌": (70, "l"), "◌/◌": (70, "l"), "◌%◌": (70, "l"),
    "◌+◌": (65, "l"), "◌-◌": (65, "l"), "◌∷◌": (67, "r"), "◌++◌": (65, "l"),
    "◌&&◌": (35, "l"), "◌||◌": (30, "l"),
}  # fmt: skip
STOPS = {")", "}", ";", ",", "=", ":", "←", "in", "then", "else", "."}


class Reader:
    """Reads terms from tokens. `fixity` says how operators bind, by name."""

    def __init__(self, tokens, fixity):
        self.tokens, self.at, self.fixity = tokens, 0, fixity
        # the column of the innermost `do`, -1 within brackets, where lines do not count; and where
        # its statement begins
        self.blocks, self.begun = [-1], 0

    def word(self):
        """The next word, or "" at the end of what is being read."""
        if self.at == len(self.tokens):
            return ""
        token = self.tokens[self.at]
        ended = token.first and token.column <= self.blocks[-1] and self.at != self.begun
        return "" if ended else token.word

    def take(self, expected=None):
        word = self.word()
        if not word or expected not in (None, word):
            raise SyntaxError(f"{expected} expected at {self.tokens[self.at:self.at + 8]}")
        self.at += 1
        return word

    def bracketed(self, read, close):
        self.blocks.append(-1)
        result = read()
        self.take(close)
        self.blocks.pop()
        return result

    # ---- terms

    def term(self, least=0):
        left = self.operand()
        while (name := f"◌{self.word()}◌") in self.fixity and self.fixity[name][0] >= least:
            strength, side = self.fixity[name]
            self.take()
            right = self.term(strength + 1 if side == "l" else strength)
            left = ("apply", ("name", name), (left, right))
        return left

    def operand(self):
        word = self.word()
        if f"{word}◌" in self.fixity and word:
            self.take()
            return ("apply", ("name", f"{word}◌"), (self.operand(),))
        special = {"if": self.choice, "let": self.let, "do": self.do, "λ": self.function}
        return special[word]() if word in special else self.application()

    def application(self):
        head, arguments = self.part(), []
        while (word := self.word()) and self.starts_atom(word):
            arguments.append(self.part())
        return ("apply", head, tuple(arguments)) if arguments else head

    def part(self):
        """An atom with the fields that are taken of it, `a.b.c` or `(f x).b`."""
        result = self.atom()
        while self.at < len(self.tokens) and self.tokens[self.at].tight:
            word = self.tokens[self.at].word
            if word[0] != "." or len(word) == 1:
                break
            result = ("field", result, word[1:])
            self.at += 1
        return result

    def starts_atom(self, word):
        return not (word in STOPS or f"◌{word}◌" in self.fixity or f"{word}◌" in self.fixity)

    def atom(self):
        word = self.take()
        if word == "(":
            return self.bracketed(self.term, ")")
        if word == "record":
            self.take("{")
            return ("record", self.bracketed(lambda: self.fields(self.term), "}"))
        if word[0].isdigit():
            return ("number", int(word.replace("_", ""), 0))
        if not self.starts_atom(word):
            raise SyntaxError(f"{word} stands where a term should")
        return ("name", word)

    def fields(self, read):
        found = []
        while self.word() != "}":
            name = self.take()
            self.take("=")
            found.append((name, read()))
            if self.word() == ";":
                self.take()
        return tuple(found)

    def choice(self):
        self.take("if")
        test = self.term()
        self.take("then")
        yes = self.term()
        self.take("else")
        return ("apply", ("name", "if◌then◌else◌"), (test, yes, self.term()))

    def function(self):
        self.take("λ")
        names = []
        while self.word() != ".":
            names.append(self.take())
        self.take(".")
        return ("lambda", tuple(names), self.term())

    def binding(self):
        """`let pattern = term`, with or without a type, which says nothing here."""
        self.take("let")
        pattern = self.pattern()
        while self.word() != "=":
            self.take()
        self.take("=")
        return pattern, self.term()

    def let(self):
        pattern, value = self.binding()
        self.take("in")
        return ("let", pattern, value, self.term())

    # ---- do

    def do(self):
        self.take("do")
        return self.statements(self.tokens[self.at].column)

    def statements(self, column):
        """The statements that begin in a column, from the next on, as one term."""
        self.blocks.append(column)
        self.begun = self.at
        wrap = self.statement()
        self.blocks.pop()
        if self.at < len(self.tokens):
            following = self.tokens[self.at]
            if following.first and following.column == column:
                return wrap(self.statements(column))
        return wrap(None)

    def statement(self):
        """What the statement makes of those that follow it; the last makes nothing of none."""
        if self.word() == "let":
            pattern, value = self.binding()
            if self.word() != "in":
                return lambda rest: ("let", pattern, value, rest)
            self.take("in")
            last = ("let", pattern, value, self.term())
        elif self.tokens[self.at + 1].word == "←":
            name = self.take()
            self.take("←")
            value, bind = self.term(), ("name", "◌>>=◌")
            return lambda rest: ("apply", bind, (value, ("lambda", (name,), rest)))
        else:
            last = self.term()
        return lambda rest: last

    # ---- patterns

    def pattern(self):
        word = self.take()
        if word == "(":
            return self.bracketed(self.compound, ")")
        if word == "record":
            self.take("{")
            return ("record", self.bracketed(lambda: self.fields(self.pattern), "}"))
        if word[0].isdigit():
            return ("number", int(word.replace("_", ""), 0))
        return ("name", word)

    def compound(self):
        head = self.pattern()
        if self.word() == "∷":
            self.take()
            return ("apply", "◌∷◌", (head, self.compound()))
        parts = []
        while self.word() != ")":
            parts.append(self.pattern())
        return ("apply", head[1], tuple(parts)) if parts else head
