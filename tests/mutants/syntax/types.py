"""The types of Rattle as the parsers keep them, and the reading of one. A type is the name of a
built-in one, the crate, module and name of a declared one, ("ref", type) or ("ref", type, "mut"),
("array", type, length), ("array", type, None, capacity), ("tuple", types), ("option", type),
("result", type, type) or "closure"."""
from syntax.tokens import Cursor

INTEGERS = {"u8", "u16", "u32", "u64", "usize", "i8", "i16", "i32", "i64", "isize"}
TYPE_ENDS = (",", ")", "}", "{", ";", "=", "|", "requires", "ensures", "ghost", "where")


class Number:
    """The type of an integer with no suffix, until its use tells."""

    def __init__(self):
        self.type = None


def settled(t):
    while isinstance(t, Number):
        if t.type is None:
            return "integer"
        t = t.type
    return t


def join(a, b):
    """Two types that must be one."""
    for x, y in ((a, b), (b, a)):
        while isinstance(x, Number) and isinstance(x.type, Number):
            x = x.type
        if (
            isinstance(x, Number)
            and x.type is None
            and y is not None
            and y is not x
            and not (isinstance(y, Number) and y.type is x)
        ):
            x.type = y
            return


def bare(t):
    """A type without its references."""
    t = settled(t)
    while isinstance(t, tuple) and t[0] == "ref":
        t = settled(t[1])
    return t


def of_type(kind, name):
    """The name of a type's function, of a built-in type's too."""
    return ("", "", f"{kind}::{name}") if isinstance(kind, str) else (*kind[:2], f"{kind[2]}::{name}")


class Types(Cursor):
    """A cursor that reads types, by the names that a file knows."""

    def __init__(self, file, found, at):
        super().__init__(file.path, file.text, found, at)
        self.file = file

    def pass_type(self):
        """Past a type."""
        depth = 0
        while True:
            w = self.word()
            if depth == 0 and w in TYPE_ENDS:
                return
            depth += {"[": 1, "<": 1, "(": 1, "]": -1, ">": -1, ">>": -2, ")": -1}.get(w, 0)
            self.next()

    def type_at(self, at, owner=None):
        kept, self.at = self.at, at
        t = self.type(owner)
        self.at = kept
        return t

    def type(self, owner=None):
        """A type; owner is the name that `Self` stands for."""
        if self.passes("&"):
            if self.kind() == "life":
                self.next()
            if self.passes("mut"):
                return ("ref", self.type(owner), "mut")
            return ("ref", self.type(owner))
        if self.passes("["):
            inner = self.type(owner)
            length = self.take() if self.passes(";") else None
            self.expect("]")
            return ("array", inner, length)
        if self.passes("("):
            return ("tuple", [self.type(owner) for _ in self.each(")")])
        if self.sees("impl"):
            self.pass_type()
            return "closure"
        names = self.names()
        given = self.given_types(owner) if self.passes("<") else []
        if names[-1] == "ArrayVec":
            return ("array", given[0], None, given[1])
        if names[-1] in ("Option", "Result"):
            return (names[-1].lower(), *given)
        found = self.file.named(names, owner)
        if found in self.file.world.aliases:
            file, at = self.file.world.aliases[found]
            return Types(file, file.tokens, at).type()
        return found

    def given_types(self, owner):
        """The types that a generic one is given, up to the bracket that closes it."""
        out = []
        while True:
            if self.sees(">>"):  # of two brackets the first
                kind, _, start, end = self.tokens[self.at]
                self.tokens[self.at] = (kind, ">", start + 1, end)
                return out
            if self.passes(">"):
                return out
            if self.kind() == "life":
                self.next()
            else:
                out.append(self.type(owner))
            self.passes(",")
