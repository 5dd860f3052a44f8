"""The definitions compiled to Python, each when it is first needed, with those that it names. A
function of n patterns becomes a Python function of n parameters; fewer arguments make a closure.
Arguments are computed before a call, since every definition ends and none has an effect; only the
branches of `if◌then◌else◌` and `cond` wait for their test. What stands twice in a record is
computed once (`◌>>=◌` goes on with the same value in both its fields)."""
import functools
import math
import re
from collections import Counter

from . import library, raised
from .modules import Definition, Modules

CHOICES = {"if◌then◌else◌", "cond"}
TRACED = "crates/ieee754/specs/Traced.antt"
RAISES = {
    "add_regular": raised.of_add, "mul_regular": raised.of_mul, "div_regular": raised.of_div,
    "fma_regular": lambda x, y, z: raised.of_fma(x, y, z, library.fused(x, y, z)),
    "sqrt_regular": raised.of_sqrt, "cbrt_regular": lambda x: 0,
}  # fmt: skip

# of the library's constructors the test, and where their parts are
CONSTRUCTORS = {
    "true": ("{}", []), "false": ("not {}", []),
    "zero": ("{} == 0", []), "suc": ("{} > 0", ["{} - 1"]),
    "[]": ("not {}", []), "◌∷◌": ("{}", ["{}[0]", "{}[1:]"]),
    "nan": ("{0} != {0}", []), "inf": ("isinf({})", ["{} < 0"]),
    "fin": ("isfinite({})", ["{}[0]", "{}[1]", "{}[2]"]),
    "Some": ("{}[0] == 'Some'", ["{}[1]"]), "None": ("{}[0] == 'None'", []),
    "Ok": ("{}[0] == 'Ok'", ["{}[1]"]), "Err": ("{}[0] == 'Err'", ["{}[1]"]),
    "Less": ("{} == -1", []), "Equal": ("{} == 0", []), "Greater": ("{} == 1", []),
}  # fmt: skip


def record_class(names, found={}):
    """The class of the records with these fields."""
    if names not in found:
        set_all = "".join(f"  self.{n} = {n}\n" for n in names)
        text = f"class Record:\n __slots__ = {names!r}\n def __init__(self, {', '.join(names)}):\n"
        space = {}
        exec(text + set_all, space)
        found[names] = space["Record"]
    return found[names]


class Program:
    """The definitions under a root; `changed` gives other texts for some files, and `native` the
    definitions that are not read from their text."""

    def __init__(self, root, changed=None, native=library.NATIVE):
        self.modules, self.native = Modules(root, changed), native
        self.arity = {}  # by a Python name: how many arguments it takes
        self.space = {
            "partial": functools.partial, "parts": library.parts,
            "isfinite": math.isfinite, "isinf": math.isinf,
        }  # fmt: skip
        self.names = {}  # by a definition, variant or library's name: its Python name

    def function(self, path, name):
        return self.space[self.python_name(path, self.modules.find(path, name))]

    def add(self, key, arity, value):
        python = f"g{len(self.names)}"
        self.names[key], self.arity[python], self.space[python] = python, arity, value
        return python

    def python_name(self, path, found):
        """The Python name of what a name stands for; it is compiled where that is still to do."""
        if isinstance(found, Definition):
            key = (found.path, found.name)
            return self.names.get(key) or self.define(key, found)
        if found in self.names:
            return self.names[found]
        if found[0] == "library":
            return self.add(found, *library.NAMES[found[1]][found[2]])
        if found[0] == "variant":
            parts = self.modules.parts_of(found[1])
            return self.add(found, parts, (lambda *p: (found[1], *p)) if parts else (found[1],))
        raise NameError(f"{path}: {found}")

    def define(self, key, definition):
        arity = len(definition.clauses[0][0])
        if key in self.native:
            return self.add(key, arity, self.native[key])
        python = self.add(key, arity, None)
        text = Compiler(self, definition).function(python)
        exec(compile(text, f"{definition.path}: {definition.name}", "exec"), self.space)
        value = self.space[python]
        if definition.path == TRACED and definition.name in RAISES:
            self.space[python] = raised.marked(value, RAISES[definition.name])
        elif arity == 0:
            self.space[python] = value()
        return python


class Compiler:
    """One definition, as Python's text."""

    def __init__(self, program, definition):
        self.program, self.definition, self.count = program, definition, 0

    def fresh(self):
        self.count += 1
        return f"v{self.count}"

    def find(self, name):
        return self.program.modules.find(self.definition.path, name)

    def function(self, python):
        arity = len(self.definition.clauses[0][0])
        parameters = [f"p{i}" for i in range(arity)]
        lines = [f"def {python}({', '.join(parameters)}):"]
        for patterns, body in self.definition.clauses:
            scope, out = {}, []
            tests = [t for p, x in zip(patterns, parameters) for t in self.match(p, x, scope, out)]
            # those of parts come after those of the parameters themselves
            tests.sort(key=lambda test: re.search(r"\bv\d", test) is not None)
            out.append(f"return {self.term(shared(body), scope, out)}")
            if tests or arity:
                lines.append(f" if {' and '.join(tests) or 'True'}:")
                lines += ["  " + line for line in out]
            else:
                lines += [" " + line for line in out]
        lines.append(f" raise ValueError({self.definition.name!r})")
        return "\n".join(lines)

    # ---- patterns: tests, which come first, and lines that bind

    def match(self, pattern, value, scope, out):
        kind = pattern[0]
        if kind == "record":
            for name, part in pattern[1]:
                yield from self.match(part, f"{value}.{name}", scope, out)
            return
        if kind == "number":
            yield f"{value} == {pattern[1]}"
            return
        name, parts = (pattern[1], pattern[2]) if kind == "apply" else (pattern[1], ())
        found = self.find(name)
        if isinstance(found, tuple) and found[0] == "variant":
            yield f"{value}[0] == {found[1]!r}"
            for i, part in enumerate(parts):
                yield from self.match(part, f"{value}[{i + 1}]", scope, out)
        elif isinstance(found, tuple) and name in CONSTRUCTORS:
            yield from self.library_match(name, parts, value, scope, out)
        else:
            scope[name] = self.fresh()
            out.append(f"{scope[name]} = {value}")

    def library_match(self, name, parts, value, scope, out):
        test, values = CONSTRUCTORS[name]
        yield test.format(value)
        if name == "fin":
            taken = self.fresh()
            yield f"({taken} := parts({value}))"
            value = taken
        for part, inner in zip(parts, values):
            yield from self.match(part, inner.format(value), scope, out)

    # ---- terms: the text of an expression; lines that must come before it go to `out`

    def term(self, term, scope, out):
        kind = term[0]
        if kind == "name":
            return self.applied(term, (), scope, out)
        if kind == "number":
            return str(term[1])
        if kind == "field":
            return f"{self.term(term[1], scope, out)}.{term[2]}"
        if kind == "record":
            names = tuple(name for name, _ in term[1])
            made = "_".join(("record",) + names)
            self.program.space[made] = record_class(names)
            return f"{made}({', '.join(self.term(value, scope, out) for _, value in term[1])})"
        if kind == "lambda":
            return self.closure(term[1], term[2], scope, out)
        if kind == "let":
            value = self.fresh()
            out.append(f"{value} = {self.term(term[2], scope, out)}")
            inner = dict(scope)
            if any(self.match(term[1], value, inner, out)):
                raise SyntaxError(f"{self.definition.name}: a let that may not match")
            return self.term(term[3], inner, out)
        return self.applied(term[1], term[2], scope, out)

    def closure(self, names, body, scope, out):
        inner, lines = dict(scope), []
        parameters = [self.fresh() for _ in names]
        inner.update(zip(names, parameters))
        lines.append(f"return {self.term(shared(body), inner, lines)}")
        name = self.fresh()
        out.append(f"def {name}({', '.join(parameters)}):")
        out.extend(" " + line for line in lines)
        return name

    def choice(self, test, yes, no, scope, out):
        result = self.fresh()
        out.append(f"if {self.term(test, scope, out)}:")
        for branch, after in ((yes, "else:"), (no, None)):
            lines = []
            lines.append(f"{result} = {self.term(branch, scope, lines)}")
            out.extend(" " + line for line in lines)
            if after:
                out.append(after)
        return result

    def applied(self, head, arguments, scope, out):
        if head[0] == "name" and head[1] in CHOICES and head[1] not in scope:
            return self.choice(*arguments, scope, out)
        if head[0] != "name":
            function, arity = self.term(head, scope, out), len(arguments)
        elif head[1] in scope:
            function, arity = scope[head[1]], len(arguments)
        else:
            found = self.find(head[1])
            if found is None:
                raise NameError(f"{self.definition.path}: {self.definition.name}: {head[1]}")
            function = self.program.python_name(self.definition.path, found)
            arity = self.program.arity[function]
        texts = [self.term(argument, scope, out) for argument in arguments]
        if not texts:
            return function
        if len(texts) < arity:
            return f"partial({', '.join([function] + texts)})"
        called = f"{function}({', '.join(texts[:arity])})"
        return called if len(texts) == arity else f"{called}({', '.join(texts[arity:])})"


def shared(body):
    """The term with what stands in it more than once, and is surely computed, bound by a `let`."""
    counts = Counter(strict(body))
    twice = [t for t, n in counts.items() if n > 1 and t[0] == "apply"]
    if not twice:
        return body
    largest = max(twice, key=lambda t: len(repr(t)))
    name = ("name", f"shared {largest}")
    return ("let", name, largest, shared(replaced(body, largest, name)))


def strict(term):
    """The parts of a term that are computed whenever it is: none under a `λ`, in a branch, or under
    a `let`."""
    yield term
    if term[0] == "field":
        yield from strict(term[1])
    elif term[0] == "record":
        for _, value in term[1]:
            yield from strict(value)
    elif term[0] == "apply":
        chosen = term[1][0] == "name" and term[1][1] in CHOICES
        for argument in term[2][:1] if chosen else term[2]:
            yield from strict(argument)


def replaced(term, old, new):
    if term == old:
        return new
    if not isinstance(term, tuple):
        return term
    return tuple(replaced(part, old, new) for part in term)
