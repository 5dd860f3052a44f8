"""The value of an expression of trees.py. `on_X` is for the tuples that begin with X; env has the
values of the locals."""
from interpret.operations import built_in, cast, method, operate
from interpret.values import AMPLE, NONE, OPTION, RESULT, Cell, Outside, Return, Struct, Trap
from interpret.values import Variant, held, taken
from syntax.library import CONSTANTS, OPERATORS
from syntax.types import of_type


def fits(pattern, value):
    """What a pattern binds in a value, or None where it does not fit."""
    if pattern[0] == "name":
        return {} if pattern[1] == "_" else {pattern[1]: value}
    value = held(value)
    if pattern[0] == "literal":
        return {} if value == pattern[1] else None
    if pattern[0] == "either":
        found = (fits(p, value) for p in pattern[1])
        return next((bound for bound in found if bound is not None), None)
    if pattern[0] == "tuple":
        return fits_all(pattern[1], value)
    if isinstance(value, Struct):
        if isinstance(pattern[2], dict):
            return fits_fields(pattern[2], value.fields)
        return fits_all(pattern[2], value.fields.values())
    if value.name != pattern[1]:
        return None
    if isinstance(pattern[2], dict):
        return fits_fields(pattern[2], value.parts)
    return fits_all(pattern[2], value.parts)


def fits_fields(patterns, fields):
    return fits_all(patterns.values(), [fields[name] for name in patterns])


def fits_all(patterns, values):
    """What patterns bind, each in its value, or None where one does not fit."""
    out = {}
    for pattern, value in zip(patterns, values):
        bound = fits(pattern, value)
        if bound is None:
            return None
        out.update(bound)
    return out


def types_of(value):
    """The types that a value may have."""
    if isinstance(value, (Struct, Variant)):
        return [value.key]
    if isinstance(value, bool):
        return ["bool"]
    if isinstance(value, int):
        return ["u64", "u32", "usize", "i32", "u8"]
    return ["f64"] if isinstance(value, float) else []


def is_of(value, kind):
    """Whether a value is of a type, as far as its functions have to be told apart."""
    while isinstance(kind, tuple) and kind[0] == "ref":
        kind = kind[1]
    if isinstance(value, (Struct, Variant)):
        return value.key == kind
    if isinstance(value, list):
        return isinstance(kind, tuple) and kind[0] == "array"
    return isinstance(kind, str) and isinstance(value, float) == (kind == "f64")


class Evaluate:
    """The part of Machine (machine.py) that is for expressions; run, call and the function that
    runs, f, are there."""

    def named(self, path):
        """What a path names in the function that runs."""
        file, owner = self.owners[self.f]
        return file.named(path, owner)

    def on_value(self, env, v):
        return taken(v)

    def on_path(self, env, path):
        if len(path) == 1 and path[0] in env:
            return env[path[0]]
        if path == ["None"]:
            return NONE
        if "::".join(path) in CONSTANTS:
            return CONSTANTS["::".join(path)]
        if len(path) > 1 and built_in(path):
            return built_in(path)
        target = self.named(path)
        if target in self.world.consts:
            return self.constant(target)
        if target in self.world.structs:
            return Struct(target, {})
        if len(path) == 1:
            raise Outside()  # a constant of a library outside
        key = of_type(self.named(path[:-1]), path[-1])
        if key in self.world.overloads:
            return lambda *values: self.call(self.chosen(key, values), list(values))
        return Variant(self.named(path[:-1]), path[-1], [])

    def constant(self, target):
        if target not in self.constants:
            kind, text = self.world.consts[target]
            value = self.run(self.parsed(self.world.homes[target], text), {})
            self.constants[target] = float(value) if kind == "f64" else value
        return self.constants[target]

    def capacity(self, size):
        """Of a declared type: a number, a constant, or a parameter, which stands for enough."""
        if size in self.world.consts:
            return self.constant(size)
        return int(size) if size.isdecimal() else AMPLE

    def on_field(self, env, e, name):
        return held(self.run(e, env)).fields[name]

    def on_index(self, env, e, i):
        xs, at = held(self.run(e, env)), self.run(i, env)
        if not 0 <= at < len(xs):
            raise Trap("index")
        return xs[at]

    def on_part(self, env, e, low, high):
        xs, first, last = self.part(env, e, low, high)
        return xs[first:last]

    def part(self, env, e, low, high):
        """A slice, and where a part of it begins and ends."""
        xs = held(self.run(e, env))
        first = 0 if low is None else held(self.run(low, env))
        last = len(xs) if high is None else held(self.run(high, env))
        if not 0 <= first <= last <= len(xs):
            raise Trap("index")
        return xs, first, last

    def copied(self, env, target, source):
        """Replaces the entries of a slice, or of a part of it, by as many others."""
        place = target[1:] if target[0] == "part" else (target, None, None)
        (xs, first, last), more = self.part(env, *place), held(self.run(source, env))
        if len(more) != last - first:
            raise Trap("slices of two lengths")
        xs[first:last] = more

    def on_range(self, env, low, high):
        return range(held(self.run(low, env)), held(self.run(high, env)))

    def on_tuple(self, env, es):
        return tuple(taken(held(self.run(e, env))) for e in es)

    def on_try(self, env, e):
        """What is in a Some or an Ok; another one ends the function that runs."""
        value = held(self.run(e, env))
        if value.name in ("Some", "Ok"):
            return value.parts[0]
        raise Return(value)

    def on_closure(self, env, params, body):
        f = self.f

        def call(*values):
            kept, self.f = self.f, f
            try:
                return self.run(body, {**env, **fits_all(params, values)})
            except Return as r:
                return r.value
            finally:
                self.f = kept

        return call

    def on_array(self, env, es):
        return [taken(held(self.run(e, env))) for e in es]

    def on_repeat(self, env, e, n):
        value = held(self.run(e, env))
        return [taken(value) for _ in range(self.run(n, env))]

    def on_struct(self, env, path, fields, rest):
        values = taken(held(self.run(rest, env))).fields if rest else {}
        values.update({k: taken(held(self.run(v, env))) for k, v in fields.items()})
        if len(path) > 1 and self.named(path[:-1]) in self.world.enums:
            return Variant(self.named(path[:-1]), path[-1], values)
        return Struct(self.named(path), values)

    def on_if(self, env, test, then, other):
        if self.run(test, env):
            return self.run(then, env)
        return self.run(other, env) if other else None

    def on_match(self, env, e, arms):
        value = held(self.run(e, env))
        for pattern, guard, arm in arms:
            bound = fits(pattern, value)
            if bound is not None:
                inner = dict(env)
                inner.update(bound)
                if guard is not None and not held(self.run(guard, inner)):
                    continue
                out = self.run(arm, inner)
                for name in env:
                    if name not in bound:
                        env[name] = inner[name]
                return out
        raise Trap("no arm")

    def on_lend(self, env, mutable, e):
        value = self.run(e, env)
        if isinstance(value, (list, Cell)) or not mutable:
            return value
        cell = Cell(value)
        if e[0] == "path":
            env[e[1][0]] = cell
        return cell

    def on_unary(self, env, op, e):
        value = held(self.run(e, env))
        if op == "!":
            return not value
        return -value if op == "-" else value

    def on_cast(self, env, e, kind):
        return cast(held(self.run(e, env)), kind)

    def on_binary(self, env, op, a, b):
        x = held(self.run(a, env))
        if op == "&&":
            return x and held(self.run(b, env))
        if op == "||":
            return x or held(self.run(b, env))
        return self.operated(op, x, held(self.run(b, env)))

    def operated(self, op, x, y):
        if isinstance(x, Struct) and op in OPERATORS:
            return self.call(self.chosen(of_type(x.key, OPERATORS[op]), [x, y]), [x, y])
        return operate(op, x, y)

    def chosen(self, key, values):
        """Of the functions of a name that which takes these values."""
        found = self.world.overloads.get(key, [])
        if len(found) == 1:
            return found[0]
        for f in found:
            if all(is_of(held(v), kind) for v, (_, kind) in zip(values, f.params)):
                return f
        raise Outside()

    def on_method(self, env, e, name, args):
        if name == "copy_from_slice":
            return self.copied(env, e, *args)
        own = self.run(e, env)
        values = [self.run(a, env) for a in args]
        for kind in types_of(held(own)):
            if of_type(kind, name) in self.world.overloads:
                values = [own] + values
                return self.call(self.chosen(of_type(kind, name), values), values)
        return method(name, held(own), [held(v) for v in values])

    def on_call(self, env, path, args):
        values = [self.run(a, env) for a in args]
        if len(path) == 1 and path[0] in env:
            return env[path[0]](*values)
        if path[-1] in ("Some", "Ok", "Err"):
            return Variant(OPTION if path[-1] == "Some" else RESULT, path[-1], [taken(held(values[0]))])
        if built_in(path):
            return built_in(path)(*map(held, values))
        if len(path) > 1:
            above = self.named(path[:-1])
            if path[-1] in self.world.enums.get(above, ()):
                return Variant(above, path[-1], [taken(held(v)) for v in values])
            if of_type(above, path[-1]) in self.world.overloads:
                return self.call(self.chosen(of_type(above, path[-1]), values), values)
        target = self.named(path)
        if target in self.world.tuples:
            return Struct(target, dict(zip(self.world.parts(target), values)))
        if target not in self.world.functions:
            raise Outside()
        return self.call(self.world.functions[target], values)
