"""The interpreter of the part of Rattle that the library crates use: calls and statements. `do_X`
is for the statements that begin with X."""
from interpret.evaluate import Evaluate, fits
from interpret.trees import Parser
from interpret.values import Bounded, Break, Return, Trap, held, taken

STEPS = 20000


def binds(statement, name):
    """Whether a statement declares a local of this name."""
    return statement[0] == "let" and name in bound_names(statement[1])


def bound_names(pattern):
    """The names that a pattern binds."""
    if pattern[0] == "name":
        return {pattern[1]}
    if pattern[0] == "literal":
        return set()
    parts = pattern[2] if pattern[0] == "variant" else pattern[1]
    return set().union(*map(bound_names, parts.values() if isinstance(parts, dict) else parts))


class Machine(Evaluate):
    def __init__(self, world):
        self.world, self.bodies, self.steps, self.f = world, {}, 0, None
        self.constants = {}
        self.owners = {f: (file, owner) for file in world.files for f, _, owner in file.bodies}

    def body(self, f):
        if f not in self.bodies:
            self.bodies[f] = self.parse(f, f.file.text)
        return self.bodies[f]

    def parse(self, f, text):
        """The body of f in a text that may be changed within it."""
        file, owner = self.owners[f]
        start = next(file.tokens[b][2] for g, b, _ in file.bodies if g is f)
        return Parser(file, text[start : f.end + len(text) - len(file.text)], owner).block()

    def parsed(self, file, text):
        """A constant's value as a tree."""
        return Parser(file, text, None).expression()

    def call(self, f, args, body=None):
        env = {}
        for (name, kind), value in zip(f.params, args):
            env[name] = (
                value if isinstance(kind, tuple) and kind[0] == "ref" else taken(held(value))
            )
        kept, self.f = self.f, f
        try:
            return self.run(body or self.body(f), env)
        except Return as r:
            return r.value
        finally:
            self.f = kept

    def run(self, e, env):
        self.steps += 1
        if self.steps > STEPS * 50:
            raise Trap("too many steps")
        return getattr(self, "on_" + e[0])(env, *e[1:])

    def on_block(self, env, statements):
        """The value of the last statement. What was stored to the locals outside is kept; those
        declared in the block are not."""
        value, inner = None, dict(env)
        for s in statements:
            value = getattr(self, "do_" + s[0])(inner, *s[1:])
        for name in env:
            if not any(binds(s, name) for s in statements):
                env[name] = inner[name]
        return value

    def do_let(self, env, pattern, kind, e, other):
        value = taken(held(self.run(e, env))) if e[0] != "lend" else self.run(e, env)
        if isinstance(value, Bounded) and kind is not None:
            value.capacity = self.capacity(kind[3])
        bound = fits(pattern, value)
        if bound is None:
            self.run(other, env)
            raise Trap("an else block that goes on")
        env.update(bound)

    def do_use(self, env, paths):
        env.update({path[-1]: self.on_path(env, path) for path in paths})

    def do_return(self, env, e):
        raise Return(None if e is None else taken(held(self.run(e, env))))

    def do_break(self, env):
        raise Break

    def do_while(self, env, test, body):
        turns = 0
        try:
            while self.run(test, env):
                turns += 1
                if turns > STEPS:
                    raise Trap("too many turns")
                self.run(body, env)
        except Break:
            pass

    def do_for(self, env, pattern, over, body):
        try:
            values = held(self.run(over, env))
            for turn, value in enumerate(values if isinstance(values, range) else list(values)):
                if turn > STEPS:
                    raise Trap("too many turns")
                inner = {**env, **fits(pattern, value)}
                self.run(body, inner)
                bound = bound_names(pattern)
                env.update({name: inner[name] for name in env if name not in bound})
        except Break:
            pass

    def do_assign(self, env, target, op, e):
        value = self.run(e, env)
        if op:
            value = self.operated(op, held(self.run(target, env)), held(value))
        self.store(target, taken(held(value)), env)

    def do_do(self, env, e):
        self.run(e, env)

    def do_give(self, env, e):
        return self.run(e, env)

    def store(self, target, value, env):
        if target[0] == "path":
            env[target[1][0]] = value
        elif target[0] == "unary":
            place = self.run(target[2], env)
            if isinstance(place, list):
                place[:] = value
            else:
                place.value = value
        elif target[0] == "field":
            held(self.run(target[1], env)).fields[target[2]] = value
        elif target[0] == "index":
            xs, i = held(self.run(target[1], env)), self.run(target[2], env)
            if not 0 <= i < len(xs):
                raise Trap("index")
            xs[i] = value
        else:
            raise Trap("a store to " + target[0])
