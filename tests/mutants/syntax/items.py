"""The items of a file: what it imports and declares. Types are read when every file has been
declared, since a name may be of a later one. Ghost text (contracts, `ghost use`) is passed over."""
from syntax.types import Types, of_type


class Function:
    """A function of a crate; path is the name that rt prints of it, which no other one has. places
    is filled by functions_of (change/bodies.py)."""

    def __init__(self, path, public, file, start):
        self.path, self.public, self.file, self.start, self.end = path, public, file, start, 0
        self.params, self.result, self.places, self.requires = [], None, [], False
        self.generic = False  # whether it has parameters of its own that are types


class Items(Types):
    def __init__(self, file):
        super().__init__(file, file.tokens, 0)
        self.world = file.world

    def declare(self):
        while self.kind() != "end":
            self.item(None, (self.file.module,))

    def item(self, owner, above, public=False):
        """An item; owner is the type whose `impl` it stands in, above what the name that rt prints
        of a function has between its crate and itself. public: whether it is so without `pub`."""
        public = self.attributes() or public
        word = self.word()
        if word == "fn":
            self.function(public, owner, above)
        elif word in ("ghost", "mod") or word == "type" and owner:
            self.pass_line()
        elif word == "trait":
            while not self.sees("{"):
                self.next()
            self.skip("{", "}")
        elif word in ("use", "const", "static", "struct", "enum", "impl", "type"):
            self.next()
            getattr(self, word + "_item")()
        else:
            raise SyntaxError(f"{self.path}: {self.tokens[self.at]}")

    def attributes(self):
        """Past what stands before an item; whether it is public."""
        public = False
        while True:
            if self.passes("#"):
                self.passes("!")
                self.skip("[", "]")
            elif self.passes("pub"):
                public = not self.sees("(")
                if not public:
                    self.skip("(", ")")
            elif self.passes("extern"):
                self.next()
            else:
                return public

    def pass_line(self):
        while not self.sees(";"):
            if self.sees("{"):
                self.skip("{", "}")
            elif self.sees("["):
                self.skip("[", "]")
            else:
                self.next()
        self.next()

    def use_item(self):
        self.imports([])
        self.expect(";")

    def imports(self, before):
        """A path, or the paths of a group in braces, behind the names that stand before it."""
        path = [*before]
        while not (self.sees(";") or self.sees(",") or self.sees("}")):
            if self.passes("{"):
                for _ in self.each("}"):
                    self.imports(path)
                return
            if self.passes("as"):
                path.pop()
            elif self.kind() == "id":
                path.append(self.word())
                self.next()
            else:
                self.next()
        crate = self.file.crate if path[0] == "crate" else path[0]
        self.file.names[path[-1]] = (crate, "::".join(path[1:-1]), path[-1])

    def const_item(self):
        name = self.take()
        self.expect(":")
        start = self.at
        while not self.sees("="):
            self.next()
        kind = self.type_at(start)
        self.next()
        value = ""
        while not self.passes(";"):
            value += self.take()
        self.file.names.setdefault(name, self.file.key(name))
        self.world.consts[self.file.key(name)] = (kind, value)
        self.world.homes[self.file.key(name)] = self.file

    static_item = const_item

    def type_item(self):
        """Another name of a type."""
        name = self.declared()
        self.expect("=")
        self.world.aliases[self.file.key(name)] = (self.file, self.at)
        self.pass_line()

    def struct_item(self):
        name = self.declared()
        fields = {}
        if self.sees("("):
            key, parts = self.file.key(name), self.parts()
            self.file.later.append(lambda: self.world.tuples.update({key: self.types(parts)}))
            self.expect(";")
        elif self.passes(";"):
            pass
        else:
            self.expect("{")
            fields = self.fields()
        self.world.structs[self.file.key(name)] = fields
        self.file.later.append(lambda: fields.update(self.types(fields)))

    def enum_item(self):
        name = self.declared()
        variants = {}
        self.expect("{")
        for _ in self.each("}"):
            variant = self.take()
            variants[variant] = self.parts()
        self.world.enums[self.file.key(name)] = variants
        self.file.later.append(
            lambda: variants.update({v: self.types(parts) for v, parts in variants.items()})
        )

    def declared(self):
        name = self.take()
        self.file.names[name] = self.file.key(name)
        if self.sees("<"):
            self.skip("<", ">")
        return name

    def parts(self):
        """Where the types of a variant's parts stand."""
        parts = []
        if self.passes("("):
            for _ in self.each(")"):
                self.passes("pub")
                parts.append(self.at)
                self.pass_type()
        elif self.passes("{"):
            parts = self.fields()
        return parts

    def fields(self):
        """The names of the fields, up to the brace, and where their types stand."""
        out = {}
        for _ in self.each("}"):
            if self.passes("ghost"):
                self.take()
                self.expect(":")
                self.pass_type()
                if self.sees("{"):
                    self.skip("{", "}")
                continue
            self.passes("pub")
            field = self.take()
            self.expect(":")
            out[field] = self.at
            self.pass_type()
        return out

    def types(self, parts):
        if isinstance(parts, dict):
            return {f: self.type_at(at) for f, at in parts.items()}
        return [self.type_at(at) for at in parts]

    def impl_item(self):
        """The functions of a type, or a trait's for it. rt prints those of a type by the module
        that declares it, and a trait's by the module of the `impl` and a name of that: the type's
        words before the trait's, `Matrix3MulVector3`. A trait's are as public as it is, which all
        are."""
        if self.sees("<"):
            self.skip("<", ">")
        first = self.at
        name = self.implemented()
        above = self.file.names.get(name, self.file.key(name))[1:]
        of_trait = self.passes("for")
        if of_trait:
            second = self.at
            name = self.implemented()
            above = (self.file.module, self.joined_at(second) + self.joined_at(first))
        while not self.passes("{"):
            self.next()
        while not self.passes("}"):
            self.item(name, above, of_trait)

    def implemented(self):
        """The name of a trait or of a type, or an array's text."""
        start = self.at
        if self.sees("["):
            self.skip("[", "]")
            return self.words(start)
        self.passes("&")
        name = self.names()[-1]
        if self.sees("<"):
            self.skip("<", ">")
        return name

    def joined_at(self, at):
        kept, self.at = self.at, at
        words = self.joined()
        self.at = kept
        return words

    def joined(self):
        """The words of a type or a trait with its arguments, as rt joins them: ArrayPose4 of
        `[Pose; 4]`."""
        if self.passes("&"):
            return "Ref" + self.joined()
        if self.passes("["):
            inner = self.joined()
            self.expect(";")
            length = self.take()
            self.expect("]")
            return f"Array{inner}{length}"
        name = self.names()[-1]
        given = [self.joined() for _ in self.each(">")] if self.passes("<") else []
        return name[0].upper() + name[1:] + "".join(given)

    def function(self, public, owner, above):
        start = self.start()
        self.next()
        name = self.take()
        path = "::".join(p for p in (self.file.crate, *above, name) if p)
        f = Function(path, public, self.file, start)
        if self.sees("<"):
            f.generic = True
            self.skip("<", ">")
        params = self.params(owner)
        result = None
        if self.passes("->"):
            result = self.at
            self.pass_type()
        if self.passes("where"):
            while self.word() not in ("requires", "ensures", "ghost", "{"):
                self.next()
        while self.word() in ("requires", "ensures", "ghost"):
            f.requires = f.requires or self.word() == "requires"
            while not self.sees("{"):  # a clause may have a name
                self.next()
            self.skip("{", "}")
        self.file.bodies.append((f, self.at, owner))
        self.skip("{", "}")
        f.end = self.done()
        where = self.file.key(owner + "::" + name if owner else name)
        self.world.add(where, f)
        if not owner:
            self.file.names.setdefault(name, where)
        self.file.later.append(lambda: self.sign(f, params, result, owner))

    def params(self, owner):
        """The names of the parameters, and where their types stand; for `self` the owner."""
        self.expect("(")
        out = []
        for _ in self.each(")"):
            lent = self.passes("&")
            if self.kind() == "life":
                self.next()
            mutable = self.passes("mut")
            name = self.take()
            if name == "self":
                out.append((name, ("own", owner, lent, mutable)))
            else:
                self.expect(":")
                out.append((name, self.at))
                self.pass_type()
        return out

    def sign(self, f, params, result, owner):
        """The types of a function's parameters and of its result."""
        f.params = [
            (n, self.own(*t[1:]) if isinstance(t, tuple) else self.type_at(t, owner))
            for n, t in params
        ]
        f.result = self.type_at(result, owner) if result is not None else "()"
        if owner:
            self.world.add(of_type(self.file.named([owner]), f.path.split("::")[-1]), f)

    def own(self, owner, lent, mutable):
        """The type of `self`."""
        kind = self.file.named([owner])
        return ("ref", kind, "mut") if lent and mutable else ("ref", kind) if lent else kind
