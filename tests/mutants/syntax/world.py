"""The crates' files, and the types, constants and functions that they declare."""
import os
import re
from collections import Counter

from syntax.items import Items
from syntax.tokens import tokens


class World:
    """The types and the functions of every crate."""

    def __init__(self, root, crates):
        self.structs, self.enums, self.functions, self.consts, self.files = {}, {}, {}, {}, []
        self.aliases = {}  # the file of each other name of a type, and where that begins
        self.homes = {}  # the file of each constant
        self.overloads = {}  # each name's functions, of which an operator may have two
        self.tuples = {}  # the types of the parts of each struct that has no names for them
        with open(os.path.join(root, "crates.txt"), encoding="utf-8") as f:
            rows = re.findall(r"^(\w+)(?: staticlib)?:(.*)$", f.read(), re.M)
            self.uses = {name: row.split() for name, row in rows}
        for crate in crates:
            folder = os.path.join(root, "crates", crate, "src")
            for name in sorted(os.listdir(folder)):
                if name.endswith(".rt"):
                    module = "" if name[:-3] in ("lib", "main") else name[:-3]
                    self.files.append(
                        File(self, crate, module, os.path.join(folder, name), "src/" + name)
                    )
        for file in self.files:
            Items(file).declare()
        for file in self.files:
            file.resolve()

    def add(self, key, f):
        """A function by its name; those of one name are an operator's or a conversion's, told apart
        by what they are given."""
        found = self.overloads.setdefault(key, [])
        if f not in found:
            found.append(f)
        self.functions[key] = f

    def shared_paths(self):
        """The paths that more than one function has."""
        counts = Counter(f.path for file in self.files for f, _, _ in file.bodies)
        return [path for path, count in counts.items() if count > 1]

    def parts(self, kind):
        """The types of a struct's fields, which are numbers from 0 where they have no names."""
        if kind in self.tuples:
            return {str(i): t for i, t in enumerate(self.tuples[kind])}
        return self.structs[kind]


class File:
    def __init__(self, world, crate, module, path, short):
        self.world, self.crate, self.module, self.path, self.short = (
            world,
            crate,
            module,
            path,
            short,
        )
        with open(path, encoding="utf-8") as f:
            self.text = f.read()
        self.tokens = tokens(self.text)
        self.names, self.bodies, self.later = {}, [], []

    def key(self, name):
        return (self.crate, self.module, name)

    def resolve(self):
        for action in self.later:
            action()

    def named(self, path, owner=None):
        """What a path names in this file: a crate, a module and a name, or a built-in type; owner
        is the name that `Self` stands for."""
        if path == ["Self"]:
            return self.key(owner)
        if len(path) == 1:
            return self.names.get(path[0], path[0])
        if self.module == "" and any(
            f.crate == self.crate and f.module == path[0] for f in self.world.files
        ):
            return (self.crate, "::".join(path[:-1]), path[-1])
        crate = self.crate if path[0] == "crate" else path[0]
        return (crate, "::".join(path[1:-1]), path[-1])
