"""The modules of the definitions: what each file of crates/*/specs defines, and what the names that
it uses stand for. Types and the statements of theorems are passed over: they are not evaluated.

A definition's place is ("crates/C/specs/M.antt", name); a constructor of an enum of src/ is
("variant", "C.Enum.Variant"); a name of the library is ("library", module, name)."""
import glob
import os
import re

from .terms import LIBRARY, Reader
from .tokens import tokens

USE = re.compile(r"(?:pub )?use ([^\s{}]+)\.\{([^}]*)\}")
SIGNATURE = re.compile(r"(?:abbrev|unfoldable)(?: pub)? (\S+)\s*:")
ENUM = re.compile(r"^pub enum (\w+) \{(.*?)^\}", re.M | re.S)
VARIANT = re.compile(r"^    (\w+)(?:\(([^)]*)\))?,$", re.M)
PASSED = ("pub record", "pub data", "record", "data", "pub mod", "unfolding")


def items(text):
    """The items of a file: a line that is not indented, with the lines that follow and are, or that
    close a record."""
    found = []
    for line in text.split("\n"):
        if line and not line.startswith((" ", "--", "}")):
            found.append(line)
        elif found:
            found[-1] += "\n" + line
    return found


class Definition:
    """A definition's clauses: each a list of patterns and a term."""

    def __init__(self, path, name):
        self.path, self.name, self.clauses = path, name, []


class Modules:
    """The files under a root, each read when it is first asked for. `changed` gives other texts for
    some paths."""

    def __init__(self, root, changed=None):
        self.root, self.changed, self.files = root, changed or {}, {}
        self.fixity = dict(LIBRARY)
        for path in sorted(glob.glob(os.path.join(root, "crates/*/specs/*.antt"))):
            self.read_fixity(self.text(os.path.relpath(path, root)))

    def text(self, path):
        if path in self.changed:
            return self.changed[path]
        with open(os.path.join(self.root, path), encoding="utf-8") as file:
            return file.read()

    def read_fixity(self, text):
        for side, strength, names in re.findall(r"^infix([lr]) (\d+) (.*)$", text, re.M):
            for name in names.split():
                self.fixity[name] = (int(strength), side)

    def file(self, path):
        """The names of a file: definitions, and the places that used names stand for."""
        if path not in self.files:
            self.files[path] = self.read(path)
        return self.files[path]

    def read(self, path):
        names, current = {}, None
        for item in items(self.text(path)):
            if used := USE.match(item):
                for name in used.group(2).replace("\n", " ").split(","):
                    if name := name.strip():
                        names[name] = self.place(used.group(1), name)
            elif signature := SIGNATURE.match(item):
                current = names[signature.group(1)] = Definition(path, signature.group(1))
            elif not item.startswith(PASSED) and not item.startswith("infix"):
                current.clauses.append(self.clause(current.name, item))
        return names

    def place(self, module, name):
        parts = module.split(".")
        if parts[:2] == ["Rattle", "std"] or parts[0] != "Rattle":
            return ("library", module, name)
        crate = parts[1]
        if "TheVariants" in parts:
            return ("variant", f"{crate}.{parts[-2]}.{name}")
        if "declared" in parts:
            return ("type", name)
        return (f"crates/{crate}/specs/{parts[-1]}.antt", name)

    def find(self, path, name):
        """The definition, variant or library's name that a name in a file stands for, or None."""
        found = self.file(path).get(name)
        while isinstance(found, tuple) and found[0].startswith("crates/"):
            found = self.file(found[0])[found[1]]
        return found

    def parts_of(self, variant):
        """How many parts a variant has, by the enum in the crate's src/."""
        crate, enum, name = variant.split(".")
        for path in glob.glob(os.path.join(self.root, "crates", crate, "src", "*.rt")):
            for found, body in ENUM.findall(self.text(os.path.relpath(path, self.root))):
                if found == enum:
                    parts = dict(VARIANT.findall(body))[name]
                    return len(parts.split(",")) if parts else 0
        raise NameError(variant)

    def clause(self, name, item):
        reader = Reader(tokens(item), self.fixity)
        patterns = []
        if reader.word() == name:
            reader.take()
            while reader.word() != "=":
                patterns.append(reader.pattern())
        else:
            for part in re.split("(◌)", name):
                if part == "◌":
                    patterns.append(reader.pattern())
                elif part:
                    reader.take(part)
        reader.take("=")
        body = reader.term()
        if reader.at != len(reader.tokens):
            raise SyntaxError(f"{name}: {reader.tokens[reader.at:reader.at + 8]} is left over")
        return patterns, body
