"""The library crates: which they are, what a result of one rests on, and where its proofs are."""
import hashlib
import os
import re


def libraries():
    """The library crates that have a function, in the order of crates.txt."""
    if not os.path.exists("crates.txt"):
        return []
    with open("crates.txt", encoding="utf-8") as f:
        names = re.findall(r"^(\w+)(?: staticlib)?:", f.read(), re.M)
    return [n for n in names if has_function(os.path.join("crates", n, "src"))]


def has_function(folder):
    """Whether a library's sources have a function; a crate of definitions and proofs has none."""
    if not os.path.exists(os.path.join(folder, "lib.rt")):
        return False
    for name in (n for n in os.listdir(folder) if n.endswith(".rt")):
        with open(os.path.join(folder, name), encoding="utf-8") as f:
            if re.search(r"^ *(pub )?(extern \"C\" )?fn ", f.read(), re.M):
                return True
    return False


CRATES = libraries()
PARTS = ("src", "specs", "proofs")


def source_sum(root, crate):
    """What the result rests on: the crate's sources, definitions and proofs; lines of comments do
    not count."""
    sums = hashlib.sha256()
    top = os.path.join(root, "crates", crate)
    for part in PARTS:
        for folder, _, names in sorted(os.walk(os.path.join(top, part))):
            for name in sorted(names):
                path = os.path.join(folder, name)
                with open(path, encoding="utf-8") as f:
                    lines = [
                        l.strip()
                        for l in f
                        if l.strip() and not l.strip().startswith(("//", "-- "))
                    ]
                sums.update("\0".join([os.path.relpath(path, top)] + lines).encode())
    return sums.hexdigest()[:16]


def own_folder(root, function):
    """Where the function's proof files stand, if it has any: in a folder of its own, or in that of
    the cycle of calls that it is in, which has the names of all."""
    parts = function.path.split("::")[1:]
    folder = os.path.join("proofs", *parts[:-1])
    top = os.path.join(root, "crates", function.path.split("::")[0], folder)
    names = [f.path.split("::")[-1] for f, _, _ in function.file.bodies]
    for name in sorted(os.listdir(top)) if os.path.isdir(top) else []:
        if name.startswith("+") and parts[-1] in members(name[1:], names):
            return os.path.join(folder, name)
    return os.path.join(folder, parts[-1])


def members(cycle, names):
    """The functions that a cycle is named after: their names, joined by `_`."""
    for name in names:
        if cycle == name:
            return [name]
        if cycle.startswith(name + "_"):
            others = members(cycle[len(name) + 1 :], names)
            if others:
                return [name, *others]
    return []
