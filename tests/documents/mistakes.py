"""Mistakes that the checks must notice, and changes in which there is nothing to notice."""
from checks import HEADER, MANIFEST, NOTICE, faults
from tree import Tree

C, RUST = "include/README.md", "bindings/rust/README.md"
LONG = "word " * 21


def replaced(path, old, new):
    """A tree with the first of some text of a file replaced, which must be there."""
    text = Tree().read(path)
    if old not in text:
        raise ValueError(f"{path} has no {old}")
    return Tree().changed(path, text.replace(old, new, 1))


def longer(path, begin, end=""):
    """A tree with a long line at the end of a file."""
    return Tree().changed(path, Tree().read(path) + f"\n{begin} {LONG}{end}\n")


def program_version():
    """The file that has the text of `poses --version`."""
    tree = Tree()
    return [path for path in tree.with_suffix(".rt") if 'b"poses 0.' in tree.read(path)][0]


def mistakes():
    """A changed tree and a part of the fault that must be found in it."""
    yield replaced(C, "2.150000", "2.150001"), f"{C}:"
    yield replaced("include/example.c", "pose[9 + i];", "pose[i];"), "of include/example.c"
    yield replaced(C, "    bearing[i] = direction", "  bearing[i] = direction"), f"{C}:"
    yield replaced(C, "<!-- from include/example.c -->", ""), "without a mark: none"
    yield replaced(C, "<!-- shell -->\n", ""), "without a mark: none"
    yield replaced(C, "<!-- shell -->", "<!-- text -->"), "without a mark: text"
    yield replaced(RUST, "<!-- from bindings/rust/", "<!-- from "), "examples/plate.rs is not there"
    yield replaced(RUST, "\nIn another project", "\n```\nx\n```\n\nIn"), "without a mark: none"
    yield replaced(RUST, "\nIn another project", "\n    x\n\nIn another"), "without a mark: none"
    yield replaced(HEADER, 'P3P_VERSION "0', 'P3P_VERSION "1'), "version: "
    yield replaced(HEADER, "P3P_VERSION_PATCH ", "P3P_VERSION_PATCH 1"), f"version: {HEADER}, num"
    yield replaced(MANIFEST, 'version = "0', 'version = "1'), f"version: {MANIFEST}"
    yield replaced(program_version(), 'b"poses 0', 'b"poses 1'), "version: poses --version: 1"
    yield replaced(C, "[p3p.h](p3p.h)", "[p3p.h](p3p.c)"), f"{C}:3: p3p.c is not there"
    yield replaced(C, "[p3p.h](p3p.h)", "![p](p3p.svg#x)"), f"{C}:3: p3p.svg#x is not there"
    yield replaced(C, "[p3p.h](p3p.h)", "[p3p.h](p3p.h) @SIZE@"), f"{C}:3: the placeholder @SIZE@"
    yield Tree().changed(NOTICE, Tree().read(NOTICE) + "x"), f"{NOTICE} is not"
    yield replaced("docs/grid.tsv", "1.1e-08", "1.9e-08"), "docs/grid.svg is not"
    yield replaced("docs/grid.svg", "33,000", "33.000"), "docs/grid.svg is not"
    for path, begin, end in long_comments():
        yield longer(path, begin, end), f"{path}:"


def long_comments():
    """Files of each kind with the beginning and the end of a comment in them."""
    yield "README.md", "", ""
    yield "README.md", "\n    code", ""
    yield "include/example.c", "/*", "*/"
    yield HEADER, " *", ""
    yield "bindings/rust/build.rs", "//", ""
    yield "bindings/rust/build.rs", "let x = 1; //", ""
    yield "crates/p3p/src/lib.rt", "//", ""
    yield "crates/frames/specs/Poses.antt", "--", ""
    yield "reference/mirror.sh", "#", ""
    yield "tests/documents/run.py", "#", ""
    yield "tests/documents/run.py", 'def f():\n    """', '"""'


def harmless():
    """Changed trees without a new fault."""
    yield longer("README.md", "| a |", "|")
    yield longer("include/example.py", 'x = "', '"')
    yield longer("crates/frames/specs/Poses.antt", "use")
    yield replaced(C, "<!-- from include/example.txt -->", "<!-- output of include/example.txt -->")
    yield replaced(C, "    target/example\n", "    target/example again\n")
    yield replaced(RUST, "\nIn another project", "\n- an item\n\n    of two paragraphs\n\nIn")
    yield replaced(C, "[p3p.h](p3p.h)", "[p](p3p.h#L3) `[a](b)` [c](https://d.example/)\n")
    yield replaced(C, "[p3p.h](p3p.h)", "`@SIZE@` a@b.example, c@d.example\n")
    yield replaced(C, "    target/example\n", "    target/example @SIZE@\n")


def unnoticed():
    """What the checks do not do as they should, in a tree that has no fault to begin with."""
    wrong = [f"before any change: {fault}" for fault in faults(Tree())]
    for number, (tree, part) in enumerate(mistakes(), 1):
        if not any(part in fault for fault in faults(tree)):
            wrong.append(f"mistake {number}, in {', '.join(tree.changes)}: no fault has {part}")
    for number, tree in enumerate(harmless(), 1):
        wrong += [f"harmless change {number}: {fault}" for fault in faults(tree)]
    return wrong
