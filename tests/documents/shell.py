#!/usr/bin/env python3
"""Runs the commands of the documents for users as they stand there, in a copy of the tree.

    tests/documents/shell.py LIBRARY PROGRAM     the paths of libp3p.a and of `poses`

Commands of the toolchain (`rt ..` in a crate, `.ci/run`) are left out, but that PROGRAM is run for
`rt run`: LIBRARY and PROGRAM stand where they would write them. Every other command must succeed,
and leave the files of the tree as they are; the listing of the sample must come out of README's. A
document with a command that fails, and one that writes another sample, must be found wrong.

Needs cc, cargo and git."""
import os
import re
import shutil
import subprocess
import sys
import tempfile

sys.dont_write_bytecode = True
from blocks import blocks
from checks import DOCUMENTS
from tree import Tree

RUN = "(cd crates/poses && rt run)"
TOOLCHAIN = re.compile(r"^ *(\(cd crates/\w+ && rt \w+\)|\.ci/run\b)[^&\n]*(&& *)?", re.M)


def script(text):
    """The commands of a document's blocks, each block from the root of the tree."""
    commands = ["\n".join(block.lines) for block in blocks(text) if block.mark == "shell"]
    run = [block.replace(RUN, "crates/poses/out/poses") for block in commands]
    return "".join(f"({TOOLCHAIN.sub('', block)}\n)\n" for block in run)


def copied_tree(folder, library, program):
    """A copy of the tree's files with what the toolchain builds, under git, to see changes."""
    for path in Tree().paths():
        place = os.path.join(folder, path)
        os.makedirs(os.path.dirname(place), exist_ok=True)
        shutil.copy2(path, place)
    for built, place in ((library, "crates/p3p/out/libp3p.a"), (program, "crates/poses/out/poses")):
        place = os.path.join(folder, place)
        os.makedirs(os.path.dirname(place))
        shutil.copy2(built, place)
    with open(os.path.join(folder, ".gitignore"), "w", encoding="utf-8") as f:
        f.write("target\nout\n*.pyc\n")
    git(folder, "init", "-q")
    git(folder, "add", "-A")


def git(folder, *words):
    done = subprocess.run(["git", "-C", folder, *words], capture_output=True, text=True, check=True)
    return done.stdout


def fault(folder, text):
    """What is wrong with the commands of a text, or nothing."""
    ran = subprocess.run(["sh", "-e", "-c", script(text)], cwd=folder, capture_output=True)
    if ran.returncode != 0:
        return f"ends with {ran.returncode}: {ran.stderr.decode(errors='replace')[-300:]}"
    changed = git(folder, "status", "--short", "--untracked-files=all").splitlines()
    changed = [line for line in changed if line[1] != " "]
    return f"changes {', '.join(changed)}" if changed else None


def listed(folder):
    """What the first command of README lists."""
    first = script(Tree().read("README.md"))
    return subprocess.run(["sh", "-e", "-c", first], cwd=folder, capture_output=True, text=True)


def main():
    if len(sys.argv) != 3:
        sys.exit(__doc__)
    library, program = map(os.path.abspath, sys.argv[1:])
    os.chdir(os.path.join(os.path.dirname(os.path.abspath(__file__)), "..", ".."))
    found, samples = [], Tree().read("samples/README.md")
    with tempfile.TemporaryDirectory() as folder:
        copied_tree(folder, library, program)
        for document in DOCUMENTS:
            wrong = fault(folder, Tree().read(document))
            found += [f"{document}: {wrong}"] if wrong else []
        if listed(folder).stdout != Tree().read("samples/listing.txt"):
            found.append("README.md: the listing is not samples/listing.txt")
        for old, new in (("make samples/", "make no/"), ("txt > samples/", "txt >> samples/")):
            if old not in samples or not fault(folder, samples.replace(old, new)):
                found.append(f"not noticed: {new}")
            git(folder, "checkout", "--", ".")
    print(*found, f"{len(DOCUMENTS)} documents, {len(found)} faults", sep="\n")
    sys.exit(1 if found else 0)


main()
