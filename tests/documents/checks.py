"""What is checked of the documents. Each check gives the faults of a tree as lines of text."""
import ast
import os
import re
import sys
import textwrap

from blocks import blocks
from tree import ROOT

sys.path.insert(0, os.path.join(ROOT, "docs"))
import grid

DOCUMENTS = [
    "README.md",
    "docs/USING.md",
    "docs/GUIDE.md",
    "include/README.md",
    "bindings/rust/README.md",
    "samples/README.md",
]
HEADER, MANIFEST, NOTICE = "include/p3p.h", "bindings/rust/Cargo.toml", "bindings/rust/NOTICE"
WIDTH = 100
NUMBER = r"(\d+\.\d+\.\d+)"

# ---- code blocks


def dedented(lines):
    return textwrap.dedent("\n".join(line.rstrip() for line in lines)).strip("\n").splitlines()


def is_run_of(block, lines):
    """Whether the block's lines stand one after another among others, whatever the indentation."""
    block = dedented(block)
    return bool(block) and any(
        lines[at].strip() == block[0].strip() and dedented(lines[at : at + len(block)]) == block
        for at in range(len(lines) - len(block) + 1)
    )


def run_fault(tree, lines, path):
    """What is wrong with lines that are to stand in a file, or None."""
    if not tree.exists(path):
        return f"{path} is not there"
    found = is_run_of(lines, tree.read(path).splitlines())
    return None if found else f"the block is no run of lines of {path}"


def block_fault(tree, block):
    """What is wrong with a block, or None."""
    mark = re.fullmatch(r"shell|(?:from|output of) (\S+)", block.mark or "")
    if not mark:
        return f"a code block without a mark: {block.mark or 'none'}"
    return run_fault(tree, block.lines, mark[1]) if mark[1] else None


def block_faults(tree):
    for path in DOCUMENTS:
        if not tree.exists(path):
            yield f"{path} is not there"
            continue
        for block in blocks(tree.read(path)):
            fault = block_fault(tree, block)
            if fault:
                yield f"{path}:{block.first}: {fault}"


# ---- versions


def version_texts(tree):
    """Places that name the version, each with the versions that were found there."""
    header = tree.read(HEADER)
    parts = re.findall(r"^#define P3P_VERSION_(?:MAJOR|MINOR|PATCH) (\d+)$", header, re.M)
    yield HEADER + ", text", re.findall(rf'^#define P3P_VERSION "{NUMBER}"$', header, re.M)
    yield HEADER + ", numbers", [".".join(parts)]
    yield MANIFEST, re.findall(rf'^version = "{NUMBER}"$', tree.read(MANIFEST), re.M)
    program = []
    for path in tree.with_suffix(".rt"):
        program += re.findall(rf'b"poses {NUMBER}\\n"', tree.read(path))
    yield "poses --version", program


def version_faults(tree):
    texts = dict(version_texts(tree))
    expected = texts[HEADER + ", text"][:1]
    for place, found in texts.items():
        if not found or [*set(found)] != expected:
            yield f"version: {place}: {', '.join(found) or 'none'}, in {HEADER} {expected}"


# ---- widths

# where a comment begins in a line of code
COMMENTS = {
    (".rt", ".rs", ".c", ".h", ".cpp"): re.compile(r"(?:^|\s)(?://|/\*)|^\s*\*\s"),
    (".antt",): re.compile(r"(?:^|\s)--(?:\s|$)"),
    (".py", ".sh"): re.compile(r"(?:^|\s)#\s"),
}


def docstring_lines(text):
    """The numbers of the lines of a Python text's docstrings."""
    numbers = set()
    for node in ast.walk(ast.parse(text)):
        documented = isinstance(node, (ast.Module, ast.ClassDef, ast.FunctionDef))
        if documented and ast.get_docstring(node, clean=False) is not None:
            numbers.update(range(node.body[0].lineno, node.body[0].end_lineno + 1))
    return numbers


def is_prose(path, line, number, docstrings):
    """Whether a line has to keep the width."""
    if path.endswith(".md"):
        return not line.startswith("|")
    begins = next(begins for suffixes, begins in COMMENTS.items() if path.endswith(suffixes))
    return bool(begins.search(line)) or number in docstrings


def width_faults(tree):
    suffixes = [suffix for suffixes in COMMENTS for suffix in suffixes]
    for path in tree.with_suffix(".md", *suffixes):
        text = tree.read(path)
        long = [(n, line) for n, line in enumerate(text.splitlines(), 1) if len(line) > WIDTH]
        docstrings = docstring_lines(text) if long and path.endswith(".py") else set()
        for number, line in long:
            if is_prose(path, line, number, docstrings):
                yield f"{path}:{number}: {len(line)} columns"


# ---- links and placeholders


def prose(text):
    """The lines of a Markdown text outside code, with their numbers."""
    code = {number for block in blocks(text) for number in block.numbers}
    for number, line in enumerate(text.splitlines(), 1):
        if number not in code:
            yield number, re.sub(r"`[^`]*`", "", line)


def links(text):
    """The targets of a Markdown text's links and pictures, with the numbers of their lines."""
    for number, line in prose(text):
        for target in re.findall(r"\]\(([^()\s]+)\)|(?:src|href)=\"([^\"]+)\"", line):
            yield number, target[0] or target[1]


def link_faults(tree):
    for path in tree.with_suffix(".md"):
        for number, target in links(tree.read(path)):
            file = target.split("#")[0]
            place = os.path.normpath(os.path.join(os.path.dirname(path), file))
            if file and not re.match(r"\w+:", file) and not tree.exists(place):
                yield f"{path}:{number}: {target} is not there"


def placeholder_faults(tree):
    for path in tree.with_suffix(".md"):
        for number, line in prose(tree.read(path)):
            for word in re.findall(r"@\w+@", line):
                yield f"{path}:{number}: the placeholder {word}"


# ---- the notice


def notice_faults(tree):
    if not tree.exists(NOTICE) or tree.read(NOTICE) != tree.read("NOTICE"):
        yield f"{NOTICE} is not the repository's NOTICE"


# ---- the drawing of the grid jobs


def drawing_faults(tree):
    if tree.read("docs/grid.svg") != grid.drawing(tree.read("docs/grid.tsv")):
        yield "docs/grid.svg is not what docs/grid.py draws of docs/grid.tsv"


CHECKS = [
    block_faults,
    version_faults,
    width_faults,
    link_faults,
    placeholder_faults,
    notice_faults,
    drawing_faults,
]


def faults(tree):
    return [fault for check in CHECKS for fault in check(tree)]
