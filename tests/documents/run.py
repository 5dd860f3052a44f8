#!/usr/bin/env python3
"""Checks that the documents agree with the tree.

    tests/documents/run.py                   says what is wrong; exit status 1 if anything is
    tests/documents/run.py --must-notice     makes one mistake after another in what it reads, and
                                             says which it does not notice

Checked are:
- code blocks of the documents for users (checks.py lists them). The line before a block says what
  it is: `<!-- from PATH -->` or, of a stored output, `<!-- output of PATH -->`, a run of lines of
  that file, whatever the indentation; `<!-- shell -->`, commands, which shell.py beside this runs.
  A block without a mark is a fault.
- the version in p3p.h, in Cargo.toml and in what `poses --version` prints.
- width: lines of *.md outside tables, and comments in code, have at most 100 columns.
- links of *.md to files of the tree.
- *.md outside code: no word between two `@`, which stands for a text to come.
- the copy of NOTICE in bindings/rust.
- docs/grid.svg, which docs/grid.py draws of docs/grid.tsv."""
import sys

sys.dont_write_bytecode = True
from checks import faults
from mistakes import unnoticed
from tree import Tree


def main():
    if sys.argv[1:] not in ([], ["--must-notice"]):
        sys.exit(__doc__)
    found = unnoticed() if sys.argv[1:] else faults(Tree())
    print(*found, f"{len(found)} {'not noticed' if sys.argv[1:] else 'faults'}", sep="\n")
    sys.exit(1 if found else 0)


main()
