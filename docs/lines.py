#!/usr/bin/env python3
"""Counts the lines of the definitions that docs/GUIDE.md lists, and writes the numbers there.

    docs/lines.py            rewrite the numbers in the table of definitions, and their sum
    docs/lines.py --check    say whether the numbers are up to date; exit status 1 if not

The list is that of GUIDE.md itself: a row of its table has a crate, the files of its specs/ that
are counted, with a note in brackets behind some, their lines, and the files that are not needed.
Where a file is listed and not there, or there and not listed, the script says so with exit status
1, and writes nothing. Lib.antt, which only names the others, is not counted."""
import os
import re
import sys

ROOT = os.path.join(os.path.dirname(os.path.abspath(__file__)), "..")
GUIDE = os.path.join(ROOT, "docs", "GUIDE.md")
TOTAL = re.compile(r"^[\d,]+(?= lines in all)", re.M)


def specs(crate):
    return os.path.join(ROOT, "crates", crate, "specs")


def names(cell):
    """The names in a cell, without the notes in brackets."""
    return re.findall(r"\w+", re.sub(r"\([^()]*\)", "", cell))


class Row:
    """A line of GUIDE.md's table: crate, files, lines, files that are not needed."""

    def __init__(self, line):
        self.cells = line.split("|")
        self.crate = self.cells[1].strip(" `")
        self.counted, self.spared = names(self.cells[2]), names(self.cells[4])

    def faults(self):
        found = set()
        if os.path.isdir(specs(self.crate)):
            found = {name.removesuffix(".antt") for name in os.listdir(specs(self.crate))} - {"Lib"}
        listed = set(self.counted + self.spared)
        return [
            f"crates/{self.crate}/specs/{name} is listed and not there"
            for name in sorted(listed - found)
        ] + [
            f"crates/{self.crate}/specs/{name} is there and not listed"
            for name in sorted(found - listed)
        ]

    def count(self):
        total = 0
        for name in self.counted:
            with open(os.path.join(specs(self.crate), name + ".antt"), encoding="utf-8") as f:
                total += len(f.read().splitlines())
        return total

    def line(self):
        return "|".join(self.cells[:3] + [f" {self.count():,} "] + self.cells[4:])


def is_row(line):
    return line.startswith("| `") and line.count("|") == 5


def faults(text):
    """What is wrong with the list: of each crate with definitions there is to be a row."""
    rows = [Row(line) for line in text.splitlines() if is_row(line)]
    out = [fault for row in rows for fault in row.faults()]
    for crate in sorted(os.listdir(os.path.join(ROOT, "crates"))):
        if os.path.isdir(specs(crate)) and crate not in [row.crate for row in rows]:
            out.append(f"crates/{crate}/specs is there and not listed")
    if len(TOTAL.findall(text)) != 1:
        out.append("`N lines in all` is to begin one line")
    return out


def renewed(text):
    """The text with the numbers of the files as they are."""
    lines = [Row(line).line() if is_row(line) else line for line in text.split("\n")]
    total = sum(Row(line).count() for line in lines if is_row(line))
    return TOTAL.sub(f"{total:,}", "\n".join(lines))


def main():
    if sys.argv[1:] not in ([], ["--check"]):
        sys.exit(__doc__)
    with open(GUIDE, encoding="utf-8") as f:
        before = f.read()
    wrong = faults(before)
    if wrong:
        sys.exit("\n".join(f"docs/GUIDE.md: {fault}" for fault in wrong))
    after = renewed(before)
    if after == before:
        return
    if sys.argv[1:]:
        sys.exit("docs/GUIDE.md: the numbers of lines are not up to date")
    with open(GUIDE, "w", encoding="utf-8") as f:
        f.write(after)


if __name__ == "__main__":
    main()
