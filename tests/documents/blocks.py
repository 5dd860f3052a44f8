"""The code blocks of a Markdown text, fenced or indented, and the marks before them."""
import re

MARK = re.compile(r"<!-- (.*) -->")
FENCE = re.compile(r" *(```+|~~~+)")
ITEM = re.compile(r"( *(?:[-*+]|\d+[.)]) +)\S")


class Block:
    """`mark` is the text of the comment directly before the block, or None. `first` is the number
    of the block's first line from 1, its fence if it has one; `numbers` are those of all its
    lines."""

    def __init__(self, mark, first, lines, last):
        self.mark, self.first, self.lines = mark, first, lines
        self.numbers = range(first, last + 1)


def indentation(line):
    return len(line) - len(line.lstrip(" "))


def end_of_fence(lines, at):
    """The place of the line that closes the fence at a place."""
    fence = FENCE.match(lines[at])[1]
    for end in range(at + 1, len(lines)):
        if lines[end].strip() == fence:
            return end
    return len(lines)


def end_of_indented(lines, at, least):
    """The place after the last line of the indented block at a place."""
    end = at
    for place in range(at, len(lines)):
        if lines[place].strip() and indentation(lines[place]) < least:
            break
        if lines[place].strip():
            end = place + 1
    return end


def list_indentation(line, before):
    """How far the text of the list item is indented that a line belongs to, or 0."""
    item = ITEM.match(line)
    if item:
        return len(item[1])
    return 0 if line.strip() and indentation(line) < before else before


def blocks(text):
    lines, at, item, mark, blank = text.splitlines(), 0, 0, None, True
    found = []
    while at < len(lines):
        line, end = lines[at], None
        if FENCE.match(line):
            end = end_of_fence(lines, at)
            found.append(Block(mark, at + 1, lines[at + 1 : end], end + 1))
            end += 1
        elif (blank or mark) and line.strip() and indentation(line) >= item + 4:
            end = end_of_indented(lines, at, item + 4)
            found.append(Block(mark, at + 1, lines[at:end], end))
        if end is not None:
            at, mark, blank = end, None, False
            continue
        item, blank = list_indentation(line, item), not line.strip()
        if not blank:
            comment = MARK.fullmatch(line.strip())
            mark = comment[1] if comment else None
        at += 1
    return found
