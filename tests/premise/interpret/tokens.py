"""The tokens of a definition's text. A token knows its column and whether it is the first of its
line, by which a `do` knows its statements, and whether it stands right behind another, as a field
does."""
import re
from typing import NamedTuple

TOKEN = re.compile(r"--[^\n]*|\s+|[(){};,]|\.[A-Za-z]\w*|[.λ]|[^\s(){};,.λ]+")


class Token(NamedTuple):
    word: str
    column: int
    first: bool
    tight: bool


def tokens(text):
    found, start_of_line, first = [], 0, True
    for m in TOKEN.finditer(text):
        word = m.group()
        if word.isspace():
            if "\n" in word:
                start_of_line, first = m.start() + word.rindex("\n") + 1, True
        elif not word.startswith("--"):
            tight = m.start() > 0 and not text[m.start() - 1].isspace()
            found.append(Token(word, m.start() - start_of_line, first, tight))
            first = False
    return found
