"""The tokens of a Rattle text, and a cursor that reads them."""
import re

TOKEN = re.compile(
    r"""(?P<space>\s+|//[^\n]*)
  | (?P<bytes>b"(?:[^"\\]|\\.)*") | (?P<byte>b'(?:[^'\\]|\\.)') | (?P<str>"[^"]*")
  | (?P<num>0x[0-9a-fA-F_]+(?:[ui](?:8|16|32|64|size))?|\d[\d_]*(?:\.\d+)?(?:[eE][+-]?\d+)?(?:[uif](?:8|16|32|64|size))?)
  | (?P<life>'[a-z]\w*)
  | (?P<id>[A-Za-z_]\w*)
  | (?P<op>\.\.=|<<=|>>=|::|->|=>|==|!=|<=|>=|&&|\|\||<<|>>|\+=|-=|\*=|/=|%=|&=|\|=|\^=|\.\.|[-+*/%&|^!<>=(){}\[\],;:.#?@]|.)""",
    re.X | re.S,
)
# The binary operators, the loosest first.
LEVELS = [
    ["||"],
    ["&&"],
    ["<", "<=", ">", ">=", "==", "!="],
    ["|"],
    ["^"],
    ["&"],
    ["<<", ">>"],
    ["+", "-"],
    ["*", "/", "%"],
]
ASSIGNMENTS = ("+=", "-=", "*=", "/=", "%=", "|=", "&=", "^=")


def tokens(text):
    """Each token's kind, text, start and end; spaces and comments are left out."""
    out = []
    for m in TOKEN.finditer(text):
        if m.lastgroup != "space":
            out.append((m.lastgroup, m.group(), m.start(), m.end()))
    out.append(("end", "", len(text), len(text)))
    return out


def number_parts(word):
    """A number's digits and its suffix, if it has one, and whether it is a double."""
    digits, suffix = re.fullmatch(r"(.*?)([ui](?:8|16|32|64|size)|f64)?", word).groups()
    return digits, suffix, not digits.startswith("0x") and re.search(r"[.eE]", digits) is not None


def literal(kind, word):
    """The value of a number, a byte, a byte string or a truth value."""
    if kind == "num":
        digits, _, double = number_parts(word)
        return float(digits.replace("_", "")) if double else int(digits.replace("_", ""), 0)
    if kind == "str":
        return word[1:-1].encode().decode("unicode_escape")
    if kind in ("bytes", "byte"):
        text = word[2:-1].encode().decode("unicode_escape").encode("latin1")
        return list(text) if kind == "bytes" else text[0]
    return word == "true"


class Cursor:
    def __init__(self, path, text, found, at):
        self.path, self.text, self.tokens, self.at = path, text, found, at

    def kind(self):
        return self.tokens[self.at][0]

    def word(self):
        return self.tokens[self.at][1]

    def start(self):
        return self.tokens[self.at][2]

    def end(self):
        return self.tokens[self.at][3]

    def done(self):
        """The end of the last token that was read."""
        return self.tokens[self.at - 1][3]

    def sees(self, w):
        return self.tokens[self.at][1] == w and self.tokens[self.at][0] in ("op", "id")

    def next(self):
        self.at += 1

    def take(self):
        self.at += 1
        return self.tokens[self.at - 1][1]

    def passes(self, w):
        """Whether w comes next; it is read then."""
        if self.sees(w):
            self.at += 1
            return True
        return False

    def expect(self, w):
        if not self.passes(w):
            self.fail(f"expected {w}, found {self.kind()} {self.word()}")

    def fail(self, words):
        raise SyntaxError(f"{self.path}:{self.text.count(chr(10), 0, self.start()) + 1}: {words}")

    def each(self, closes):
        """A turn for each part up to a closing bracket; commas are read."""
        while not self.passes(closes):
            yield
            self.passes(",")

    def names(self):
        """The names of a path, `a::b::c`; of `<[A; 4]>::b` the first is the array's text."""
        start = self.at
        if self.sees("<"):
            self.skip("<", ">")
            out = [self.words(start)[1:-1]]
        else:
            out = [self.take()]
        while self.passes("::"):
            out.append(self.take())
        return out

    def words(self, start):
        """The tokens from one on that were read, without spaces."""
        return "".join(t[1] for t in self.tokens[start : self.at])

    def skip(self, opens, closes):
        """Past a bracket that opens here, with all that is in it."""
        depth = 0
        while True:
            w = self.word() if self.kind() in ("op", "id") else None
            if self.kind() == "end":
                raise SyntaxError(f"{self.path}: no {closes}")
            depth += (w == opens) - (w == closes)
            self.next()
            if depth == 0:
                return
