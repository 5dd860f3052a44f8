"""The texts that may stand for an operator or a constant."""
import math

OPERATORS = {
    "+": ["-", "*"],
    "-": ["+", "*"],
    "*": ["/", "+"],
    "/": ["*", "-"],
    "%": ["/"],
    "<<": [">>"],
    ">>": ["<<"],
    "|": ["&"],
    "&": ["|"],
    "^": ["|"],
    "&&": ["||"],
    "||": ["&&"],
    "<": ["<=", ">"],
    "<=": ["<", ">="],
    ">": [">=", "<"],
    ">=": [">", "<="],
    "==": ["!="],
    "!=": ["=="],
    "+=": ["-="],
    "-=": ["+="],
    "*=": ["+="],
    "/=": ["*=", "%="],
    "%=": ["/="],
}


def near_numbers(text):
    n = int(text.replace("_", ""), 0)
    show = hex if text.startswith("0x") else str
    return [show(m) for m in ([n + 1, n - 1] if n > 0 else [1, 2])]


def near_floats(text):
    """The next double, and a number far off."""
    x = float(text.replace("_", ""))
    up = math.nextafter(x, math.inf)
    far = 1.0 if x == 0.0 else x * 2
    return [written(up), written(far)]


def written(x):
    s = repr(x)
    return s if "." in s or "e" in s else s + ".0"


def changed_bytes(word):
    """One byte of a byte string changed, at its two ends."""
    inner = list(range(2, len(word) - 1))
    plain = [i for i in inner if word[i].isalnum() and word[i - 1] != "\\"]
    out = []
    for i in plain[-1:] + plain[:1]:
        new = chr(ord(word[i]) + 1) if word[i] not in "zZ9" else chr(ord(word[i]) - 1)
        out.append(word[:i] + new + word[i + 1 :])
    return list(dict.fromkeys(out))
