"""A few frames at the edges of the premise by name, with whether each is regular, its refusal
number and its count: those of crates/theorems/specs/PremiseCases.antt, of which the prover computes
the same. What a frame that is not regular fails by stands after its name, or is its name."""
import re

TABLE = "crates/theorems/specs/PremiseCases.antt"
ROW = r"-- (.+)\n +(?:∷ )?frame \(([^()]+) ∷ \[\]\)\s+(true|false) (\d) (\d)\n"


def rows():
    with open(TABLE, encoding="utf-8") as f:
        text = f.read()
    found = re.findall(ROW, text)
    assert len(found) == text.count("frame (0"), TABLE
    for name, words, regular, refusal, count in found:
        frame = tuple(int(word.replace("_", ""), 0) for word in words.split("∷"))
        assert len(frame) == 18, name
        yield name, frame, [regular == "true", int(refusal), int(count)]


def frames():
    return [frame for _, frame, _ in rows()]


def unexpected(definition):
    """The names of frames of which the definition says other than the table."""
    found = []
    for name, frame, expected in rows():
        traced = definition.of(frame)
        if [bool(traced.regular), traced.value.refusal, traced.value.count] != expected:
            found.append(name)
    return found
