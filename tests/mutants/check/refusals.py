"""What each must-fail edit is refused for, by what `rt must-fail` says of it. An edit shows
something where a goal is not proved or two values differ. One that is bad, one that is refused only
since a proof file names what it took away, and one that only meets a limit of the prover show
nothing."""
import os
import re

from check.edits import edits

SAID = os.path.join("target", "must-fail.txt")
LINE = re.compile(r"^(?:rt: )?must-fail (\w+/[\w.-]+)\.edit: (.*)$", re.M)
FACT = "refused, as it must be"
# What rt names first where all else is a name that is gone, of which it says nothing.
WAITS = re.compile(r"error: \d+ declarations? that depends? on ")


def is_fact(words):
    return words.startswith(FACT + ": ") and not WAITS.search(words)


def read_refusals():
    """Whether every edit is refused for a fact; prints those that are not."""
    assert not is_fact(FACT + " (only because a proof file names what the edit took away, ..)")
    assert not is_fact(FACT + ": F.antt:1:1: error: 1 declaration that depends on `f`, which was ..")
    if not os.path.exists(SAID):
        print(f"no {SAID}: run `rt must-fail > {SAID}` first")
        return False
    with open(SAID, encoding="utf-8") as f:
        said = dict(LINE.findall(f.read()))
    found = edits()
    wrong = [edit for edit in found if not is_fact(said.get(edit.name, ""))]
    for edit in wrong:
        print(f"{edit.name}: {said.get(edit.name, 'nothing is said of it')[:300]}")
    print(f"{len(found)} edits, {len(found) - len(wrong)} refused for a fact")
    return not wrong
