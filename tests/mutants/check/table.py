"""RESULT.md, written from the results of all crates and the reasons of reasons.txt."""
import os
import textwrap

from check.crates import CRATES, source_sum
from check.results import HERE, lines_of, path_of

VERDICTS = ("fact", "shape", "survived", "no verdict")
FOUND = ("differs", "no input found", "not tried")
HEAD = """# The strength of the contracts

Written by tests/mutants/run.py, which says how the mutants are made and tried. Each is one change
of an operator, an operand or a constant in the body of a function; contracts, definitions and
proofs stay.

- refused, fact: the prover could not prove a fact that the contract or the code's safety asks for;
- refused, shape: the proof file names a fact or a step that the changed code does not have, which
  shows less, and is counted apart;
- survived: the crate is proved with the change.
"""
COUNTS_HEAD = """
| functions | refused, fact | refused, shape | survived | no verdict |
|---|---|---|---|---|"""
WORDS_HEAD = """\
By the prover's words, and by whether an input was found at which the changed function answers
otherwise (interpret/witness.py: random inputs, an interpreter that is not the prover's; not tried
where the function has a `requires` or is generic). Where one was found, the refused fact is false,
whatever the words.

| words | mutants | an input differs | no such input found | not tried |
|---|---|---|---|---|"""
FUNCTIONS_HEAD = """## By function

Places: how many operators, operands and constants the body has that can be changed. A public
function is in bold.

| function | places | tried | refused, fact | refused, shape | survived | no verdict |
|---|---|---|---|---|---|---|"""


def reasons():
    """By function, line before and line after, why a survivor is no hole; `*` stands for every
    line."""
    path, out = os.path.join(HERE, "reasons.txt"), {}
    if os.path.exists(path):
        with open(path, encoding="utf-8") as f:
            for block in f.read().split("\n\n"):
                lines = [l for l in block.splitlines() if l and not l.startswith("#")]
                if len(lines) >= 4:
                    out[
                        (lines[0], lines[1].removeprefix("- "), lines[2].removeprefix("+ "))
                    ] = " ".join(lines[3:])
    return out


class Tally:
    """What the results come to. rows: the functions, each with its places and the count of each
    verdict; total: the count of each verdict by public and private; said: by the prover's words,
    whether inputs were found; changed: how many crates have changed since they were tried."""

    def __init__(self, root):
        self.reasons, self.rows, self.heads, self.survivors, self.odd = reasons(), [], [], [], []
        self.total, self.said, self.changed = {}, {}, 0
        for crate in CRATES:
            if not os.path.exists(path_of(crate)):
                self.rows.append(f"| {crate} | not tried | | | | | |")
            else:
                self.add_crate(root, crate)

    def add_crate(self, root, crate):
        lines = lines_of(crate)
        has_changed = source_sum(root, crate) not in lines[0]
        self.changed += has_changed
        since = ", and the crate has changed since" if has_changed else ""
        self.heads.append(f"- {crate}: {lines[0][2:]}{since}")
        for line in lines[2:]:
            parts = line.split("\t")
            if parts[0]:
                self.rows.append([parts[0], int(parts[1]), {}])
            elif parts[2] != "not compiled":
                self.add_mutant(self.rows[-1], parts)

    def add_mutant(self, row, parts):
        verdict = parts[2]
        row[2][verdict] = row[2].get(verdict, 0) + 1
        kind = "public" if row[0].startswith("pub ") else "private"
        self.total[(kind, verdict)] = self.total.get((kind, verdict), 0) + 1
        words = {
            "fact": parts[7],
            "shape": "shape: the proof file does not fit",
            "survived": "survived",
        }.get(verdict, verdict)
        by_input = self.said.setdefault(words, {})
        found = parts[8] if len(parts) > 8 else "not tried"
        by_input[found] = by_input.get(found, 0) + 1
        if verdict in ("survived", "no verdict"):
            name, where, old, new = row[0].removeprefix("pub "), *parts[4:7]
            reason = self.reasons.get(
                (name, old, new), self.reasons.get((name, "*", "*"), "NO REASON GIVEN")
            )
            (self.survivors if verdict == "survived" else self.odd).append(
                (name, where, old, new, reason)
            )

    def reasoned(self, begins):
        return sum(s[4].startswith(begins) for s in self.survivors)


def wrapped(text, indent=""):
    return textwrap.wrap(
        text, 100, subsequent_indent=indent, break_long_words=False, break_on_hyphens=False
    )


def shown(old, new):
    """Both lines of a change; of long ones the part in which they differ."""
    if max(len(old), len(new)) <= 98:
        return old, new
    at = max(0, len(os.path.commonprefix([old, new])) - 40)
    return tuple(f".. {line[at : at + 90]} .." for line in (old, new))


def cells(counts, keys):
    return " | ".join(str(counts.get(k, 0)) for k in keys) + " |"


def summary(tally):
    """The counts by public and private, and the reasons of the survivors."""
    text = [HEAD]
    if tally.changed:
        text += wrapped(
            f"{tally.changed} of the {len(tally.heads)} crates have changed since they were tried: "
            "their results are of the crates as they were, by the toolchain that "
            '"Runs" names for each.'
        )
    text += [COUNTS_HEAD]
    for kind in ("public", "private"):
        text.append(f"| {kind} | " + cells(tally.total, [(kind, v) for v in VERDICTS]))
    number = len(tally.survivors)
    same, tested = tally.reasoned("equivalent:"), tally.reasoned("equivalent for the caller:")
    outside = tally.reasoned("outside the contracts:")
    return (
        text
        + [""]
        + wrapped(
            f"Of the {number} survivors {same} compute the same, {tested} change an inner function's "
            "answer within its contract, which leaves it open and whose caller tests it, "
            f"{outside} change what is read or written, of which no contract can speak, and are "
            "found by the stored runs (crates/poses_runs, crates/replay) or by tests/poses/run.py, "
            f"and {number - same - tested - outside} "
            "have no reason given. The reasons (reasons.txt) are given by hand."
        )
        + [""]
    )


def by_words(tally):
    text = [WORDS_HEAD]
    for words, found in sorted(tally.said.items(), key=lambda e: -sum(e[1].values())):
        text.append(f"| {words} | {sum(found.values())} | " + cells(found, FOUND))
    return text


def listed(tally):
    """The runs, the survivors, and the mutants with no verdict."""
    text = ["", "## Runs", ""]
    for head in tally.heads:
        text += wrapped(head, "  ")
    text += ["", "## Survivors", ""]
    for name, where, old, new, reason in tally.survivors:
        old, new = shown(old, new)
        text += wrapped(f"`{name}`, {where}: {reason}")
        text += ["", "```diff", f"- {old}", f"+ {new}", "```", ""]
    if tally.odd:
        text += ["## No verdict", ""]
        for name, where, old, new, _ in tally.odd:
            text += [f"- `{name}`, {where}: `{old}` to `{new}`"]
        text += [""]
    return text


def by_function(tally):
    text = [FUNCTIONS_HEAD]
    for row in tally.rows:
        if isinstance(row, str):
            text.append(row)
        else:
            name = f"**{row[0][4:]}**" if row[0].startswith("pub ") else row[0]
            text.append(
                f"| {name} | {row[1]} | {sum(row[2].values())} | " + cells(row[2], VERDICTS)
            )
    return text


def write_table(root):
    tally = Tally(root)
    text = summary(tally) + by_words(tally) + listed(tally) + by_function(tally)
    with open(os.path.join(HERE, "RESULT.md"), "w", encoding="utf-8") as f:
        f.write("\n".join(text) + "\n")
