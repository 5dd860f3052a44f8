"""The verdict of each mutant, from what the checker says."""
import re

# What antt says where a proof file names a fact or a step that the changed code does not have, or
# the other way round.
SHAPE = re.compile(
    r"that can be named from here|has no field|no such field|not a field|is not in scope"
    r"|unknown name|not a projection|too many arguments|takes? \d+ arguments?|does not cover"
    r"|this pattern needs a function"
)
# What antt's words come to, for the table.
WORDS = [
    ("two values differ", r"the two types .*differ|expected type|the two sides"),
    (
        "a goal is not proved",
        r"no proof of|does not follow|it is not proved|`cc`|what it leaves must be a path"
        r"|give a proof of that",
    ),
    (
        "an equation of the proof is not in the goal",
        r"no occurrence of the path|no part of the goal",
    ),
]
# An error that only follows from another.
FOLLOWS = re.compile(r"was not admitted|which (was|were) rejected, (was|were) not checked")


def states(said):
    """What is said of each function, by its path."""
    return dict(re.findall(r"^fn (\S+): (.*)$", said, re.M))


def read(said, mutants):
    """Gives each mutant its verdict, or None where another run must tell."""
    errors, status = errors_by_folder(said), states(said)
    for m in mutants:
        f, state = m.function, status.get(m.function.path, "")
        own = [words for words in errors.get(f.proof, []) if not FOLLOWS.search(words)]
        if state == "proved":
            m.verdict = "survived"
        elif own:
            m.verdict, m.said = refusal(own)
        elif "`search` did not prove" in state:
            m.verdict, m.said = "fact", "a goal is not proved"
        elif state.startswith(("no proof", "not proved")) and "it calls" not in state:
            m.verdict, m.said = "shape", "no proof is made by itself"
        elif state.startswith("could not tell"):
            m.verdict, m.said = "no verdict", state


def errors_by_folder(said):
    """The words of the errors in each folder of proof files, with the lines that go on with
    them."""
    errors, at = {}, None
    for line in said.splitlines():
        m = re.match(r"(?:\./)?(proofs/\S*)/\w+\.antt:\d+:\d+: error: (.*)", line)
        if m:
            at = errors.setdefault(m.group(1), [])
            at.append(m.group(2))
        elif line.startswith("  ") and at:
            at[-1] += "\n" + line
        else:
            at = None
    return errors


def refusal(own):
    """The verdict of a function whose own proof has these errors, and the words that it rests
    on."""
    shape = [words for words in own if SHAPE.search(words)]
    facts = [words for words in own if any(re.search(pattern, words) for _, pattern in WORDS)]
    return "shape" if shape or not facts else "fact", (shape or facts or own)[0]


def front_errors(said, mutants):
    """The mutants that the compiler refuses before the prover runs."""
    out = []
    for name, line in re.findall(r"^(?:\./)?(src/\S+?):(\d+):\d+: error", said, re.M):
        for m in mutants:
            f = m.function
            first = f.file.text.count("\n", 0, f.start) + 1
            last = f.file.text.count("\n", 0, f.end) + 1
            if f.file.short == name and first <= int(line) <= last and m not in out:
                out.append(m)
    return out


def why(m):
    """A mutant's verdict in a few words."""
    if m.said in [name for name, _ in WORDS]:
        return m.said
    if m.verdict == "fact":
        for name, pattern in WORDS:
            if re.search(pattern, m.said):
                return name
    if m.verdict == "survived":
        return ""
    return " ".join(re.sub(r"`[^`]*`", "_", m.said).split())[:80]
